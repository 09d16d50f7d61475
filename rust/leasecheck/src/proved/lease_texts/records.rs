// Made by tools/plain_rust from crates/lease_texts/src/records.rt. Changes belong there.

//! Records as texts: a line for each fact.
use std::prelude::String;

use crate::proved::lease_texts::fault::LineFault;
use crate::proved::lease_texts::fields::Fields;
use crate::proved::lease_texts::kinds::Field::{Bytes, Client, Content, File, Number, Offset, Outcome, State, Way};
use crate::proved::lease_texts::kinds::{Row, Table};
use crate::proved::lease_texts::said::line;
use smblease::proved::lease_client::SharedBytes;
use smblease::proved::lease_facts::Fact;
use smblease::proved::lease_state::Patch;
use std::alloc::{AllocError, Global};

const FACTS: &[Row] = &[
    Row("start", &[File, Content]),
    Row("joined", &[Client]),
    Row("dropped", &[Client]),
    Row("expired", &[Client, File]),
    Row("sent", &[Client]),
    Row("took", &[Client]),
    Row("opened", &[File, Client]),
    Row("changed", &[File, Client, Number, Offset, Bytes]),
    Row("wrote", &[Client, File, Number, Offset, Bytes, Way]),
    Row("settled", &[Client, Number, Outcome]),
    Row("believes", &[Client, File, State]),
    Row("cachedread", &[Client, File, Bytes]),
    Row("strayed", &[Client]),
];

/// The lines of records.
pub fn fact_table() -> Table {
    Table("a kind of fact", FACTS)
}

// ---- reading

// Facts of the kinds of which a record has fewer.
#[inline(always)]
fn read_rarer(alloc: Global, fields: &mut Fields) -> Result<Fact, LineFault> {
    if fields.takes(b"cachedread") {
        let (client, file) = (fields.client()?, fields.file()?);
        Ok(Fact::CachedRead(client, file, SharedBytes::new(fields.bytes(alloc)?)?))
    } else if fields.takes(b"joined") {
        Ok(Fact::Joined(fields.client()?))
    } else if fields.takes(b"dropped") {
        Ok(Fact::Dropped(fields.client()?))
    } else if fields.takes(b"expired") {
        Ok(Fact::Expired(fields.client()?, fields.file()?))
    } else if fields.takes(b"start") {
        Ok(Fact::Start(fields.file()?, fields.file_bytes(alloc)?))
    } else if fields.takes(b"strayed") {
        Ok(Fact::Strayed(fields.client()?))
    } else {
        Err(LineFault::Refused)
    }
}

// Facts of writes, and of the rarer kinds.
#[inline(always)]
fn read_write(alloc: Global, fields: &mut Fields) -> Result<Fact, LineFault> {
    if fields.takes(b"changed") {
        let (file, client) = (fields.file()?, fields.client()?);
        let number = fields.number()?;
        let patch = Patch { offset: fields.offset()?, bytes: fields.bytes(alloc)? };
        Ok(Fact::Changed(file, client, number, patch))
    } else if fields.takes(b"wrote") {
        let (client, file) = (fields.client()?, fields.file()?);
        let number = fields.number()?;
        let patch = Patch { offset: fields.offset()?, bytes: fields.bytes(alloc)? };
        Ok(Fact::Wrote(client, file, number, patch, fields.way()?))
    } else if fields.takes(b"settled") {
        Ok(Fact::Settled(fields.client()?, fields.number()?, fields.outcome()?))
    } else {
        read_rarer(alloc, fields)
    }
}

// The fact that the fields of a line are, which may go on. The kinds of which a record has most are tried first.
#[inline(always)]
fn read_kind(alloc: Global, fields: &mut Fields) -> Result<Fact, LineFault> {
    if fields.takes(b"sent") {
        Ok(Fact::Sent(fields.client()?))
    } else if fields.takes(b"took") {
        Ok(Fact::Took(fields.client()?))
    } else if fields.takes(b"believes") {
        Ok(Fact::Believes(fields.client()?, fields.file()?, fields.state()?))
    } else if fields.takes(b"opened") {
        Ok(Fact::Opened(fields.file()?, fields.client()?))
    } else {
        read_write(alloc, fields)
    }
}

/// The fact that a line of a record is.
///
/// # Errors
///
/// `Refused` where the line is none, and `Memory` where there is none left for what it holds.
#[inline(always)]
pub fn read_fact(alloc: Global, line: &[u8]) -> Result<Fact, LineFault> {
    let mut fields = Fields::of(line);
    let fact = read_kind(alloc, &mut fields)?;
    fields.end()?;
    Ok(fact)
}

// ---- writing

/// Adds the line of a fact.
pub fn push_fact(text: &mut String, told: &Fact) -> Result<(), AllocError> {
    match told {
        Fact::Start(file, bytes) => line!(text, "start", File: *file, Content: bytes.as_slice()),
        Fact::Joined(client) => line!(text, "joined", Client: *client),
        Fact::Dropped(client) => line!(text, "dropped", Client: *client),
        Fact::Expired(client, file) => line!(text, "expired", Client: *client, File: *file),
        Fact::Sent(client) => line!(text, "sent", Client: *client),
        Fact::Took(client) => line!(text, "took", Client: *client),
        Fact::Opened(file, client) => line!(text, "opened", File: *file, Client: *client),
        Fact::Changed(file, client, number, patch) => line!(text, "changed", File: *file, Client: *client, Number: *number,
                Offset: patch.offset, Bytes: patch.bytes.as_slice()),
        Fact::Wrote(client, file, number, patch, buffered) => line!(text, "wrote", Client: *client, File: *file, Number: *number,
                Offset: patch.offset, Bytes: patch.bytes.as_slice(), Way: *buffered),
        Fact::Settled(client, number, outcome) => line!(text, "settled", Client: *client, Number: *number, Outcome: *outcome),
        Fact::Believes(client, file, state) => line!(text, "believes", Client: *client, File: *file, State: *state),
        Fact::CachedRead(client, file, bytes) => line!(text, "cachedread", Client: *client, File: *file, Bytes: bytes.as_slice()),
        Fact::Strayed(client) => line!(text, "strayed", Client: *client),
    }
}
