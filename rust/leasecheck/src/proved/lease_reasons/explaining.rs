// Made by tools/plain_rust from crates/lease_reasons/src/explaining.rt. Changes belong there.

use crate::proved::lease_reasons::beliefs::two_caches;
use crate::proved::lease_reasons::malformed::malformed;
use crate::proved::lease_reasons::reads::expected;
use crate::proved::lease_reasons::reason::Reason;
use crate::proved::lease_reasons::writes::{false_done, late_write};
use smblease::proved::lease_client::Settlement;
use smblease::proved::lease_facts::{Fact, Rule, Verdict};
use smblease::proved::lease_state::{ClientNo, FileNo, Memory};
use std::alloc::Global;

// Why the client's cached read of the file isn't fresh.
fn read_reason(alloc: Global, facts: &[Fact], client: ClientNo, file: FileNo) -> Result<Reason, Memory> {
    match expected(alloc, facts, client, file)? {
        None => Ok(Reason::NoMessage { client, file }),
        Some(expected) => Ok(Reason::StaleRead { client, file, expected }),
    }
}

// Why a fact after these is no fresh cached read.
fn stale(alloc: Global, facts: &[Fact], fact: &Fact) -> Result<Option<Reason>, Memory> {
    match fact {
        Fact::CachedRead(client, file, _) => {
            let told = read_reason(alloc, facts, *client, *file)?;
            Ok(Some(told))
        }
        _ => Ok(None),
    }
}

// Why a fact after these is a late change.
fn late(facts: &[Fact], fact: &Fact) -> Option<Reason> {
    match fact {
        Fact::Changed(file, client, number, _) => late_write(facts, *client, *file, *number),
        _ => None,
    }
}

// Why a fact after these reports a false done.
fn done(facts: &[Fact], fact: &Fact) -> Option<Reason> {
    match fact {
        Fact::Settled(client, number, Settlement::Done) => Some(false_done(facts, *client, *number)),
        _ => None,
    }
}

// Why two cache one file after these facts.
fn cached(alloc: Global, facts: &[Fact]) -> Result<Option<Reason>, Memory> {
    match two_caches(alloc, facts)? {
        None => Ok(None),
        Some((file, rivals)) => Ok(Some(Reason::TwoCaches { file, writer: rivals.writer, other: rivals.other })),
    }
}

// Why the fact at this index breaks the rule.
fn broken(alloc: Global, facts: &[Fact], index: usize, rule: Rule) -> Result<Option<Reason>, Memory> {
    let (past, fact) = (&facts[..index], &facts[index]);
    match rule {
        Rule::OneWriteCache => cached(alloc, &facts[..index + 1]),
        Rule::FreshCachedReads => stale(alloc, past, fact),
        Rule::NoLateWrite => Ok(late(past, fact)),
        Rule::NoFalseDone => Ok(done(past, fact)),
    }
}

// The index of the fact at a place, if there is one.
fn index_of(place: u64, count: usize) -> Option<usize> {
    if place == 0 || place > count as u64 { None } else { Some((place - 1) as usize) }
}

/// Why the verdict on a record is what it is: a reason of its place and its rule, and none where the record is safe.
///
/// # Errors
///
/// `Memory` where there is none left for the search.
pub fn explain(alloc: Global, facts: &[Fact], verdict: &Verdict) -> Result<Option<Reason>, Memory> {
    match verdict {
        Verdict::Safe => Ok(None),
        Verdict::Unsafe { place, rule } => match index_of(*place, facts.len()) {
            None => Ok(None),
            Some(index) => broken(alloc, facts, index, *rule),
        },
        Verdict::Malformed { place } => match index_of(*place, facts.len()) {
            None => Ok(None),
            Some(index) => malformed(alloc, &facts[..index], &facts[index]),
        },
    }
}
