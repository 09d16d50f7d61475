// Made by tools/plain_rust from crates/leasecheck/src/wire/words.rt. Changes belong there.

use std::prelude::String;

use crate::proved::lease_texts::state_letters;
use smblease::proved::lease_state::FileId;
use smblease::proved::lease_wire::{Context, ContextValues, Lease};
use std::alloc::{AllocError, Global};

// The digits of a name, or a hyphen where it is empty.
fn name_digits(alloc: Global, name: &[u8]) -> Result<String, AllocError> {
    if name.is_empty() { String::from_str(alloc, "-") } else { std::ports::hex::encode(alloc, name) }
}

/// A line for a create context.
pub(crate) fn push_context(alloc: Global, text: &mut String, context: &Context) -> Result<(), AllocError> {
    let name = name_digits(alloc, context.name)?;
    let count = context.body.len();
    writeln!(text, "context {name} {count}")
}

fn push_lease(text: &mut String, lease: &Option<Lease>) -> Result<(), AllocError> {
    let Some(lease) = lease else {
        return Ok(());
    };
    let mut buffer = [0u8; 36];
    let key = lease.key.text(&mut buffer);
    let letters = state_letters(lease.state);
    let end = if lease.breaking { " breaking" } else { "" };
    writeln!(text, "lease {key} {letters}{end}")
}

fn push_durable(text: &mut String, durable: bool) -> Result<(), AllocError> {
    if durable {
        text.push_str("durable\n")?;
    }
    Ok(())
}

fn push_reconnect(text: &mut String, reconnect: Option<FileId>) -> Result<(), AllocError> {
    match reconnect {
        Some(file_id) => {
            let number = file_id.0;
            writeln!(text, "reconnect {number}")
        }
        None => Ok(()),
    }
}

/// A line for each part that is there, or `nothing`.
pub(crate) fn push_values(text: &mut String, values: &ContextValues) -> Result<(), AllocError> {
    let leased = values.lease.is_some();
    let reconnects = values.reconnect.is_some();
    if !(leased || (values.durable || reconnects)) {
        return text.push_str("nothing\n");
    }
    push_lease(text, &values.lease)?;
    push_durable(text, values.durable)?;
    push_reconnect(text, values.reconnect)
}
