// Made by tools/plain_rust from crates/leasecheck/src/wire/acknowledge.rt. Changes belong there.

use std::prelude::{String, format};

use crate::proved::leasecheck::failure::Failure;
use smblease::proved::lease_wire::{Acknowledgment, Notification};
use std::alloc::{AllocError, Global};

// The line of the acknowledgment, or that none is due.
fn answer_text(alloc: Global, notification: &Notification) -> Result<String, AllocError> {
    match Acknowledgment::due(notification) {
        Some(acknowledgment) => {
            let digits = std::ports::hex::encode(alloc, acknowledgment.encode())?;
            format!(in alloc; "{digits}\n")
        }
        None => format!(in alloc; "no acknowledgment due\n"),
    }
}

/// Says how many bytes were left over, where there are any.
pub(crate) fn push_rest(text: &mut String, count: usize) -> Result<(), AllocError> {
    if count > 0 {
        writeln!(text, "rest {count}")?;
    }
    Ok(())
}

/// What `leasecheck ack` prints for the bytes of a notification: the acknowledgment, and how many
/// bytes follow.
///
/// # Errors
///
/// The fault of the notification, and where it has none `Memory`, where there is none left.
pub fn ack_lines(alloc: Global, bytes: &[u8]) -> Result<String, Failure> {
    let (notification, rest) = Notification::decode(bytes)?;
    let mut text = answer_text(alloc, &notification)?;
    push_rest(&mut text, rest.len())?;
    Ok(text)
}
