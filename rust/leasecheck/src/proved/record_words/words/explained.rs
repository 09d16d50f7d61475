// Made by tools/plain_rust from crates/record_words/src/words/explained.rt. Changes belong there.

use std::prelude::String;

use crate::proved::lease_reasons::{Extent, Reason, explain, extent_of};
use crate::proved::record_words::words::placed::Placed;
use crate::proved::record_words::words::reason_words::{push_place, push_reason};
use smblease::proved::lease_facts::Verdict;
use smblease::proved::lease_state::{ClientNo, Memory};
use std::alloc::{AllocError, Global};

fn push_unjoined(text: &mut String, clients: &[ClientNo]) -> Result<(), AllocError> {
    for client in clients {
        let client = client.0;
        writeln!(text, "client {client} hasn't joined: its caches and cached reads aren't judged")?;
    }
    Ok(())
}

fn push_strayed(text: &mut String, clients: &[ClientNo]) -> Result<(), AllocError> {
    for client in clients {
        let client = client.0;
        writeln!(text, "client {client} has strayed, so nothing of it is judged")?;
    }
    Ok(())
}

fn push_count(text: &mut String, facts: usize, clients: usize) -> Result<(), AllocError> {
    let some = if facts == 1 { "fact" } else { "facts" };
    let those = if clients == 1 { "client" } else { "clients" };
    writeln!(text, "judged: {facts} {some} of {clients} {those}")
}

fn push_extent(text: &mut String, extent: &Extent) -> Result<(), AllocError> {
    push_count(text, extent.facts, extent.clients.len())?;
    push_unjoined(text, extent.unjoined.as_slice())?;
    push_strayed(text, extent.strayed.as_slice())
}

/// The place of a bad fact.
pub fn bad_place(verdict: &Verdict) -> Option<usize> {
    match verdict {
        Verdict::Safe => None,
        Verdict::Unsafe { place, .. } | Verdict::Malformed { place } => Some(*place as usize),
    }
}

fn push_behind(
    alloc: Global,
    text: &mut String,
    placed: &Placed,
    place: usize,
    reason: &Option<Reason>,
) -> Result<(), AllocError> {
    match reason {
        None => Ok(()),
        Some(reason) => push_reason(alloc, text, placed, place, reason),
    }
}

fn push_bad(
    alloc: Global,
    text: &mut String,
    placed: &Placed,
    place: Option<usize>,
    reason: &Option<Reason>,
) -> Result<(), AllocError> {
    let Some(place) = place else {
        return Ok(());
    };
    push_place(alloc, text, placed, place, "")?;
    push_behind(alloc, text, placed, place, reason)
}

/// Adds why the verdict on a record is what it is, by a reason that was found, and how much was judged.
pub fn push_reasoned(
    alloc: Global,
    text: &mut String,
    placed: &Placed,
    verdict: &Verdict,
    reason: &Option<Reason>,
    extent: &Extent,
) -> Result<(), AllocError> {
    push_bad(alloc, text, placed, bad_place(verdict), reason)?;
    push_extent(text, extent)
}

/// Adds why the verdict on a record is what it is.
///
/// # Errors
///
/// `Memory` where there is none left for the search or the text.
pub fn push_explanation(alloc: Global, text: &mut String, placed: &Placed, verdict: &Verdict) -> Result<(), Memory> {
    let facts = placed.facts.as_slice();
    let reason = explain(alloc, facts, verdict)?;
    let extent = extent_of(alloc, facts, verdict)?;
    push_reasoned(alloc, text, placed, verdict, &reason, &extent)?;
    Ok(())
}
