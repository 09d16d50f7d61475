// Made by tools/plain_rust from crates/lease_reasons/src/malformed.rt. Changes belong there.

use crate::proved::lease_reasons::marks::Mark;
use crate::proved::lease_reasons::messages::Messages;
use crate::proved::lease_reasons::reason::Reason;
use smblease::proved::lease_facts::Fact;
use smblease::proved::lease_state::{ClientNo, FileNo, Memory, Patch};
use std::alloc::Global;

fn not_started(facts: &[Fact], file: FileNo) -> Option<Reason> {
    match Mark::Start(file).last(facts) {
        Some(_) => None,
        None => Some(Reason::NotStarted { file }),
    }
}

fn started_again(facts: &[Fact], file: FileNo) -> Option<Reason> {
    let before = Mark::Start(file).last(facts)?;
    Some(Reason::StartedAgain { file, before })
}

fn past_limit(patch: &Patch) -> Option<Reason> {
    if patch.is_within_limit() {
        return None;
    }
    let end = u128::from(patch.offset) + patch.bytes.len() as u128;
    Some(Reason::PastLimit { end })
}

fn number_used(facts: &[Fact], client: ClientNo, number: u64) -> Option<Reason> {
    let before = Mark::Write(client, number).last(facts)?;
    Some(Reason::NumberUsed { client, number, before })
}

// Why the client can't take a message, if it can't.
fn nothing_taken(alloc: Global, facts: &[Fact], client: ClientNo) -> Result<Option<Reason>, Memory> {
    let Some(joined) = Mark::Joining(client).last(facts) else {
        return Ok(Some(Reason::NotJoined { client }));
    };
    let messages = Messages::of(alloc, facts, client)?;
    let sent = messages.sent();
    if messages.taken() < sent {
        return Ok(None);
    }
    Ok(Some(Reason::NothingToTake { client, joined, sent }))
}

/// Why a fact after these is malformed, if it is.
///
/// # Errors
///
/// `Memory` where there is none left for the messages of a client.
pub fn malformed(alloc: Global, facts: &[Fact], fact: &Fact) -> Result<Option<Reason>, Memory> {
    Ok(match fact {
        Fact::Start(file, _) => started_again(facts, *file),
        Fact::Took(client) => nothing_taken(alloc, facts, *client)?,
        Fact::Expired(_, file) | Fact::Opened(file, _) | Fact::Believes(_, file, _) | Fact::CachedRead(_, file, _) => {
            not_started(facts, *file)
        }
        Fact::Changed(file, _, _, patch) => not_started(facts, *file).or(past_limit(patch)),
        Fact::Wrote(client, file, number, patch, _) => {
            not_started(facts, *file).or(past_limit(patch)).or(number_used(facts, *client, *number))
        }
        _ => None,
    })
}
