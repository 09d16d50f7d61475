// Made by tools/plain_rust from crates/lease_reasons/src/beliefs.rt. Changes belong there.

use std::prelude::Vec;

use crate::proved::lease_reasons::clients::Clients;
use crate::proved::lease_reasons::last_beliefs::LastBeliefs;
use crate::proved::lease_reasons::reason::Belief;
use smblease::proved::lease_facts::Fact;
use smblease::proved::lease_state::{ClientNo, FileNo, Memory};
use std::alloc::Global;

// Whether the belief may go ill with another: its client is good, and it holds something.
fn may_clash(clients: &Clients, belief: &Belief) -> bool {
    !belief.state.is_none() && clients.is_good(belief.client)
}

fn note_clash(clashing: &mut Vec<Belief>, clients: &Clients, last: Option<Belief>) -> Result<(), Memory> {
    let Some(belief) = last else {
        return Ok(());
    };
    if may_clash(clients, &belief) {
        clashing.push(belief)?;
    }
    Ok(())
}

// Of the last beliefs of a file those that may go ill with another.
fn clashing(alloc: Global, clients: &Clients, beliefs: &[Option<Belief>]) -> Result<Vec<Belief>, Memory> {
    let mut clashing = Vec::new(alloc);
    for belief in beliefs {
        note_clash(&mut clashing, clients, *belief)?;
    }
    Ok(clashing)
}

fn writer_among(beliefs: &[Belief]) -> Option<Belief> {
    beliefs.iter().copied().find(|belief| belief.state.caches_writes())
}

fn other_among(beliefs: &[Belief], client: ClientNo) -> Option<Belief> {
    beliefs.iter().copied().find(|belief| belief.client != client)
}

/// Two beliefs of a file: one may cache writes, and another client may cache something.
#[derive(Clone, Copy, Debug)]
pub struct Rivals {
    pub writer: Belief,
    pub other: Belief,
}

fn rivals_among(beliefs: &[Belief]) -> Option<Rivals> {
    let writer = writer_among(beliefs)?;
    let other = other_among(beliefs, writer.client)?;
    Some(Rivals { writer, other })
}

// Puts beliefs into the order in which they were noted.
fn put_in_order(beliefs: &mut Vec<Belief>) {
    beliefs.sort_unstable_by_key(|belief| belief.place);
}

// Two good clients that cache a file, one of them writes, by the last beliefs of the file. The earliest are told.
fn rivals_on(alloc: Global, clients: &Clients, beliefs: &[Option<Belief>]) -> Result<Option<Rivals>, Memory> {
    let mut clashing = clashing(alloc, clients, beliefs)?;
    put_in_order(&mut clashing);
    Ok(rivals_among(clashing.as_slice()))
}

/// Two good clients that cache one file, one of them writes: of the file that a belief was noted of first, the earliest beliefs.
///
/// # Errors
///
/// `Memory` where there is none left for the beliefs of a file.
pub fn two_caches(alloc: Global, facts: &[Fact]) -> Result<Option<(FileNo, Rivals)>, Memory> {
    let clients = Clients::of(alloc, facts)?;
    let beliefs = LastBeliefs::of(alloc, facts)?;
    for file in beliefs.files.as_slice() {
        if let Some(rivals) = rivals_on(alloc, &clients, beliefs.of_file(*file))? {
            return Ok(Some((*file, rivals)));
        }
    }
    Ok(None)
}
