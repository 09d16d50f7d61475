// Made by tools/plain_rust from crates/lease_reasons/src/extent.rt. Changes belong there.

use std::prelude::Vec;

use crate::proved::lease_reasons::clients::Clients;
use smblease::proved::lease_facts::{Fact, Verdict};
use smblease::proved::lease_state::{ClientNo, Memory};
use std::alloc::Global;

/// How much of a record was judged. A judge goes no further than the first bad fact.
#[derive(Debug)]
pub struct Extent {
    /// How many facts were judged.
    pub facts: usize,
    /// The clients that these are about, in the order in which they come.
    pub clients: Vec<ClientNo>,
    /// Those of them that didn't join: their caches and cached reads aren't judged.
    pub unjoined: Vec<ClientNo>,
    /// Those of them that strayed, in whose name a request was sent that their machine didn't make:
    /// no rule says anything of them.
    pub strayed: Vec<ClientNo>,
}

fn unjoined(alloc: Global, clients: &Clients) -> Result<Vec<ClientNo>, Memory> {
    let mut some = Vec::new(alloc);
    for client in &clients.named {
        if !clients.standing(*client).joined {
            some.push(*client)?;
        }
    }
    Ok(some)
}

fn strayed(alloc: Global, clients: &Clients) -> Result<Vec<ClientNo>, Memory> {
    let mut some = Vec::new(alloc);
    for client in &clients.named {
        if clients.standing(*client).strayed {
            some.push(*client)?;
        }
    }
    Ok(some)
}

// How many of so many facts were judged.
fn judged_count(count: usize, verdict: &Verdict) -> usize {
    match verdict {
        Verdict::Safe => count,
        Verdict::Unsafe { place, .. } | Verdict::Malformed { place } => count.min(*place as usize),
    }
}

/// How much of a record was judged, by the verdict on it.
///
/// # Errors
///
/// `Memory` where there is none left for the lists of clients.
pub fn extent_of(alloc: Global, facts: &[Fact], verdict: &Verdict) -> Result<Extent, Memory> {
    let count = judged_count(facts.len(), verdict);
    let clients = Clients::of(alloc, &facts[..count])?;
    let unjoined = unjoined(alloc, &clients)?;
    let strayed = strayed(alloc, &clients)?;
    Ok(Extent { facts: count, clients: clients.named, unjoined, strayed })
}
