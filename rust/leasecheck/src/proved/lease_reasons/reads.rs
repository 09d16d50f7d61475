// Made by tools/plain_rust from crates/lease_reasons/src/reads.rt. Changes belong there.

use std::prelude::Vec;

use crate::proved::lease_reasons::marks::Mark;
use crate::proved::lease_reasons::messages::Messages;
use crate::proved::lease_reasons::reason::Expected;
use smblease::proved::lease_facts::Fact;
use smblease::proved::lease_state::{Bytes, ClientNo, FileNo, Memory};
use std::alloc::Global;
use std::collections::HashSet;

// The number of the client's write that a fact settles.
fn settled_told(fact: &Fact, client: ClientNo) -> Option<u64> {
    match fact {
        Fact::Settled(other, number, _) if *other == client => Some(*number),
        _ => None,
    }
}

fn put_number(numbers: &mut HashSet<u64>, number: u64) -> Result<(), Memory> {
    numbers.insert(number)?;
    Ok(())
}

fn note_settled(numbers: &mut HashSet<u64>, told: Option<u64>) -> Result<(), Memory> {
    match told {
        Some(number) => put_number(numbers, number),
        None => Ok(()),
    }
}

// The numbers of the client's writes that were settled.
fn settled(alloc: Global, facts: &[Fact], client: ClientNo) -> Result<HashSet<u64>, Memory> {
    let mut numbers = HashSet::new(alloc);
    for fact in facts {
        note_settled(&mut numbers, settled_told(fact, client))?;
    }
    Ok(numbers)
}

fn put_start(bytes: &mut Vec<u8>, fact: &Fact, file: FileNo) -> Result<(), Memory> {
    match fact {
        Fact::Start(other, first) if *other == file => {
            *bytes = first.try_copy()?.into_vec();
            Ok(())
        }
        _ => Ok(()),
    }
}

// The bytes with which the file was started.
fn start_of(alloc: Global, facts: &[Fact], file: FileNo) -> Result<Vec<u8>, Memory> {
    let mut bytes = Vec::new(alloc);
    for fact in facts {
        put_start(&mut bytes, fact, file)?;
    }
    Ok(bytes)
}

fn put_change(bytes: &mut Vec<u8>, fact: &Fact, file: FileNo) -> Result<(), Memory> {
    match fact {
        Fact::Changed(other, _, _, change) if *other == file => change.apply(bytes),
        _ => Ok(()),
    }
}

// Puts the changes of the file onto its bytes, in order.
fn put_changes(bytes: &mut Vec<u8>, facts: &[Fact], file: FileNo) -> Result<(), Memory> {
    for fact in facts {
        put_change(bytes, fact, file)?;
    }
    Ok(())
}

// Whether a fact gives the client a write of the file that has no answer.
fn is_waiting(fact: &Fact, client: ClientNo, file: FileNo, settled: &HashSet<u64>) -> bool {
    match fact {
        Fact::Wrote(writer, other, number, _, _) => *writer == client && *other == file && !settled.contains(number),
        _ => false,
    }
}

fn put_write(bytes: &mut Vec<u8>, fact: &Fact, waits: bool) -> Result<(), Memory> {
    match fact {
        Fact::Wrote(_, _, _, write, _) if waits => write.apply(bytes),
        _ => Ok(()),
    }
}

// Puts the client's writes of the file that have no answer onto its bytes, in order.
fn put_writes(bytes: &mut Vec<u8>, facts: &[Fact], client: ClientNo, file: FileNo, settled: &HashSet<u64>) -> Result<(), Memory> {
    for fact in facts {
        put_write(bytes, fact, is_waiting(fact, client, file, settled))?;
    }
    Ok(())
}

fn note_place(places: &mut Vec<usize>, place: usize, waits: bool) -> Result<(), Memory> {
    if waits {
        places.push(place)?;
    }
    Ok(())
}

// Where these writes stand.
fn waiting(alloc: Global, facts: &[Fact], client: ClientNo, file: FileNo, settled: &HashSet<u64>) -> Result<Vec<usize>, Memory> {
    let mut places = Vec::new(alloc);
    for (index, fact) in facts.iter().enumerate() {
        note_place(&mut places, index + 1, is_waiting(fact, client, file, settled))?;
    }
    Ok(places)
}

/// What a cached read of the client should give of the file, and why; `None` where it took no message since it joined.
///
/// # Errors
///
/// `Memory` where there is none left for the bytes and what leads to them.
pub fn expected(alloc: Global, facts: &[Fact], client: ClientNo, file: FileNo) -> Result<Option<Expected>, Memory> {
    let messages = Messages::of(alloc, facts, client)?;
    let Some(sent) = messages.last_sent() else {
        return Ok(None);
    };
    let Some(taken) = Mark::Taking(client).last(facts) else {
        return Ok(None);
    };
    let before = &facts[..sent - 1];
    let settled = settled(alloc, facts, client)?;
    let mut bytes = start_of(alloc, facts, file)?;
    put_changes(&mut bytes, before, file)?;
    put_writes(&mut bytes, facts, client, file, &settled)?;
    Ok(Some(Expected {
        taken,
        sent,
        started: Mark::Start(file).last(facts),
        changed: Mark::Change(file).last(before),
        unanswered: waiting(alloc, facts, client, file, &settled)?,
        bytes: Bytes::new(bytes),
    }))
}
