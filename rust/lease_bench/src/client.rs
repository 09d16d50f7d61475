//! A client that is called many times, for `bench/client`.
use std::prelude::{Vec, vec};

use smblease::proved::lease_client::{Answer, Client, Command, lease_key};
use smblease::proved::lease_state::{Access, Bytes, FileId, FileNo, LeaseState, Memory, Patch, Reply, Share};
use smblease::proved::lease_wire::{CreateAnswer, write_create_reply};
use std::alloc::Global;

const GUID: [u8; 16] = [0x11; 16];

const FILE: FileNo = FileNo(1);

const SIZE: usize = 1_048_576;

// A client whose file is open under this state.
fn opened(alloc: Global, state: u32) -> Result<Client, Memory> {
    let client = Client::new(alloc, GUID, 1)?.connect()?.client;
    let open = Command::Open {
        file: FILE,
        access: Access::ReadWrite,
        share: Share::ReadWrite,
        want: LeaseState::from_wire(7),
        durable: false,
    };
    let client = client.app(open)?.client;
    let mut contexts = Vec::new(alloc);
    let answer = CreateAnswer { lease: Some((lease_key(GUID, FILE), LeaseState::from_wire(state), false)), durable: false };
    write_create_reply(&answer, &mut contexts)?;
    let created = Reply::Created { file: FILE, fid: FileId(1), contexts: Bytes::new(contexts) };
    Ok(client.take(created)?.client)
}

// Writes that are sent, and their answers.
fn write_many(alloc: Global, count: u32) -> Result<u64, Memory> {
    let mut client = opened(alloc, 3)?;
    let mut sum = 0u64;
    for turn in 0..count {
        let bytes = Bytes::new(Vec::from_slice(alloc, &[(turn % 256) as u8; 64])?);
        let patch = Patch { offset: turn % 1000, bytes };
        let step = client.app(Command::Write { file: FILE, patch })?;
        sum = sum.wrapping_add(step.requests.len() as u64);
        let done = Reply::WriteDone { fid: FileId(1), number: u64::from(turn) + 1 };
        let step = step.client.take(done)?;
        sum = sum.wrapping_add(step.notes.len() as u64);
        client = step.client;
    }
    Ok(sum)
}

// Reads of a large file from the cache.
fn read_many(alloc: Global, count: u32) -> Result<u64, Memory> {
    let client = opened(alloc, 1)?.app(Command::Read { file: FILE })?.client;
    let done = Reply::ReadDone { fid: FileId(1), bytes: Bytes::new(vec![in alloc; 7; SIZE]?) };
    let mut client = client.take(done)?.client;
    let mut sum = 0u64;
    for _ in 0..count {
        let step = client.app(Command::Read { file: FILE })?;
        if let Answer::Bytes(bytes, true) = &step.answer {
            sum = sum.wrapping_add(bytes.len() as u64);
        }
        client = step.client;
    }
    Ok(sum)
}

/// `write` or `read`, and how often: a number for what the client gave.
pub(crate) fn sum_of(alloc: Global, words: &[&str]) -> Option<u64> {
    let count = words.get(1)?.parse::<u32>().ok()?;
    match *words.first()? {
        "write" => write_many(alloc, count).ok(),
        "read" => read_many(alloc, count).ok(),
        _ => None,
    }
}
