//! A session of a file server with eight clients on eight files, for `bench/server`: each client opens a file, writes and
//! reads it; another opens it too, which breaks the first one's lease; the first acknowledges that, and both close.
use std::prelude::Vec;

use smblease::proved::lease_state::{Access, Bytes, ClientNo, Content, FileId, FileNo, Memory, Patch, Reply, Request, Share};
use smblease::proved::share_server::{Out, Server};
use std::alloc::Global;

// How many clients there are, and how many files.
const COUNT: u32 = 8;

// How many calls each file sees in a round.
const STEPS: u32 = 7;

// An RqLs context that asks for all that a lease can hold; byte 24 is the first of the key.
const LEASE_ASK: [u8; 56] = *b"\0\0\0\0\x10\0\x04\0\0\0\x18\0\x20\0\0\0RqLs\0\0\0\0\
\0\x01\x02\x03\x04\x05\x06\x07\x08\x09\x0a\x0b\x0c\x0d\x0e\x0f\x07\0\0\0\0\0\0\0\0\0\0\0\0\0\0\0";

// An acknowledgment of reads and handles; byte 8 is the first of the key.
const ACKNOWLEDGMENT: [u8; 36] = *b"\x24\0\0\0\0\0\0\0\
\0\x01\x02\x03\x04\x05\x06\x07\x08\x09\x0a\x0b\x0c\x0d\x0e\x0f\x03\0\0\0\0\0\0\0\0\0\0\0";

fn new_server(alloc: Global) -> Result<Server, Memory> {
    let mut files = Vec::new(alloc);
    for _file in 0..COUNT + 1 {
        match Content::new(Vec::from_slice(alloc, b"abc")?) {
            Ok(content) => files.push(content)?,
            Err(_) => return Err(Memory),
        }
    }
    Server::new(alloc, files)
}

// The opens that stand all the while.
#[derive(Clone, Copy)]
struct Standing {
    count: u32,
    /// Whether they are on the session's files, and not on the ninth.
    same_files: bool,
}

impl Standing {
    fn file(self, number: u32) -> u8 {
        if self.same_files { (number % COUNT + 1) as u8 } else { 9 }
    }
}

fn joined(alloc: Global, standing: Standing) -> Result<Server, Memory> {
    let mut server = new_server(alloc)?;
    for client in 1..=8u8 {
        let (next, _) = server.join(ClientNo(client))?;
        server = next;
    }
    for number in 0..standing.count {
        let asked = create(alloc, standing.file(number), b"")?;
        let (next, _) = server.receive(ClientNo(8), asked)?;
        server = next;
    }
    Ok(server)
}

fn create(alloc: Global, file: u8, contexts: &[u8]) -> Result<Request, Memory> {
    Ok(Request::Create {
        file: FileNo(file),
        access: Access::ReadWrite,
        share: Share::ReadWrite,
        contexts: Bytes::new(Vec::from_slice(alloc, contexts)?),
    })
}

fn lease_create(alloc: Global, file: u8) -> Result<Request, Memory> {
    let mut contexts = LEASE_ASK;
    contexts[24] = file;
    create(alloc, file, &contexts)
}

fn acknowledgment(file: u8) -> Request {
    let mut message = ACKNOWLEDGMENT;
    message[8] = file;
    Request::Ack(message)
}

fn write(alloc: Global, fid: FileId, turn: u32) -> Result<Request, Memory> {
    let bytes = Bytes::new(Vec::from_slice(alloc, &[(turn % 256) as u8])?);
    let patch = Patch { offset: turn % 64, bytes };
    Ok(Request::Write { fid, number: u64::from(turn), patch })
}

// The request of this step of a round, by its client on the file, and who asks it.
fn request(alloc: Global, step: u32, file: u8, turn: u32, standing: u32) -> Result<(ClientNo, Request), Memory> {
    let first = ClientNo(file);
    let second = ClientNo(file % 8 + 1);
    let mine = FileId(u64::from(standing) + u64::from(turn) * 16 + u64::from(file));
    let theirs = FileId(mine.0 + 8);
    Ok(match step {
        0 => (first, lease_create(alloc, file)?),
        1 => (first, write(alloc, mine, turn)?),
        2 => (first, Request::Read { fid: mine }),
        3 => (second, create(alloc, file, b"")?),
        4 => (first, acknowledgment(file)),
        5 => (first, Request::Close { fid: mine }),
        _ => (second, Request::Close { fid: theirs }),
    })
}

// A number for what was given out.
fn weight(out: &Out) -> u64 {
    match out {
        Out::Opened(file, client) => u64::from(file.0).wrapping_mul(3).wrapping_add(u64::from(client.0)),
        Out::Changed(file, _, number, _) => number.wrapping_add(u64::from(file.0)),
        Out::Sent(client, reply) => reply_weight(reply).wrapping_add(u64::from(client.0)),
    }
}

fn reply_weight(reply: &Reply) -> u64 {
    match reply {
        Reply::Created { fid, .. } => fid.0.wrapping_mul(5),
        Reply::ReadDone { bytes, .. } => bytes.len() as u64,
        Reply::WriteDone { number, .. } => number.wrapping_mul(7),
        Reply::Closed { fid } => fid.0,
        Reply::Break(message) => u64::from(message[24]).wrapping_mul(16).wrapping_add(u64::from(message[28])),
        Reply::AckDone(message) => u64::from(message[24]).wrapping_mul(256),
        _ => 1_000_003,
    }
}

fn weights(outs: &[Out]) -> u64 {
    let mut sum = 0u64;
    for out in outs {
        sum = sum.wrapping_add(weight(out));
    }
    sum
}

fn call(alloc: Global, server: Server, number: u32, standing: u32) -> Result<(Server, u64), Memory> {
    let file = (number % COUNT + 1) as u8;
    let (client, asked) = request(alloc, number / COUNT % STEPS, file, number / (COUNT * STEPS), standing)?;
    let (server, outs) = server.receive(client, asked)?;
    Ok((server, weights(&outs)))
}

fn session(alloc: Global, calls: u32, standing: Standing) -> Result<u64, Memory> {
    let mut server = joined(alloc, standing)?;
    let mut sum = 0u64;
    for number in 0..calls {
        let (next, more) = call(alloc, server, number, standing.count)?;
        server = next;
        sum = sum.wrapping_add(more);
    }
    Ok(sum)
}

/// How many calls there are, then how many opens stand all the while: on a ninth file, or, where the third word is `same`, on
/// the session's files. A number for what the server gave out.
pub(crate) fn sum_of(alloc: Global, words: &[&str]) -> Option<u64> {
    let calls = words.first()?.parse::<u32>().ok()?;
    let count = match words.get(1) {
        Some(word) => word.parse::<u32>().ok()?,
        None => 0,
    };
    let same_files = match words.get(2) {
        Some(word) => *word == "same",
        None => false,
    };
    let standing = Standing { count, same_files };
    session(alloc, calls, standing).ok()
}
