// Made by tools/plain_rust from crates/lease_world/src/world/replies.rt. Changes belong there.

use std::prelude::Vec;

use crate::proved::lease_state::{Bytes, FileId, Memory, Reply};
use crate::proved::lease_world::world::contents::Contents;
use std::alloc::Global;
use std::collections::VecDeque;
use std::ports::bytes::Bytes as Shared;

// Fewer bytes than this are copied sooner than they are shared.
const LEAST: usize = 256;

// A reply on its way: whole, or a read of many bytes, which it shares.
#[derive(Debug)]
enum Held {
    Message(Reply),
    Read { fid: FileId, bytes: Shared },
}

/// The replies on their way to a client, the oldest first.
// docs/DECISIONS.md: "Replies on their way share what was read".
#[derive(Debug)]
pub struct Replies {
    held: VecDeque<Held>,
}

impl Replies {
    /// None. Allocates nothing.
    pub fn new(alloc: Global) -> Replies {
        Replies { held: VecDeque::new(alloc) }
    }

    /// Whether there is none.
    pub fn is_empty(&self) -> bool {
        self.held.is_empty()
    }

    /// There are none any more.
    pub fn clear(&mut self) {
        self.held.clear();
    }

    /// A reply more is on its way.
    ///
    /// # Errors
    ///
    /// `Memory` where there is none left for it.
    pub fn push(&mut self, contents: &mut Contents, reply: Reply) -> Result<(), Memory> {
        let held = hold(contents, reply)?;
        self.held.push_back(held)?;
        Ok(())
    }

    /// The oldest reply, which is taken; `None` where there is none.
    ///
    /// # Errors
    ///
    /// `Memory` where there is none left for the bytes of a read.
    pub fn pop(&mut self, alloc: Global) -> Result<Option<Reply>, Memory> {
        match self.held.pop_front() {
            Some(held) => Ok(Some(reply_of(alloc, held)?)),
            None => Ok(None),
        }
    }
}

// A reply as it is held while it is on its way.
fn hold(contents: &mut Contents, reply: Reply) -> Result<Held, Memory> {
    match reply {
        Reply::ReadDone { fid, bytes } => hold_read(contents, fid, bytes),
        message => Ok(Held::Message(message)),
    }
}

// A read, whose bytes are shared where they are many.
fn hold_read(contents: &mut Contents, fid: FileId, bytes: Bytes) -> Result<Held, Memory> {
    if bytes.len() < LEAST {
        return Ok(Held::Message(Reply::ReadDone { fid, bytes }));
    }
    Ok(Held::Read { fid, bytes: contents.share(bytes)? })
}

// The reply again, with bytes of its own.
fn reply_of(alloc: Global, held: Held) -> Result<Reply, Memory> {
    match held {
        Held::Message(message) => Ok(message),
        Held::Read { fid, bytes } => Ok(Reply::ReadDone { fid, bytes: Bytes::new(Vec::from_slice(alloc, bytes.as_slice())?) }),
    }
}
