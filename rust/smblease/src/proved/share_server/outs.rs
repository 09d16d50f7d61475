// Made by tools/plain_rust from crates/share_server/src/outs.rt. Changes belong there.

use std::prelude::Vec;

use crate::proved::lease_manager::{BreakNotice, CreateAnswer};
use crate::proved::lease_state::{Bytes, ClientNo, FileId, FileNo, LeaseKey, LeaseState, Memory, Patch, Reply, Status};
use crate::proved::lease_wire::{BreakResponse, Notification, write_create_reply};
use crate::proved::share_server::values::out::Out;
use crate::proved::share_server::values::request::FileRequest;
use std::alloc::Global;

/// What a call gives out so far, in order, with its bytes. Contracts see what the rules give out,
/// and every item is written as those are.
#[derive(Debug)]
pub struct Outs {
    items: Vec<Out>,
}

impl Outs {
    /// Nothing yet. Allocates nothing.
    pub fn new(alloc: Global) -> Outs {
        Outs { items: Vec::new(alloc) }
    }

    /// One more, which is written as what is read in it.
    fn push(&mut self, out: Out) -> Result<(), Memory> {
        self.items.push(out)?;
        Ok(())
    }

    /// The file was opened for the client.
    pub fn opened(&mut self, file: FileNo, client: ClientNo) -> Result<(), Memory> {
        self.push(Out::Opened(file, client))
    }

    /// The file was changed by the client's write of this number.
    pub fn changed(&mut self, file: FileNo, client: ClientNo, number: u64, patch: Patch) -> Result<(), Memory> {
        self.push(Out::Changed(file, client, number, patch))
    }

    // A reply is sent that is written as what is read in it.
    fn send(&mut self, client: ClientNo, reply: Reply) -> Result<(), Memory> {
        self.push(Out::Sent(client, reply))
    }

    /// The request is refused.
    pub fn refuse(&mut self, client: ClientNo, request: &FileRequest, status: Status) -> Result<(), Memory> {
        match request {
            FileRequest::Create { file, .. } => self.refuse_create(client, *file, status),
            FileRequest::Read { fid } => self.send(client, Reply::ReadFailed { fid: *fid, status }),
            FileRequest::Write { fid, number, .. } => {
                self.send(client, Reply::WriteFailed { fid: *fid, number: *number, status })
            }
            FileRequest::Close { fid } => self.send(client, Reply::CloseFailed { fid: *fid, status }),
        }
    }

    /// A create is refused.
    pub fn refuse_create(&mut self, client: ClientNo, file: FileNo, status: Status) -> Result<(), Memory> {
        self.send(client, Reply::CreateFailed { file, status })
    }

    /// A read is done.
    pub fn read_done(&mut self, client: ClientNo, fid: FileId, bytes: Bytes) -> Result<(), Memory> {
        self.send(client, Reply::ReadDone { fid, bytes })
    }

    /// A write is done.
    pub fn write_done(&mut self, client: ClientNo, fid: FileId, number: u64) -> Result<(), Memory> {
        self.send(client, Reply::WriteDone { fid, number })
    }

    /// An open is closed.
    pub fn closed(&mut self, client: ClientNo, fid: FileId) -> Result<(), Memory> {
        self.send(client, Reply::Closed { fid })
    }

    /// An acknowledgment is refused.
    pub fn refuse_ack(&mut self, client: ClientNo, status: Status) -> Result<(), Memory> {
        self.send(client, Reply::AckFailed { status })
    }

    /// A break of the lease is acknowledged, and it has this state.
    pub fn ack_done(&mut self, client: ClientNo, key: LeaseKey, state: LeaseState) -> Result<(), Memory> {
        let response = BreakResponse { key, state };
        self.send(client, Reply::AckDone(response.encode()))?;
        Ok(())
    }

    /// The client is sent the notice of a break.
    pub fn lease_broken(&mut self, client: ClientNo, given: BreakNotice) -> Result<(), Memory> {
        let notice =
            Notification { ack_required: given.ack_required, key: given.key, current: given.current, new: given.lowered };
        self.send(client, Reply::Break(notice.encode()))?;
        Ok(())
    }

    /// A create is done.
    pub fn created(&mut self, client: ClientNo, file: FileNo, fid: FileId, given: CreateAnswer) -> Result<(), Memory> {
        let answer = crate::proved::lease_wire::CreateAnswer { lease: given.lease, durable: given.durable };
        full_key(&answer);
        let mut text = Vec::new(self.alloc());
        write_create_reply(&answer, &mut text)?;
        let contexts = Bytes::new(text);
        self.send(client, Reply::Created { file, fid, contexts })
    }

    /// The allocator of the list.
    pub fn alloc(&self) -> Global {
        *self.items.allocator()
    }

    /// What was given out, in order.
    pub fn items(&self) -> &[Out] {
        self.items.as_slice()
    }

    /// The list. Allocates nothing.
    pub fn into_vec(self) -> Vec<Out> {
        let Outs { items } = self;
        items
    }
}

// The key in a reply has 16 bytes.
fn full_key(answer: &crate::proved::lease_wire::CreateAnswer) {
    if let Some(lease) = answer.lease {
        let _key = key_length(lease.0);
    }
}

// As many bytes as a key has.
fn key_length(key: LeaseKey) -> usize {
    key.0.len()
}
