// Made by tools/plain_rust from crates/lease_manager/src/outs.rt. Changes belong there.

use std::prelude::Vec;

use crate::proved::lease_manager::values::decision::CreateAnswer;
use crate::proved::lease_manager::values::key::LeaseName;
use crate::proved::lease_manager::values::number::ClientNo;
use crate::proved::lease_manager::values::out::Out;
use crate::proved::lease_state::{FileId, LeaseState, Memory, Status};
use std::alloc::Global;

/// What the server of the rules gives out for one request so far, in order, without bytes.
#[derive(Debug)]
pub struct Outs {
    items: Vec<Out>,
}

impl Outs {
    /// Nothing yet. Allocates nothing.
    pub fn new(alloc: Global) -> Outs {
        Outs { items: Vec::new(alloc) }
    }

    /// What was given out, in order.
    pub fn items(&self) -> &[Out] {
        self.items.as_slice()
    }

    /// One more.
    fn push(&mut self, out: Out) -> Result<(), Memory> {
        self.items.push(out)?;
        Ok(())
    }

    /// The file was opened for the client.
    pub fn opened(&mut self) -> Result<(), Memory> {
        self.push(Out::Opened)
    }

    /// The file was changed by the client's write.
    pub fn changed(&mut self) -> Result<(), Memory> {
        self.push(Out::Changed)
    }

    /// The request is refused.
    pub fn refuse(&mut self, client: ClientNo, status: Status) -> Result<(), Memory> {
        self.push(Out::Refused { client, status })
    }

    /// A read is done.
    pub fn read_done(&mut self, client: ClientNo) -> Result<(), Memory> {
        self.push(Out::ReadDone { client })
    }

    /// A write is done.
    pub fn write_done(&mut self, client: ClientNo) -> Result<(), Memory> {
        self.push(Out::WriteDone { client })
    }

    /// An open is closed.
    pub fn close_done(&mut self, client: ClientNo) -> Result<(), Memory> {
        self.push(Out::Closed { client })
    }

    /// An acknowledgment is refused.
    pub fn refuse_ack(&mut self, client: ClientNo, status: Status) -> Result<(), Memory> {
        self.push(Out::NotAcknowledged { client, status })
    }

    /// A break of the lease is acknowledged, and it has this state.
    pub fn ack_done(&mut self, key: LeaseName, state: LeaseState) -> Result<(), Memory> {
        self.push(Out::Acknowledged { key, state })
    }

    /// The client is sent the break of its lease, from this state to that.
    pub fn lease_broken(&mut self, key: LeaseName, current: LeaseState, lowered: LeaseState) -> Result<(), Memory> {
        self.push(Out::Broken { key, current, lowered })
    }

    /// A create is done.
    pub fn created(&mut self, client: ClientNo, file_id: FileId, answer: CreateAnswer) -> Result<(), Memory> {
        self.push(Out::Created { client, file_id, answer })
    }
}
