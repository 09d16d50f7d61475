use crate::plain::Server;
use crate::plain::open::{Key, Lease, Open};
use smblease::proved::lease_state::{ClientNo, FileId, LeaseState, Memory, Reply, Request, Status};
use smblease::proved::share_server::Out;
use std::alloc::Global;
use std::mem;
use std::prelude::Vec;

impl Server {
    pub(super) fn alloc(&self) -> Global {
        *self.opens.allocator()
    }

    pub(super) fn send(&mut self, client: ClientNo, reply: Reply) -> Result<(), Memory> {
        self.outs.push(Out::Sent(client, reply))?;
        Ok(())
    }

    pub(super) fn refuse(&mut self, client: ClientNo, request: &Request, status: Status) -> Result<(), Memory> {
        let reply = match *request {
            Request::Create { file, .. } => Reply::CreateFailed { file, status },
            Request::Read { fid } => Reply::ReadFailed { fid, status },
            Request::Write { fid, number, .. } => Reply::WriteFailed { fid, number, status },
            Request::Close { fid } => Reply::CloseFailed { fid, status },
            Request::Ack(_) => Reply::AckFailed { status },
        };
        self.send(client, reply)
    }

    // What was given out since this was asked last.
    pub(super) fn given_out(&mut self) -> Vec<Out> {
        let none = Vec::new(self.alloc());
        mem::replace(&mut self.outs, none)
    }

    pub(super) fn connected(&self, client: ClientNo, fid: FileId) -> Option<Open> {
        self.opens.iter().find(|one| one.fid == fid && one.client == client && one.connected).copied()
    }

    pub(super) fn lease(&self, key: Key) -> Option<Lease> {
        self.leases.iter().find(|one| one.key == key).copied()
    }

    // What a key's lease holds; nothing where it has none.
    pub(super) fn state(&self, key: Key) -> LeaseState {
        self.lease(key).map_or(LeaseState::NONE, |lease| lease.state)
    }

    pub(super) fn put_lease(&mut self, lease: Lease) -> Result<(), Memory> {
        self.leases.retain(|one| one.key != lease.key);
        self.leases.push(lease)?;
        Ok(())
    }

    // Keeps the leases whose key an open has.
    pub(super) fn drop_leases(&mut self) {
        let opens = &self.opens;
        self.leases.retain(|lease| opens.iter().any(|one| one.key == Some(lease.key)));
    }

    // The client's opens that don't outlive its connection are closed, and its others wait for it.
    pub(super) fn lose_opens(&mut self, client: ClientNo) {
        let leases = &self.leases;
        self.opens.retain(|one| one.client != client || !one.connected || one.outlasts(leases));
        for one in self.opens.iter_mut() {
            one.connected = one.connected && one.client != client;
        }
        self.drop_leases();
    }
}

/// Whether the states have something in common.
pub fn meet(state: LeaseState, other: LeaseState) -> bool {
    state.to_wire() & other.to_wire() != 0
}

/// What of a state is left where another is taken away.
pub fn without(state: LeaseState, taken: LeaseState) -> LeaseState {
    LeaseState::from_wire(state.to_wire() & !taken.to_wire())
}
