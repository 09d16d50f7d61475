use crate::manager::asks::create;
use crate::manager::weights::weight;
use smblease::proved::lease_manager::{Ask, ClientNo, CreateAsk, Decision, FileNo, Manager, Tag};
use smblease::proved::lease_state::{FileId, LeaseKey, LeaseState, Memory, Rules};
use std::alloc::Global;
use std::prelude::Vec;

/// A manager with its clients, and what was decided.
#[derive(Debug)]
pub struct Stage {
    manager: Manager,
    decisions: Vec<Decision>,
    calls: u64,
    sum: u64,
}

impl Stage {
    /// So many clients have joined.
    pub fn new(alloc: Global, clients: u64) -> Result<Stage, Memory> {
        let mut manager = Manager::new(alloc, Rules::profile());
        for number in 0..clients {
            manager.join(ClientNo(number.wrapping_add(1)))?;
        }
        Ok(Stage { manager, decisions: Vec::new(alloc), calls: 0, sum: 0 })
    }

    /// How many calls were made, those of clients that joined at first aside.
    pub fn calls(&self) -> u64 {
        self.calls
    }

    /// A number for all that was decided, in its order.
    pub fn sum(&self) -> u64 {
        self.sum
    }

    // What was decided last is summed up.
    fn add(&mut self) {
        self.calls = self.calls.wrapping_add(1);
        let mut sum = self.sum;
        for decision in &self.decisions {
            sum = sum.wrapping_mul(7).wrapping_add(weight(decision));
        }
        self.sum = sum;
    }

    /// A client asks, under the number of the call.
    pub fn ask(&mut self, client: ClientNo, ask: Ask) -> Result<(), Memory> {
        let tag = Tag(self.calls);
        self.manager.ask(client, tag, ask, &mut self.decisions)?;
        self.add();
        Ok(())
    }

    /// A create that shares all.
    pub fn open(&mut self, client: ClientNo, file: FileNo, ask: CreateAsk) -> Result<(), Memory> {
        self.ask(client, create(file, ask))
    }

    /// A read by an open of this FileId.
    pub fn read(&mut self, client: ClientNo, fid: FileId) -> Result<(), Memory> {
        self.ask(client, Ask::Read { fid })
    }

    /// A write by an open of this FileId.
    pub fn write(&mut self, client: ClientNo, fid: FileId) -> Result<(), Memory> {
        self.ask(client, Ask::Write { fid, fits: true })
    }

    /// A close of the open of this FileId.
    pub fn close(&mut self, client: ClientNo, fid: FileId) -> Result<(), Memory> {
        self.ask(client, Ask::Close { fid })
    }

    /// A break of the client's lease of this key is acknowledged with the state.
    pub fn acknowledge(&mut self, client: ClientNo, key: LeaseKey, state: LeaseState) -> Result<(), Memory> {
        self.manager.acknowledge(client, key, state, &mut self.decisions)?;
        self.add();
        Ok(())
    }

    /// The timer of a break of the client's lease of this key runs out.
    pub fn expire(&mut self, client: ClientNo, key: LeaseKey) -> Result<(), Memory> {
        self.manager.expire(client, key, &mut self.decisions)?;
        self.add();
        Ok(())
    }

    /// The client's connection is lost and made again.
    pub fn reconnect(&mut self, client: ClientNo) -> Result<(), Memory> {
        self.manager.cut(client, &mut self.decisions)?;
        self.add();
        self.manager.join(client)?;
        Ok(())
    }
}
