// Made by tools/plain_rust from crates/lease_world/src/judging/known.rt. Changes belong there.

use crate::proved::lease_client::Settlement;
use crate::proved::lease_facts::{Fact, Rule, Verdict};
use crate::proved::lease_state::{Bytes, ClientNo, FileNo, LeaseState, Memory, Patch};
use crate::proved::lease_world::judging::client::ClientSeen;
use crate::proved::lease_world::judging::clients::Clients;
use crate::proved::lease_world::judging::files::Files;
use crate::proved::lease_world::judging::holders::FileHolders;
use crate::proved::lease_world::judging::writes::WriteSeen;
use std::alloc::Global;

/// What a judge keeps of the facts that it was given.
// docs/DECISIONS.md: "What a judge keeps".
#[derive(Debug)]
pub struct Known {
    files: Files,
    clients: Clients,
    holders: FileHolders,
}

impl Known {
    /// Before any fact. Allocates nothing.
    pub fn new(alloc: Global) -> Known {
        Known { files: Files::new(alloc), clients: Clients::new(alloc), holders: FileHolders::new(alloc) }
    }

    /// The allocator of what is kept.
    pub fn alloc(&self) -> Global {
        self.files.alloc()
    }

    /// Takes the fact at this place, and gives what it is in the light of those before it.
    ///
    /// # Errors
    ///
    /// `Memory` where there is none left for what is kept; the same holds of each call below.
    #[inline(always)]
    pub fn add(&mut self, place: u64, fact: &Fact) -> Result<Verdict, Memory> {
        match fact {
            Fact::Start(file, bytes) => self.start(place, *file, bytes),
            Fact::Joined(client) => self.join(place, *client),
            Fact::Dropped(client) => self.leave(*client),
            Fact::Expired(client, file) => self.expire(place, *client, *file),
            Fact::Sent(client) => self.send(place, *client),
            Fact::Took(client) => self.take(place, *client),
            Fact::Opened(file, client) => self.open(place, *file, *client),
            Fact::Changed(file, client, number, patch) => self.change(place, *file, *client, *number, patch),
            Fact::Wrote(client, file, number, patch, buffered) => self.write(place, *client, *file, *number, patch, *buffered),
            Fact::Settled(client, number, outcome) => self.settle(place, *client, *number, *outcome),
            Fact::Believes(client, file, state) => self.believe(place, *client, *file, *state),
            Fact::CachedRead(client, file, bytes) => self.read(place, *client, *file, bytes.as_slice()),
            Fact::Strayed(client) => self.stray(*client),
        }
    }

    fn start(&mut self, place: u64, file: FileNo, bytes: &Bytes) -> Result<Verdict, Memory> {
        let stood = self.files.get_mut(file)?;
        if stood.is_started() {
            return Ok(Verdict::Malformed { place });
        }
        stood.start(bytes.try_copy()?);
        Ok(Verdict::Safe)
    }

    fn join(&mut self, place: u64, client: ClientNo) -> Result<Verdict, Memory> {
        let seen = self.clients.get_mut(client)?;
        let was_good = seen.is_good();
        seen.join();
        // What a client believes counts once, and nothing that a strayed one believes does.
        if was_good || !seen.is_good() {
            return Ok(Verdict::Safe);
        }
        if self.holders.enter(seen.caches())? {
            return Ok(Verdict::Unsafe { place, rule: Rule::OneWriteCache });
        }
        Ok(Verdict::Safe)
    }

    fn leave(&mut self, client: ClientNo) -> Result<Verdict, Memory> {
        let seen = self.clients.get_mut(client)?;
        self.holders.let_go(seen);
        seen.leave();
        Ok(Verdict::Safe)
    }

    fn expire(&mut self, place: u64, client: ClientNo, file: FileNo) -> Result<Verdict, Memory> {
        if !self.files.is_started(file) {
            return Ok(Verdict::Malformed { place });
        }
        self.leave(client)
    }

    fn stray(&mut self, client: ClientNo) -> Result<Verdict, Memory> {
        let seen = self.clients.get_mut(client)?;
        self.holders.let_go(seen);
        seen.stray();
        Ok(Verdict::Safe)
    }

    fn send(&mut self, place: u64, client: ClientNo) -> Result<Verdict, Memory> {
        self.clients.get_mut(client)?.send(place)?;
        Ok(Verdict::Safe)
    }

    fn take(&mut self, place: u64, client: ClientNo) -> Result<Verdict, Memory> {
        if !self.clients.get_mut(client)?.take() {
            return Ok(Verdict::Malformed { place });
        }
        Ok(Verdict::Safe)
    }

    fn open(&mut self, place: u64, file: FileNo, client: ClientNo) -> Result<Verdict, Memory> {
        let stood = self.files.get_mut(file)?;
        if !stood.is_started() {
            return Ok(Verdict::Malformed { place });
        }
        stood.open(client, place);
        Ok(Verdict::Safe)
    }

    fn change(&mut self, place: u64, file: FileNo, client: ClientNo, number: u64, patch: &Patch) -> Result<Verdict, Memory> {
        let stood = self.files.get_mut(file)?;
        if !stood.is_started() || !patch.is_within_limit() {
            return Ok(Verdict::Malformed { place });
        }
        let seen = self.clients.get_mut(client)?;
        if !seen.has_strayed() && seen.has_buffered(file, number, stood.touched_by_others(client)) {
            return Ok(Verdict::Unsafe { place, rule: Rule::NoLateWrite });
        }
        seen.accept(file, number, patch);
        stood.change(client, place, patch.try_copy()?)?;
        Ok(Verdict::Safe)
    }

    fn write(
        &mut self,
        place: u64,
        client: ClientNo,
        file: FileNo,
        number: u64,
        patch: &Patch,
        buffered: bool,
    ) -> Result<Verdict, Memory> {
        let seen = self.clients.get_mut(client)?;
        if !self.files.is_started(file) || !patch.is_within_limit() || seen.has_number(number) {
            return Ok(Verdict::Malformed { place });
        }
        let write = WriteSeen { file, place, buffered, patch: patch.try_copy()?, accepted: false };
        seen.write(number, write)?;
        Ok(Verdict::Safe)
    }

    fn settle(&mut self, place: u64, client: ClientNo, number: u64, outcome: Settlement) -> Result<Verdict, Memory> {
        let seen = self.clients.get_mut(client)?;
        if outcome == Settlement::Done && !seen.has_strayed() && !seen.is_accepted(number) {
            return Ok(Verdict::Unsafe { place, rule: Rule::NoFalseDone });
        }
        seen.settle(number)?;
        Ok(Verdict::Safe)
    }

    fn believe(&mut self, place: u64, client: ClientNo, file: FileNo, state: LeaseState) -> Result<Verdict, Memory> {
        if !self.files.is_started(file) {
            return Ok(Verdict::Malformed { place });
        }
        let seen = self.clients.get_mut(client)?;
        if seen.is_good() && self.holders.change(file, seen.belief(file), state)? {
            return Ok(Verdict::Unsafe { place, rule: Rule::OneWriteCache });
        }
        seen.believe(file, state)?;
        Ok(Verdict::Safe)
    }

    fn read(&mut self, place: u64, client: ClientNo, file: FileNo, bytes: &[u8]) -> Result<Verdict, Memory> {
        if !self.files.is_started(file) {
            return Ok(Verdict::Malformed { place });
        }
        let seen = self.clients.get_mut(client)?;
        if !seen.is_good() {
            return Ok(Verdict::Safe);
        }
        let stale = Verdict::Unsafe { place, rule: Rule::FreshCachedReads };
        let Some(taken) = seen.taken() else {
            return Ok(stale);
        };
        if sees(&mut self.files, seen, file, taken, bytes)? { Ok(Verdict::Safe) } else { Ok(stale) }
    }
}

// Whether the client sees these bytes in the file. What is kept of the file stays the same, but for where it was copied.
fn sees(files: &mut Files, client: &mut ClientSeen, file: FileNo, taken: u64, bytes: &[u8]) -> Result<bool, Memory> {
    let stood = files.get_mut(file)?;
    client.sees(file, stood, taken, bytes)
}
