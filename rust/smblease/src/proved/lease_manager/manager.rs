// Made by tools/plain_rust from crates/lease_manager/src/manager.rt. Changes belong there.

use std::prelude::Vec;

use crate::proved::lease_manager::keeping::{ended, first_tables, handle, join, leave};
use crate::proved::lease_manager::tables::Tables;
use crate::proved::lease_manager::told::Told;
use crate::proved::lease_manager::values::coming::Coming;
use crate::proved::lease_manager::values::decision::Decision;
use crate::proved::lease_manager::values::extent::Extent;
use crate::proved::lease_manager::values::key::LeaseName;
use crate::proved::lease_manager::values::lease::HeldLease;
use crate::proved::lease_manager::values::number::{ClientNo, FileNo, Tag};
use crate::proved::lease_manager::values::open::ListedOpen;
use crate::proved::lease_manager::values::request::Ask;
use crate::proved::lease_state::{FileId, LeaseKey, LeaseState, Memory, Rules};
use std::alloc::Global;
use std::mem;

mod always;
mod files;
mod listings;
mod questions;
mod restarting;

/// A manager of leases: the opens, the leases and the requests that wait for a break, of files that its host keeps.
#[derive(Debug)]
pub struct Manager {
    tables: Tables,
}

impl Manager {
    /// A manager of these rules, where nothing is open and no client has joined. Each number from 1 on is a file's. Allocates
    /// nothing.
    pub fn new(alloc: Global, rules: Rules) -> Manager {
        Manager::with_files(alloc, rules, FileNo(u64::MAX))
    }

    /// A manager as by `new`, of a host whose files have the numbers from 1 to this one: a create of any other is refused with
    /// `ObjectNameNotFound` (MS-SMB2 3.3.5.9). Allocates nothing.
    pub fn with_files(alloc: Global, rules: Rules, files: FileNo) -> Manager {
        Manager { tables: first_tables(alloc, rules, files) }
    }

    /// The rules that the manager was given.
    pub fn rules(&self) -> Rules {
        self.tables.rules()
    }

    /// The last number that a file can have.
    pub fn files(&self) -> FileNo {
        self.tables.files()
    }

    // Something comes, and what is decided is on the list afterwards.
    fn call(&mut self, coming: Coming, decisions: &mut Vec<Decision>) -> Result<(), Memory> {
        let (rules, files) = (self.rules(), self.files());
        let mut told = Told::over(taken_out(decisions));
        let came = handle(&mut self.tables, &mut told, coming);
        *decisions = told.into_vec();
        ended(&mut self.tables, came, rules, files)
    }

    /// A client connects (MS-SMB2 3.3.5.1). The keys of its leases whose timer ran out may be granted states again
    /// (profile). Its host is given nothing to do. Where the client is connected nothing changes.
    ///
    /// # Errors
    ///
    /// `Memory` where there is none left, and never where the client is connected. The manager has forgotten all but its
    /// rules and files then, as a new one.
    pub fn join(&mut self, client: ClientNo) -> Result<(), Memory> {
        let (rules, files) = (self.rules(), self.files());
        let came = join(&mut self.tables, client);
        ended(&mut self.tables, came, rules, files)
    }

    /// A client asks something of a file, under a tag under which nothing of it waits (MS-SMB2 3.3.5). It is refused at once
    /// where it names no file or no open of the client's; it waits after an earlier request of the client that waits on its
    /// file (profile); and else it is tried: what it needs of the leases of other keys on its file is broken, and it is
    /// answered or refused, or waits for acknowledgments. After a close what waits is tried again (profile). The
    /// decisions are on the list afterwards, whatever was there. Where the client isn't connected there is none, and nothing
    /// changes.
    ///
    /// # Errors
    ///
    /// `Memory` where there is none left, and never where the client isn't connected. The manager has forgotten all but its
    /// rules and files then, as a new one, and the list has nothing of worth.
    pub fn ask(&mut self, client: ClientNo, tag: Tag, ask: Ask, decisions: &mut Vec<Decision>) -> Result<(), Memory> {
        self.call(Coming::Asks { client, tag, ask }, decisions)
    }

    /// A client acknowledges a break of its lease of this key, with this state (MS-SMB2 3.3.5.22.2). Then what waits is tried
    /// again (profile). The decisions are on the list afterwards, whatever was there. Where the client isn't connected
    /// there is none, and nothing changes.
    ///
    /// # Errors
    ///
    /// `Memory` where there is none left, and never where the client isn't connected. The manager has forgotten all but its
    /// rules and files then, as a new one, and the list has nothing of worth.
    pub fn acknowledge(
        &mut self,
        client: ClientNo,
        key: LeaseKey,
        state: LeaseState,
        decisions: &mut Vec<Decision>,
    ) -> Result<(), Memory> {
        self.call(Coming::Acknowledges { key: LeaseName { client, bytes: key }, state }, decisions)
    }

    /// A client sends an acknowledgment that can't be read: it is answered with `InvalidParameter`. Then what waits is tried
    /// again (profile). The decisions are on the list afterwards, whatever was there. Where the client isn't connected
    /// there is none, and nothing changes.
    ///
    /// # Errors
    ///
    /// As of `acknowledge`.
    pub fn acknowledge_malformed(&mut self, client: ClientNo, decisions: &mut Vec<Decision>) -> Result<(), Memory> {
        self.call(Coming::IsMalformed(client), decisions)
    }

    /// A client's connection is lost (MS-SMB2 3.3.7.1). Its opens that are durable, and whose lease holds `HANDLE_CACHING` and
    /// isn't breaking, stay, and wait for it; its others end, and its requests that wait are forgotten, without a decision
    /// for any (profile). Then what waits is tried again. The decisions are on the list afterwards, whatever was there.
    /// Where the client isn't connected there is none, and nothing changes.
    ///
    /// # Errors
    ///
    /// `Memory` where there is none left, and never where the client isn't connected. The manager has forgotten all but its
    /// rules and files then, as a new one, and the list has nothing of worth.
    pub fn cut(&mut self, client: ClientNo, decisions: &mut Vec<Decision>) -> Result<(), Memory> {
        self.call(Coming::IsCut(client), decisions)
    }

    /// A client leaves these of its opens, and what it asked under these tags and waits: the connection or the session that made
    /// them goes, and the client stays, by another one (own; MS-SMB2 3.3.5.6, 3.3.7.1). Each open stays or ends as it would were
    /// the client cut: a decision says which. Of the requests none is told. What waits otherwise is tried again. FileIds and tags
    /// that aren't the client's are passed over. The decisions are on the list afterwards, whatever was there. Where the client
    /// isn't connected there is none, and nothing changes.
    ///
    /// # Errors
    ///
    /// `Memory` where there is none left, and never where the client isn't connected. The manager has forgotten all but its
    /// rules and files then, as a new one, and the list has nothing of worth.
    pub fn leave(
        &mut self,
        client: ClientNo,
        file_ids: &[FileId],
        tags: &[Tag],
        decisions: &mut Vec<Decision>,
    ) -> Result<(), Memory> {
        let (rules, files) = (self.rules(), self.files());
        let mut told = Told::over(taken_out(decisions));
        let came = leave(&mut self.tables, &mut told, client, file_ids, tags);
        *decisions = told.into_vec();
        ended(&mut self.tables, came, rules, files)
    }

    /// Other keys on a file than this one of the client's give up handles, or all that they cache; with no key each gives up
    /// (own). So a host changes, locks, renames or removes a file where no open of a client asks it: it calls this, sends what
    /// is told, and goes on at once where `is_given_up` says so, before anything else; else it calls this again after an
    /// acknowledgment, a close, a cut or a timer. Each lease is broken once, straight to what is left of it (MS-SMB2 3.3.4.7),
    /// and opens of these keys that wait for their clients end. Then what waits is tried again. The decisions are on the list
    /// afterwards, whatever was there.
    ///
    /// # Errors
    ///
    /// `Memory` where there is none left. The manager has forgotten all but its rules and files then, as a new one, and the
    /// list has nothing of worth.
    pub fn give_up(
        &mut self,
        client: ClientNo,
        key: Option<LeaseKey>,
        file: FileNo,
        extent: Extent,
        decisions: &mut Vec<Decision>,
    ) -> Result<(), Memory> {
        let own = own_key(client, key);
        self.call(Coming::GivesUp { own, file, extent }, decisions)
    }

    /// The timer of a lease break runs out (MS-SMB2 3.3.6.5): the opens of the client's lease of this key end, and the key is
    /// granted nothing until its client joins again (profile). Then what waits is tried again. What the host is to do is on
    /// the list afterwards, whatever was there. Where no break of the lease waits for its acknowledgment there is none, and
    /// nothing changes.
    ///
    /// # Errors
    ///
    /// `Memory` where there is none left, and never where the lease isn't breaking. The manager has forgotten all but its rules
    /// and files then, as a new one, and the list has nothing of worth.
    pub fn expire(&mut self, client: ClientNo, key: LeaseKey, decisions: &mut Vec<Decision>) -> Result<(), Memory> {
        self.call(Coming::Expires(LeaseName { client, bytes: key }), decisions)
    }

    /// The timer of a durable open runs out (MS-SMB2 3.3.6.2): the open of this FileId ends, if it waits for its client. Then
    /// what waits is tried again. The decisions are on the list afterwards, whatever was there. Where no such open
    /// waits there is none, and nothing changes.
    ///
    /// # Errors
    ///
    /// `Memory` where there is none left, and never where no such open waits. The manager has forgotten all but its rules and
    /// files then, as a new one, and the list has nothing of worth.
    pub fn scavenge(&mut self, fid: FileId, decisions: &mut Vec<Decision>) -> Result<(), Memory> {
        self.call(Coming::Scavenges(fid), decisions)
    }

    /// A request that waits on the file is taken back, the client's under this tag (MS-SMB2 3.3.5.16). Then what waits is
    /// tried again. The decisions are on the list afterwards, whatever was there. Where no such request waits that is
    /// nothing, and nothing changes.
    ///
    /// # Errors
    ///
    /// `Memory` where there is none left, and never where no such request waits. The manager has forgotten all but its rules and
    /// files then, as a new one, and the list has nothing of worth.
    pub fn withdraw(&mut self, file: FileNo, client: ClientNo, tag: Tag, decisions: &mut Vec<Decision>) -> Result<(), Memory> {
        self.call(Coming::Withdraws { file, client, tag }, decisions)
    }

    /// Whether the client is connected (MS-SMB2 3.3.1.7, ConnectionList).
    pub fn is_connected(&self, client: ClientNo) -> bool {
        self.tables.is_present(client)
    }

    /// Whether a break of the client's lease of this key waits for its acknowledgment (MS-SMB2 3.3.1.12, Breaking). False
    /// where the key has no lease.
    pub fn is_breaking(&self, client: ClientNo, key: LeaseKey) -> bool {
        self.tables.lease(LeaseName { client, bytes: key }).is_breaking()
    }

    /// Whether a request of the client under the tag waits on the file.
    pub fn is_waiting(&self, file: FileNo, client: ClientNo, tag: Tag) -> bool {
        self.tables.waits_under(file, client, tag)
    }

    /// Whether an open of this FileId waits for its client to connect again (MS-SMB2 3.3.1.10, IsDurable).
    pub fn has_left_behind(&self, fid: FileId) -> bool {
        self.tables.has_left_behind(fid)
    }

    /// The FileId of the client's oldest durable open on the file that waits to be connected again (profile); `None` where
    /// there is none.
    pub fn kept(&self, client: ClientNo, file: FileNo) -> Option<FileId> {
        self.tables.kept(client, file)
    }

    /// What may be granted of a wanted state (profile): its granted form, without `WRITE_CACHING` where an open on the file
    /// has another key than this one of the client's. With no key every open on the file has another one.
    pub fn allowed(&self, client: ClientNo, key: Option<LeaseKey>, file: FileNo, want: LeaseState) -> LeaseState {
        self.tables.allowed(own_key(client, key), file, want)
    }

    /// Whether no other key on the file than this one of the client's holds handles, or is in the way of a change: one that
    /// caches writes is, and one that caches anything and isn't breaking to nothing (own). With no key each other key counts.
    pub fn is_given_up(&self, client: ClientNo, key: Option<LeaseKey>, file: FileNo, extent: Extent) -> bool {
        self.tables.is_given_up(own_key(client, key), file, extent)
    }

    /// Whether there is an open of this FileId, connected or not.
    pub fn has_open(&self, fid: FileId) -> bool {
        self.tables.has_open(fid)
    }

    /// All opens, in the order of their FileIds: what a host lists of itself.
    ///
    /// # Errors
    ///
    /// `Memory` where there is none left for the list.
    pub fn opens(&self) -> Result<Vec<ListedOpen>, Memory> {
        self.tables.listed_opens()
    }

    /// The lease of the client's key (MS-SMB2 3.3.1.12); a key that no open has holds nothing.
    pub fn lease(&self, client: ClientNo, key: LeaseKey) -> HeldLease {
        self.tables.lease(LeaseName { client, bytes: key })
    }

    /// How many opens there are, those that wait for their clients too.
    pub fn open_count(&self) -> usize {
        self.tables.open_count()
    }
}

// The key of a request, from its client and its RqLs context.
fn own_key(client: ClientNo, bytes: Option<LeaseKey>) -> Option<LeaseName> {
    bytes.map(|bytes| LeaseName { client, bytes })
}

// Takes a list out of its place, where an empty one stays. Allocates nothing.
fn taken_out(decisions: &mut Vec<Decision>) -> Vec<Decision> {
    let none = Vec::new(*decisions.allocator());
    mem::replace(decisions, none)
}
