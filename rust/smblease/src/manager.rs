//! The lease manager of a file server that keeps its files itself.
//!
//! A server numbers clients and files as it likes. It asks for each request of a client, under a tag of its own choice: tags are of a
//! client, and one under which a request waits isn't used again. It carries out the decisions of each call one after another: a read
//! or a write that goes on is done before what comes after it, and the messages of a client are sent in this order.
//!
//! # Breaks
//!
//! A create takes `WRITE_CACHING` from the leases of all other keys on its file. One that conflicts with opens takes `HANDLE_CACHING`
//! from their leases in its place, since their clients may only have kept a handle. A write takes all. The server sends the notice of
//! [`Decision::Breaks`], and where the client has to acknowledge it, starts a timer ([`BreakTimers`](crate::BreakTimers)). The request
//! that needed the break waits. The client whose lease is breaking reads and writes on meanwhile: it has to send what it kept. Where its
//! timer runs out, [`Manager::expire`] ends its opens.
//!
//! # Changes without an open
//!
//! What changes a file without a read or a write, as a truncation, a lock, a rename or another program, goes by [`Manager::change`],
//! under a tag too: others give up what they hold, and the change goes on once no lease is in its way. Changes that wait are tried
//! again after each call by which a lease may have ended, on the files that the call was about, or on all where a request that
//! had waited closed an open: what came since is broken for them, and those that are free go on together, in order of arrival.
//!
//! # A client that isn't there
//!
//! Nobody is answered who hasn't joined: what such a client asks gives no decision at all.

use crate::OutOfMemory;
use crate::proved::kept_opens;
use crate::proved::lease_manager as proved;
use crate::proved::lease_state::{FileId, LeaseKey, LeaseState, Rules};
use crate::proved::waiting_changes::WaitingChanges;
use crate::wire;
use std::alloc::Global;
use std::prelude::Vec;

pub use crate::proved::kept_opens::ImportError;
pub use crate::proved::lease_manager::{
    Ask, BreakNotice, ClientNo, CreateAnswer, CreateAsk, Decision, Extent, FileNo, HeldLease, ListedLease, ListedOpen, ListedRequest,
    Tag,
};
pub use crate::proved::waiting_changes::Change;

/// The opens, the leases, and the requests and changes that wait, of files that a server keeps itself.
///
/// Each call that decides gives its decisions in the order in which they are to be carried out. Where one gives
/// [`OutOfMemory`] the manager has forgotten all but its rules and the number of its files, as a new one: the
/// server lets go of all that is open, and answers what waits.
#[derive(Debug)]
pub struct Manager {
    inner: proved::Manager,
    changes: WaitingChanges,
    decisions: Vec<Decision>,
}

// The file that a call is about, where changes wait: where none does, no file is looked for.
impl Manager {
    fn file_of(&self, file_id: FileId) -> Option<FileNo> {
        if self.changes.is_empty() {
            return None;
        }
        self.inner.open(file_id).map(|one| one.file)
    }

    fn leased_file(&self, client: ClientNo, key: LeaseKey) -> Option<FileNo> {
        if self.changes.is_empty() {
            return None;
        }
        self.inner.leased_file(client, key)
    }

    // Those of a client's opens, before a call that ends opens of it. Where there is no memory for the list all is forgotten.
    fn opened_files(&mut self, client: ClientNo) -> Result<Vec<FileNo>, OutOfMemory> {
        if self.changes.is_empty() || !self.inner.is_connected(client) {
            return Ok(Vec::new(Global));
        }
        self.inner.opened_files(client).inspect_err(|_| self.forget())
    }

    // Changes that wait are tried again after a call about these files.
    fn finish(&mut self, came: Result<(), OutOfMemory>, files: &[FileNo]) -> Result<&[Decision], OutOfMemory> {
        self.finish_request(came, None, files)
    }

    // The same where it was a client's request under a tag.
    fn finish_request(
        &mut self,
        came: Result<(), OutOfMemory>,
        request: Option<(ClientNo, Tag)>,
        files: &[FileNo],
    ) -> Result<&[Decision], OutOfMemory> {
        if self.changes.is_empty() {
            came.inspect_err(|_| self.forget())?;
        } else {
            came.and_then(|()| self.changes.try_again(&mut self.inner, request, files, &mut self.decisions))
                .inspect_err(|_| self.forget())?;
        }
        Ok(&self.decisions)
    }

    fn forget(&mut self) {
        *self = Manager::with_files(self.inner.rules(), self.inner.files());
    }

    fn of(inner: proved::Manager) -> Manager {
        Manager { inner, changes: WaitingChanges::new(Global), decisions: Vec::new(Global) }
    }
}

impl Manager {
    /// A manager of these rules, where nothing is open and no client has joined. Each number from 1 on is a file's. Allocates nothing.
    pub fn new(rules: Rules) -> Manager {
        Manager::of(proved::Manager::new(Global, rules))
    }

    /// A manager of these rules whose files have the numbers from 1 to this one; a create of any other is refused with
    /// `ObjectNameNotFound`. Allocates nothing.
    pub fn with_files(rules: Rules, last: FileNo) -> Manager {
        Manager::of(proved::Manager::with_files(Global, rules, last))
    }

    /// The decisions of the last call that gives any. [`join`](Manager::join) leaves them; after an error they have no worth.
    pub fn decisions(&self) -> &[Decision] {
        &self.decisions
    }

    /// A client connects (MS-SMB2 3.3.5.1). Where it is connected nothing changes.
    ///
    /// # Errors
    ///
    /// Where there is no memory; the manager has forgotten all then.
    pub fn join(&mut self, client: ClientNo) -> Result<(), OutOfMemory> {
        self.inner.join(client).inspect_err(|_| self.forget())
    }

    /// A client asks something of a file, under a tag under which nothing of it waits (MS-SMB2 3.3.5): where something does, two answers
    /// come under that tag.
    ///
    /// It is refused at once with `FileClosed` where it names no open of the client's, and a write that doesn't fit with
    /// `InvalidParameter`. It waits after an earlier request of the client on its file, as the rules say. Else what it needs of the
    /// leases of other keys on its file is broken, and it is answered or refused, or waits for acknowledgments. After a close what
    /// waits is tried again. Where the client isn't connected there is no decision, and nothing changes.
    ///
    /// # Errors
    ///
    /// Where there is no memory; the manager has forgotten all then.
    pub fn ask(&mut self, client: ClientNo, tag: Tag, ask: Ask) -> Result<&[Decision], OutOfMemory> {
        let file = match ask {
            Ask::Close { fid } if self.inner.is_connected(client) => self.file_of(fid),
            _ => None,
        };
        let came = self.inner.ask(client, tag, ask, &mut self.decisions);
        self.finish_request(came, Some((client, tag)), file.as_slice())
    }

    /// A client acknowledges a break of its lease of this key, with this state (MS-SMB2 3.3.5.22.2), which may be less than it was broken
    /// to. Then what waits is tried again.
    ///
    /// It isn't acknowledged with `RequestNotAccepted` where the state is more than the lease was broken to, with `Unsuccessful` where no
    /// break of it waits, and with `ObjectNameNotFound` where there is no such lease. Where the client isn't connected there is no
    /// decision, and nothing changes.
    ///
    /// # Errors
    ///
    /// Where there is no memory; the manager has forgotten all then.
    pub fn acknowledge(&mut self, client: ClientNo, key: LeaseKey, state: LeaseState) -> Result<&[Decision], OutOfMemory> {
        let file = if self.inner.is_connected(client) { self.leased_file(client, key) } else { None };
        let came = self.inner.acknowledge(client, key, state, &mut self.decisions);
        self.finish(came, file.as_slice())
    }

    /// A client sends an acknowledgment that can't be read.
    ///
    /// # Errors
    ///
    /// Where there is no memory; the manager has forgotten all then.
    pub fn acknowledge_malformed(&mut self, client: ClientNo) -> Result<&[Decision], OutOfMemory> {
        let came = self.inner.acknowledge_malformed(client, &mut self.decisions);
        self.finish(came, &[])
    }

    /// A client's connection is lost (MS-SMB2 3.3.7.1): durable opens whose lease holds `HANDLE_CACHING` and isn't breaking are left
    /// behind, and the others end. Its requests and changes wait no longer, and nothing is decided of them.
    ///
    /// # Errors
    ///
    /// Where there is no memory; the manager has forgotten all then.
    pub fn cut(&mut self, client: ClientNo) -> Result<&[Decision], OutOfMemory> {
        let files = self.opened_files(client)?;
        self.changes.forget(client);
        let came = self.inner.cut(client, &mut self.decisions);
        self.finish(came, &files)
    }

    /// A client leaves these of its opens, and what it asked for under these tags and waits: the connection or the session that had them
    /// goes, and the client stays (own; MS-SMB2 3.3.5.6, 3.3.7.1). Each open ends or is left behind, as by [`cut`](Manager::cut).
    /// What isn't the client's is passed over.
    ///
    /// # Errors
    ///
    /// Where there is no memory; the manager has forgotten all then.
    pub fn leave(&mut self, client: ClientNo, file_ids: &[FileId], tags: &[Tag]) -> Result<&[Decision], OutOfMemory> {
        let files = self.opened_files(client)?;
        self.changes.leave(client, tags);
        let came = self.inner.leave(client, file_ids, tags, &mut self.decisions);
        self.finish(came, &files)
    }

    /// A change of a file is asked for that no open of a client asks for (own). Other keys on it than the change's own give up as
    /// much; with no key each does. It goes on at once, or waits: then a later call tells that it goes on. The client need not be
    /// connected, since a server may use a number of its own for what it does itself.
    ///
    /// ```
    /// # use smblease::manager::{Change, ClientNo, Decision, Extent, FileNo, Tag};
    /// # use smblease::{Manager, Rules};
    /// # fn main() -> Result<(), smblease::OutOfMemory> {
    /// let mut manager = Manager::new(Rules::by_key_whole());
    /// let change = Change { client: ClientNo(1), tag: Tag(7), key: None, file: FileNo(5), extent: Extent::All };
    /// assert_eq!(manager.change(change)?, [Decision::GoesOn { client: ClientNo(1), tag: Tag(7) }]);
    /// # Ok(())
    /// # }
    /// ```
    ///
    /// # Errors
    ///
    /// Where there is no memory; the manager has forgotten all then.
    pub fn change(&mut self, change: Change) -> Result<&[Decision], OutOfMemory> {
        self.changes.change(&mut self.inner, change, &mut self.decisions)?;
        Ok(&self.decisions)
    }

    /// The changes that wait, in order of arrival.
    pub fn changes(&self) -> &[Change] {
        self.changes.as_slice()
    }

    /// Other keys on the file than this one of the client's give up as much; with no key each does (own). A server that keeps its
    /// changes itself asks [`is_given_up`](Manager::is_given_up) then, and again after an acknowledgment, a close, a cut or a timer;
    /// else there is [`change`](Manager::change).
    ///
    /// # Errors
    ///
    /// Where there is no memory; the manager has forgotten all then.
    pub fn give_up(
        &mut self,
        client: ClientNo,
        key: Option<LeaseKey>,
        file: FileNo,
        extent: Extent,
    ) -> Result<&[Decision], OutOfMemory> {
        let came = self.inner.give_up(client, key, file, extent, &mut self.decisions);
        self.finish(came, &[file])
    }

    /// The timer of a lease break runs out (MS-SMB2 3.3.6.5): the opens of the client's lease of this key end.
    ///
    /// # Errors
    ///
    /// Where there is no memory; the manager has forgotten all then.
    pub fn expire(&mut self, client: ClientNo, key: LeaseKey) -> Result<&[Decision], OutOfMemory> {
        let file = if self.inner.is_breaking(client, key) { self.leased_file(client, key) } else { None };
        let came = self.inner.expire(client, key, &mut self.decisions);
        self.finish(came, file.as_slice())
    }

    /// The timer of a durable open that waits for its client runs out (MS-SMB2 3.3.6.2).
    ///
    /// # Errors
    ///
    /// Where there is no memory; the manager has forgotten all then.
    pub fn scavenge(&mut self, file_id: FileId) -> Result<&[Decision], OutOfMemory> {
        let file = if self.inner.has_left_behind(file_id) { self.file_of(file_id) } else { None };
        let came = self.inner.scavenge(file_id, &mut self.decisions);
        self.finish(came, file.as_slice())
    }

    /// A request or a change that waits on the file is taken back, the client's under this tag (MS-SMB2 3.3.5.16). Where none does
    /// there is no decision, and nothing changes.
    ///
    /// # Errors
    ///
    /// Where there is no memory; the manager has forgotten all then.
    pub fn withdraw(&mut self, file: FileNo, client: ClientNo, tag: Tag) -> Result<&[Decision], OutOfMemory> {
        let file_left = self.inner.is_waiting(file, client, tag).then_some(file);
        let mut came = self.inner.withdraw(file, client, tag, &mut self.decisions);
        if came.is_ok() && self.changes.is_waiting(file, client, tag) {
            self.changes.withdraw(file, client, tag);
            came = self.decisions.push(Decision::Withdrawn { client, tag }).map_err(OutOfMemory::from);
        }
        self.finish(came, file_left.as_slice())
    }

    /// All opens, in the order of their FileIds.
    ///
    /// # Errors
    ///
    /// Where there is no memory for the list; nothing is forgotten.
    pub fn opens(&self) -> Result<impl Iterator<Item = ListedOpen> + use<>, OutOfMemory> {
        Ok(self.inner.opens()?.into_iter())
    }

    /// All leases that opens have, in the order of their clients and keys.
    ///
    /// # Errors
    ///
    /// Where there is no memory for the list; nothing is forgotten.
    pub fn leases(&self) -> Result<impl Iterator<Item = ListedLease> + use<>, OutOfMemory> {
        Ok(self.inner.leases()?.into_iter())
    }

    /// All requests that wait, file by file, each file's in the order in which they came.
    ///
    /// # Errors
    ///
    /// Where there is no memory for the list; nothing is forgotten.
    pub fn waiting(&self) -> Result<impl Iterator<Item = ListedRequest> + use<>, OutOfMemory> {
        Ok(self.inner.waiting()?.into_iter())
    }

    /// The bytes of what a server keeps over a restart of its own: the opens that would be there were each client cut now (MS-SMB2
    /// 3.3.7.1), with what their leases hold, and the FileId given last.
    ///
    /// # Errors
    ///
    /// Where there is no memory for them; nothing is forgotten.
    pub fn export(&self) -> Result<alloc::vec::Vec<u8>, OutOfMemory> {
        Ok(kept_opens::export(Global, &self.inner)?.into_inner())
    }

    /// A manager as by [`with_files`](Manager::with_files) that has the opens of these bytes, which [`export`](Manager::export)
    /// wrote. Each waits for its client to connect again, and the server starts its timer.
    ///
    /// ```
    /// # use smblease::{Manager, Rules, manager::{FileNo, ImportError}};
    /// # fn main() -> Result<(), Box<dyn std::error::Error>> {
    /// let kept = Manager::new(Rules::by_key_whole()).export()?;
    /// let manager = Manager::import(Rules::by_key_whole(), FileNo(u64::MAX), &kept)?;
    /// assert_eq!(manager.open_count(), 0);
    /// let found = Manager::import(Rules::by_key_whole(), FileNo(u64::MAX), &kept[1..]);
    /// assert_eq!(found.err(), Some(ImportError::Damaged));
    /// # Ok(())
    /// # }
    /// ```
    ///
    /// # Errors
    ///
    /// Where the bytes were cut off or changed, or are others; where their opens would break a law that holds of every manager,
    /// as two that conflict; and where there is no memory.
    pub fn import(rules: Rules, last: FileNo, bytes: &[u8]) -> Result<Manager, ImportError> {
        Ok(Manager::of(kept_opens::import(Global, rules, last, bytes)?))
    }

    /// How many opens there are, those that wait for their clients too.
    pub fn open_count(&self) -> usize {
        self.inner.open_count()
    }

    /// Whether there is an open of this FileId, connected or not.
    pub fn has_open(&self, file_id: FileId) -> bool {
        self.inner.has_open(file_id)
    }

    /// The lease of the client's key; a key that no open has holds nothing.
    pub fn lease(&self, client: ClientNo, key: LeaseKey) -> HeldLease {
        self.inner.lease(client, key)
    }

    /// Whether a read by this FileId of the client would be done at once: the server may do it then, before any other call, without
    /// one.
    pub fn may_read(&self, file_id: FileId, client: ClientNo) -> bool {
        self.inner.may_read(file_id, client)
    }

    /// The same of a write that fits, which would break nothing either.
    pub fn may_write(&self, file_id: FileId, client: ClientNo) -> bool {
        self.inner.may_write(file_id, client)
    }

    /// Whether no other key on the file than this one of the client's is in the way: none holds `HANDLE_CACHING` ([`Extent::Handles`]);
    /// none caches writes, or caches anything without being broken to nothing ([`Extent::All`]).
    pub fn is_given_up(&self, client: ClientNo, key: Option<LeaseKey>, file: FileNo, extent: Extent) -> bool {
        self.inner.is_given_up(client, key, file, extent)
    }

    /// The rules that the manager was given.
    pub fn rules(&self) -> Rules {
        self.inner.rules()
    }

    /// The last number that a file can have.
    pub fn files(&self) -> FileNo {
        self.inner.files()
    }

    /// Whether the client is connected.
    pub fn is_connected(&self, client: ClientNo) -> bool {
        self.inner.is_connected(client)
    }

    /// Whether a break of the client's lease of this key waits for its acknowledgment.
    pub fn is_breaking(&self, client: ClientNo, key: LeaseKey) -> bool {
        self.inner.is_breaking(client, key)
    }

    /// Whether a request or a change of the client under the tag waits on the file.
    pub fn is_waiting(&self, file: FileNo, client: ClientNo, tag: Tag) -> bool {
        self.inner.is_waiting(file, client, tag) || self.changes.is_waiting(file, client, tag)
    }

    /// Whether an open of this FileId waits for its client to connect again.
    pub fn has_left_behind(&self, file_id: FileId) -> bool {
        self.inner.has_left_behind(file_id)
    }

    /// The FileId of the client's oldest durable open on the file that waits to be connected again.
    pub fn kept(&self, client: ClientNo, file: FileNo) -> Option<FileId> {
        self.inner.kept(client, file)
    }

    /// What may be granted of a wanted state. With no key every open on the file has another one.
    pub fn allowed(&self, client: ClientNo, key: Option<LeaseKey>, file: FileNo, wanted: LeaseState) -> LeaseState {
        self.inner.allowed(client, key, file, wanted)
    }
}

impl Decision {
    /// The client that it is about. An open that ended or was left behind is named by its FileId alone.
    pub fn client(&self) -> Option<ClientNo> {
        match self {
            Decision::Opened { client, .. }
            | Decision::GoesOn { client, .. }
            | Decision::Closed { client, .. }
            | Decision::Refused { client, .. }
            | Decision::Waits { client, .. }
            | Decision::Withdrawn { client, .. }
            | Decision::Breaks { client, .. }
            | Decision::Acknowledged { client, .. }
            | Decision::NotAcknowledged { client, .. } => Some(*client),
            Decision::Ended { .. } | Decision::LeftBehind { .. } => None,
        }
    }

    /// The tag of the request or the change that it is about.
    pub fn tag(&self) -> Option<Tag> {
        match self {
            Decision::Opened { tag, .. }
            | Decision::GoesOn { tag, .. }
            | Decision::Closed { tag, .. }
            | Decision::Refused { tag, .. }
            | Decision::Waits { tag, .. }
            | Decision::Withdrawn { tag, .. } => Some(*tag),
            _ => None,
        }
    }
}

impl From<BreakNotice> for wire::Notification {
    /// The message of a break.
    fn from(notice: BreakNotice) -> wire::Notification {
        let BreakNotice { ack_required, key, current, lowered } = notice;
        wire::Notification { ack_required, key, current, new: lowered }
    }
}

impl From<wire::CreateAsk> for CreateAsk {
    /// What the create contexts of a request ask for.
    fn from(ask: wire::CreateAsk) -> CreateAsk {
        CreateAsk { lease: ask.lease, durable: ask.durable, reconnect: ask.reconnect }
    }
}

impl From<CreateAnswer> for wire::CreateAnswer {
    /// What the create contexts of an answer say.
    fn from(answer: CreateAnswer) -> wire::CreateAnswer {
        wire::CreateAnswer { lease: answer.lease, durable: answer.durable }
    }
}
