// Made by tools/plain_rust from crates/lease_versions/src/versions.rt. Changes belong there.

use crate::proved::capture_wire::Guid;
use crate::proved::lease_manager::{BreakNotice, ClientNo, CreateAnswer, Decision, LeaseName, Tag};
use crate::proved::lease_state::{FileId, LeaseKey, LeaseState, Memory, Status};
use crate::proved::lease_versions::carried::{Arrival, Carried, Replayed};
use crate::proved::lease_versions::leases::Leases;
use crate::proved::lease_versions::opens::{Open, Opens};
use crate::proved::lease_versions::requests::{Asked, AskedCreate, Requests};
use crate::proved::lease_wire_v2::{CreateAskV2, DurableAsk, Reconnect, SecondVersion};
use std::alloc::Global;

/// What a server knows of leases and durable opens of version 2, apart from what its lease manager knows.
#[derive(Debug)]
pub struct Versions {
    requests: Requests,
    leases: Leases,
    opens: Opens,
}

fn named(client: ClientNo, key: LeaseKey) -> LeaseName {
    LeaseName { client, bytes: key }
}

fn open_made(client: ClientNo, create: AskedCreate, answer: &CreateAnswer) -> Open {
    let key = match answer.lease {
        Some((key, _, _)) => Some(key),
        None => None,
    };
    let guid = if answer.durable || create.reconnects { create.guid } else { None };
    Open { client, key, guid }
}

fn is_durable_second(create: AskedCreate, answer: &CreateAnswer) -> bool {
    answer.durable && create.guid.is_some() && !create.reconnects
}

impl Versions {
    /// Where nothing is open, and nothing was asked. Allocates nothing.
    pub fn new(alloc: Global) -> Versions {
        Versions { requests: Requests::new(alloc), leases: Leases::new(alloc), opens: Opens::new(alloc) }
    }

    /// A client asks for a create by these contexts under this tag, which stands until the create is answered.
    ///
    /// # Errors
    ///
    /// `Memory` where there is none left; nothing has changed then.
    pub fn asked(&mut self, client: ClientNo, tag: Tag, ask: &CreateAskV2) -> Result<(), Memory> {
        self.requests.put(client, tag, Asked::Create(AskedCreate::of(ask)))
    }

    /// A client asks under this tag that the open of this FileId be closed, which stands until the close is answered.
    ///
    /// # Errors
    ///
    /// `Memory` where there is none left; nothing has changed then.
    pub fn closing(&mut self, client: ClientNo, tag: Tag, file_id: FileId) -> Result<(), Memory> {
        self.requests.put(client, tag, Asked::Close(file_id))
    }

    /// What a decision of the manager changes, and what version 2 adds to the message that the host sends for it (MS-SMB2
    /// 3.3.5.9.8, 3.3.5.9.11, 3.3.4.7). Decisions are followed in their order.
    ///
    /// # Errors
    ///
    /// `Memory` where a create is answered and there is none left, or a lease has 2^64 - 1 opens; nothing has changed then.
    pub fn follow(&mut self, decision: &Decision) -> Result<Carried, Memory> {
        match decision {
            Decision::Opened { client, tag, file_id, answer } => self.opened(*client, *tag, *file_id, answer),
            Decision::Closed { client, tag } => {
                self.closed(*client, *tag);
                Ok(Carried::Nothing)
            }
            Decision::Refused { client, tag, .. } | Decision::Withdrawn { client, tag } => {
                self.requests.forget(*client, *tag);
                Ok(Carried::Nothing)
            }
            Decision::Breaks { client, notice } => {
                let epoch = self.broken(*client, notice);
                Ok(Carried::Notice(epoch))
            }
            Decision::Acknowledged { client, key, state } => {
                self.acknowledged(*client, *key, *state);
                Ok(Carried::Nothing)
            }
            Decision::Ended { file_id } => {
                self.ended(*file_id);
                Ok(Carried::Nothing)
            }
            _ => Ok(Carried::Nothing),
        }
    }

    /// What the client asked is forgotten, as its connection is cut.
    pub fn forget(&mut self, client: ClientNo) {
        self.requests.forget_all(client);
    }

    /// What the client asked under these tags is forgotten, as it leaves them.
    pub fn leave(&mut self, client: ClientNo, tags: &[Tag]) {
        self.requests.forget_these(client, tags);
    }

    /// Whether a `DH2C` context is refused before the manager is asked: the open is there, and under another CreateGuid (MS-SMB2
    /// 3.3.5.9.12). Of an open that isn't there the manager says what becomes of it, and `DHnC` asks for no guid.
    pub fn reconnect_refusal(&self, file_id: FileId, create_guid: Guid) -> Option<Status> {
        match self.opens.open(file_id) {
            Some(one) if one.guid.unwrap_or(Guid([0; 16])) != create_guid => Some(Status::ObjectNameNotFound),
            _ => None,
        }
    }

    /// What becomes of a `DH2Q` context under this CreateGuid before the manager is asked, where the request has
    /// SMB2_FLAGS_REPLAY_OPERATION or hasn't (MS-SMB2 3.3.5.9.10); `None` where the manager is to be asked. It looks through the
    /// opens.
    pub fn replayed(&self, client: ClientNo, create_guid: Guid, replay: bool) -> Option<Replayed> {
        match self.opens.under(client, create_guid) {
            Some(file_id) if replay => Some(Replayed::Again(file_id)),
            Some(_) => Some(Replayed::DuplicateObjectId),
            None if replay && self.requests.has_create(client, create_guid) => Some(Replayed::FileNotAvailable),
            None => None,
        }
    }

    // The status by which its `DH2C` is refused.
    fn refusal(&self, reconnect: Option<Reconnect>) -> Option<Status> {
        match reconnect {
            Some(Reconnect::Second(again)) => self.reconnect_refusal(FileId(again.file_id.persistent), again.create_guid),
            _ => None,
        }
    }

    // What became of the CreateGuid of its `DH2Q`.
    fn found(&self, client: ClientNo, durable: Option<DurableAsk>, replay: bool) -> Option<Replayed> {
        match durable {
            Some(DurableAsk::Second(ask)) => self.replayed(client, ask.create_guid, replay),
            _ => None,
        }
    }

    /// What becomes of a create by its contexts, where its request has SMB2_FLAGS_REPLAY_OPERATION or hasn't: as `reconnect_refusal`
    /// and `replayed` say, and else it is `asked`.
    ///
    /// # Errors
    ///
    /// `Memory` where there is none left; nothing has changed then.
    pub fn arrived(&mut self, client: ClientNo, tag: Tag, ask: &CreateAskV2, replay: bool) -> Result<Arrival, Memory> {
        if let Some(status) = self.refusal(ask.reconnect) {
            return Ok(Arrival::Refused(status));
        }
        if let Some(found) = self.found(client, ask.durable, replay) {
            return Ok(Arrival::Again(found));
        }
        self.asked(client, tag, ask)?;
        Ok(Arrival::Asked)
    }

    // A create is answered.
    fn opened(&mut self, client: ClientNo, tag: Tag, file_id: FileId, answer: &CreateAnswer) -> Result<Carried, Memory> {
        let create = self.requests.create(client, tag);
        let second = self.noted(client, file_id, create, answer)?;
        self.requests.forget(client, tag);
        Ok(Carried::Answer { second, durable: is_durable_second(create, answer) })
    }

    // The open and its lease are noted; what version 2 adds to the lease.
    fn noted(
        &mut self,
        client: ClientNo,
        file_id: FileId,
        create: AskedCreate,
        answer: &CreateAnswer,
    ) -> Result<Option<SecondVersion>, Memory> {
        let known = self.opens.has(file_id);
        self.opens.note(file_id, open_made(client, create, answer))?;
        match self.leases.give(client, answer.lease, create.second, known) {
            Ok(second) => Ok(second),
            Err(refused) => {
                self.take_back(file_id, known);
                Err(refused)
            }
        }
    }

    // The open that came last goes again, unless it was known before.
    fn take_back(&mut self, file_id: FileId, known: bool) {
        if !known {
            self.opens.remove(file_id);
        }
    }

    // A close is answered.
    fn closed(&mut self, client: ClientNo, tag: Tag) {
        let asked = self.requests.asked(client, tag);
        if let Some(Asked::Close(file_id)) = asked {
            self.ended(file_id);
        }
        self.requests.forget(client, tag);
    }

    // An open is no more.
    fn ended(&mut self, file_id: FileId) {
        if let Some(one) = self.opens.open(file_id) {
            self.leases.leave(one.client, one.key);
        }
        self.opens.remove(file_id);
    }

    // The notice of a break is sent: its NewEpoch.
    fn broken(&mut self, client: ClientNo, notice: &BreakNotice) -> u16 {
        let name = named(client, notice.key);
        match self.leases.lease(name) {
            Some(lease) => {
                let broken = lease.broken(notice);
                self.leases.set(name, broken);
                broken.epoch()
            }
            None => 0,
        }
    }

    // An acknowledgment is answered.
    fn acknowledged(&mut self, client: ClientNo, key: LeaseKey, state: LeaseState) {
        let name = named(client, key);
        if let Some(lease) = self.leases.lease(name) {
            self.leases.set(name, lease.acknowledged(state));
        }
    }
}
