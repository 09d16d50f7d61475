// Made by tools/plain_rust from crates/client_versions/src/versions.rt. Changes belong there.

use crate::proved::capture_wire::{DurableReconnectV2, DurableRequestV2, Guid, Smb2FileId};
use crate::proved::client_versions::guids::Guids;
use crate::proved::client_versions::leases::{Known, Leases};
use crate::proved::lease_state::{FileId, LeaseKey, LeaseState, Memory};
use crate::proved::lease_wire::{CreateAnswer, CreateAsk, Notification};
use crate::proved::lease_wire_v2::{
    CreateAnswerV2, CreateAskV2, DurableAsk, LeaseAnswer, LeaseAsk, NotificationV2, Reconnect, SecondVersion,
};
use std::alloc::Global;

/// What a client knows of leases and durable opens of version 2, apart from what its machine knows.
#[derive(Debug)]
pub struct ClientVersions {
    leases: Leases,
    guids: Guids,
}

fn asked_durable(ask: &CreateAsk, guid: Guid) -> Option<DurableAsk> {
    if !ask.durable || ask.reconnect.is_some() {
        return None;
    }
    Some(DurableAsk::Second(DurableRequestV2 { timeout: 0, persistent: false, create_guid: guid }))
}

// The answer without what version 2 adds.
fn plain(answer: &CreateAnswerV2) -> CreateAnswer {
    let lease = match answer.lease {
        Some(lease) => Some((lease.key, lease.state, lease.breaking)),
        None => None,
    };
    CreateAnswer { lease, durable: answer.durable.is_some() }
}

impl ClientVersions {
    /// Where nothing is known. Allocates nothing.
    pub fn new(alloc: Global) -> ClientVersions {
        ClientVersions { leases: Leases::new(alloc), guids: Guids::new(alloc) }
    }

    /// What the machine asks for, in version 2 (MS-SMB2 2.2.13.2.10 to 2.2.13.2.12). `RqLs` has the epoch that is known of its
    /// key, 0 where none is, and the parent's key that is passed. `DHnQ` becomes `DH2Q` under the guid, with Timeout 0; it is
    /// left out with a reconnect, where a server passes it over. `DHnC` becomes `DH2C` with the CreateGuid of its FileId, and
    /// stays `DHnC` where none is kept. Allocates nothing.
    pub fn ask(&self, ask: &CreateAsk, parent: Option<LeaseKey>, guid: Guid) -> CreateAskV2 {
        CreateAskV2 {
            lease: self.asked_lease(ask.lease, parent),
            durable: asked_durable(ask, guid),
            reconnect: self.asked_again(ask.reconnect),
        }
    }

    /// The answer to a create that was asked for under this guid, as the machine takes it; its open has this FileId (MS-SMB2
    /// 3.2.5.7.5, 2.2.14.2.11). The epoch and the state of its lease are known from now on where nothing was known of the
    /// lease, where the epoch is newer than the known one, or where it is the known one and the state goes down (own). The
    /// machine is given the state that is known then. An answer while a break is in progress goes as it came. It has the epoch
    /// of that break and the state before it: of a lease that is known both are taken where the epoch is newer, so that the
    /// notice of that break goes down from there; else nothing is taken (own). A lease context of version 1 goes as it came,
    /// and nothing of it is kept. Where the answer has `DH2Q`, the guid is kept with the FileId.
    ///
    /// # Errors
    ///
    /// `Memory` where there is none left for a lease of which nothing was known, or for a guid; nothing has changed then.
    pub fn answered(&mut self, file_id: FileId, guid: Guid, answer: &CreateAnswerV2) -> Result<CreateAnswer, Memory> {
        let lease = self.lease_given(answer.lease);
        self.keep(file_id, guid, answer)?;
        Ok(CreateAnswer { lease, durable: answer.durable.is_some() })
    }

    /// The notice of a break, as the machine takes it (MS-SMB2 3.2.5.19.2, 2.2.23.2); `None` where it is dropped, and so isn't
    /// acknowledged. It is passed on where nothing is known of its key, where NewEpoch is newer than the known epoch, or where
    /// it is the known one and the new state goes down (own); both are known from then on. Where nothing is known, NewEpoch 0
    /// is that of a lease of version 1, of which nothing is kept.
    ///
    /// # Errors
    ///
    /// `Memory` where nothing was known of its key, and there is none left; nothing has changed then.
    pub fn noticed(&mut self, notice: &NotificationV2) -> Result<Option<Notification>, Memory> {
        let notification = notice.notification;
        let key = notification.key;
        let told = Known { epoch: notice.new_epoch, state: notification.new };
        match self.leases.known(key) {
            None if told.epoch == 0 => Ok(Some(notification)),
            Some(known) if !known.takes(told) => Ok(None),
            Some(_) | None => {
                self.leases.put(key, told)?;
                Ok(Some(notification))
            }
        }
    }

    /// As [`ClientVersions::answered`], where every message comes over one connection, after all that was sent before it: the
    /// machine is given the answer as it was sent, whatever its epoch is, and that and the state are known from then on (own).
    ///
    /// # Errors
    ///
    /// As those of [`ClientVersions::answered`].
    pub fn answered_in_order(&mut self, file_id: FileId, guid: Guid, answer: &CreateAnswerV2) -> Result<CreateAnswer, Memory> {
        let before = self.guids.guid(file_id);
        self.guids.answered(file_id, guid, answer.durable)?;
        match self.leases.answered_in_order(answer.lease) {
            Ok(()) => Ok(plain(answer)),
            Err(refused) => {
                self.guids.set_back(file_id, before);
                Err(refused)
            }
        }
    }

    /// As [`ClientVersions::noticed`], where every message comes over one connection, after all that was sent before it: the
    /// machine is given the notice as it was sent, whatever its epoch is, and that and the state are known from then on; but
    /// NewEpoch 0 of a key that nothing is known of is that of a lease of version 1, of which nothing is kept (own).
    ///
    /// # Errors
    ///
    /// As those of [`ClientVersions::noticed`].
    pub fn noticed_in_order(&mut self, notice: &NotificationV2) -> Result<Notification, Memory> {
        let notification = notice.notification;
        let key = notification.key;
        let told = Known { epoch: notice.new_epoch, state: notification.new };
        if told.epoch == 0 && self.leases.known(key).is_none() {
            return Ok(notification);
        }
        self.leases.put(key, told)?;
        Ok(notification)
    }

    /// The open of this FileId is closed, or its machine has given it up: its CreateGuid is forgotten.
    pub fn closed(&mut self, file_id: FileId) {
        self.guids.remove(file_id);
    }

    fn asked_lease(&self, lease: Option<(LeaseKey, LeaseState)>, parent: Option<LeaseKey>) -> Option<LeaseAsk> {
        let (key, state) = lease?;
        let epoch = match self.leases.known(key) {
            Some(known) => known.epoch,
            None => 0,
        };
        Some(LeaseAsk { key, state, second: Some(SecondVersion { parent, epoch }) })
    }

    fn asked_again(&self, reconnect: Option<FileId>) -> Option<Reconnect> {
        let file_id = reconnect?;
        let Some(create_guid) = self.guids.guid(file_id) else {
            return Some(Reconnect::First(file_id));
        };
        Some(Reconnect::Second(DurableReconnectV2 {
            file_id: Smb2FileId { persistent: file_id.0, volatile: file_id.0 },
            create_guid,
            persistent: false,
        }))
    }

    fn lease_given(&self, lease: Option<LeaseAnswer>) -> Option<(LeaseKey, LeaseState, bool)> {
        match lease {
            Some(lease) => Some(self.leases.lease_given(lease)),
            None => None,
        }
    }

    // All that an answer tells is kept, or nothing.
    fn keep(&mut self, file_id: FileId, guid: Guid, answer: &CreateAnswerV2) -> Result<(), Memory> {
        let before = self.guids.guid(file_id);
        self.guids.answered(file_id, guid, answer.durable)?;
        match self.leases.answered(answer.lease) {
            Ok(()) => Ok(()),
            Err(refused) => {
                self.guids.set_back(file_id, before);
                Err(refused)
            }
        }
    }
}
