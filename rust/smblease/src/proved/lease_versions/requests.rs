// Made by tools/plain_rust from crates/lease_versions/src/requests.rt. Changes belong there.

use crate::proved::capture_wire::Guid;
use crate::proved::lease_manager::{ClientNo, Tag};
use crate::proved::lease_state::{FileId, Memory};
use crate::proved::lease_wire_v2::{CreateAskV2, DurableAsk, Reconnect, SecondVersion};
use std::alloc::Global;
use std::collections::BTreeMap;

/// What version 2 adds to a create that isn't answered.
#[derive(Clone, Copy, Debug, PartialEq, Eq)]
pub struct AskedCreate {
    /// To its `RqLs` context; `None` where that is of version 1, or there is none.
    pub second: Option<SecondVersion>,
    /// The CreateGuid of its `DH2Q` or `DH2C`.
    pub guid: Option<Guid>,
    /// It connects an open again.
    pub reconnects: bool,
}

/// What names a request: its client, and the tag under which it was asked.
#[derive(Clone, Copy, Debug, PartialEq, Eq, PartialOrd, Ord)]
pub struct RequestName {
    pub client: u64,
    pub tag: u64,
}

fn named(client: ClientNo, tag: Tag) -> RequestName {
    RequestName { client: client.0, tag: tag.0 }
}

/// A request that isn't answered.
#[derive(Clone, Copy, Debug, PartialEq, Eq)]
pub enum Asked {
    Create(AskedCreate),
    Close(FileId),
}

fn durable_guid(durable: Option<DurableAsk>) -> Option<Guid> {
    match durable {
        Some(DurableAsk::Second(ask)) => Some(ask.create_guid),
        _ => None,
    }
}

fn reconnect_guid(reconnect: Option<Reconnect>) -> Option<Guid> {
    match reconnect {
        Some(Reconnect::Second(again)) => Some(again.create_guid),
        _ => None,
    }
}

impl AskedCreate {
    /// Without anything of version 2.
    pub fn plain() -> AskedCreate {
        AskedCreate { second: None, guid: None, reconnects: false }
    }

    /// From its contexts.
    pub fn of(ask: &CreateAskV2) -> AskedCreate {
        let second = match ask.lease {
            Some(lease) => lease.second,
            None => None,
        };
        let guid = match ask.reconnect {
            Some(_) => reconnect_guid(ask.reconnect),
            None => durable_guid(ask.durable),
        };
        AskedCreate { second, guid, reconnects: ask.reconnect.is_some() }
    }
}

/// The requests that aren't answered, by their clients and tags.
#[derive(Debug)]
pub struct Requests {
    by_tag: BTreeMap<RequestName, Asked>,
}

impl Requests {
    /// None. Allocates nothing.
    pub fn new(alloc: Global) -> Requests {
        Requests { by_tag: BTreeMap::new(alloc) }
    }

    /// What was asked under the tag.
    pub fn asked(&self, client: ClientNo, tag: Tag) -> Option<Asked> {
        self.by_tag.get(&named(client, tag)).copied()
    }

    /// The create that was asked under the tag.
    pub fn create(&self, client: ClientNo, tag: Tag) -> AskedCreate {
        match self.asked(client, tag) {
            Some(Asked::Create(create)) => create,
            _ => AskedCreate::plain(),
        }
    }

    /// This is asked under the tag.
    ///
    /// # Errors
    ///
    /// `Memory` where there is none left; nothing has changed then.
    pub fn put(&mut self, client: ClientNo, tag: Tag, asked: Asked) -> Result<(), Memory> {
        self.by_tag.insert(named(client, tag), asked)?;
        Ok(())
    }

    /// What was asked under the tag is forgotten.
    pub fn forget(&mut self, client: ClientNo, tag: Tag) {
        self.by_tag.remove(&named(client, tag));
    }

    /// What the client asked is forgotten.
    pub fn forget_all(&mut self, client: ClientNo) {
        self.by_tag.retain(|under, _| under.client != client.0);
    }

    /// What the client asked under these tags is forgotten.
    pub fn forget_these(&mut self, client: ClientNo, tags: &[Tag]) {
        for tag in tags {
            self.forget(client, *tag);
        }
    }

    // Whether this is asked under the tag: a create under this CreateGuid that connects no open again.
    fn is_create_under(&self, client: ClientNo, tag: Tag, guid: Guid) -> bool {
        match self.asked(client, tag) {
            Some(Asked::Create(create)) => create.guid == Some(guid) && !create.reconnects,
            _ => false,
        }
    }

    /// Whether a create of the client under this CreateGuid isn't answered, other than one that connects an open again.
    pub fn has_create(&self, client: ClientNo, guid: Guid) -> bool {
        for under in self.by_tag.keys() {
            if under.client == client.0 && self.is_create_under(client, Tag(under.tag), guid) {
                return true;
            }
        }
        false
    }
}
