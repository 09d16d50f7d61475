// Made by tools/plain_rust from crates/machines_c/src/manager/listed_requests.rt. Changes belong there.

use crate::proved::machines_c::handles::Outcome;
use crate::proved::machines_c::manager::handle::ManagerHandle;
use crate::proved::machines_c::manager::listed::Listing;
use smblease::proved::lease_manager::{Ask, CreateAsk, ListedRequest};
use std::alloc::Global;

/// A request that waits: `struct smblease_listed_request`. What has no meaning for its kind is 0.
#[repr(C)]
#[derive(Clone, Copy, Debug, PartialEq, Eq)]
pub struct RequestFields {
    /// The number of the file that it waits on.
    pub file: u64,
    /// The number of its client.
    pub client: u64,
    /// The tag under which it came.
    pub tag: u64,
    /// The open of a read, a write or a close, and of a create the one that is to be connected again, where
    /// `has_reconnect` is set.
    pub file_id: u64,
    /// The lease key of a create, where `has_lease` is set.
    pub key: [u8; 16],
    /// The state that a create wants, where `has_lease` is set: the bits of LeaseState.
    pub state: u32,
    /// 1 create, 2 read, 3 write, 4 close.
    pub kind: u32,
    /// What a create wants to do.
    pub access: u8,
    /// What a create lets others do.
    pub share: u8,
    /// A create asks for a lease.
    pub has_lease: u8,
    /// A create asks for a durable open.
    pub durable: u8,
    /// A create asks for a durable open again.
    pub has_reconnect: u8,
    /// Room for later versions: 0.
    pub reserved: [u8; 27],
}

impl RequestFields {
    // The fields of a request of this kind, by the open of this FileId.
    fn of_kind(one: &ListedRequest, kind: u32, file_id: u64) -> RequestFields {
        RequestFields {
            file: one.file.0,
            client: one.client.0,
            tag: one.tag.0,
            file_id,
            key: [0; 16],
            state: 0,
            kind,
            access: 0,
            share: 0,
            has_lease: 0,
            durable: 0,
            has_reconnect: 0,
            reserved: [0; 27],
        }
    }

    // With what the contexts of a create ask for.
    fn with_ask(self, ask: CreateAsk) -> RequestFields {
        let mut fields = self;
        fields.durable = u8::from(ask.durable);
        if let Some((key, state)) = ask.lease {
            let bytes = key.0;
            fields.key = bytes;
            fields.state = state.to_wire();
            fields.has_lease = 1;
        }
        if let Some(fid) = ask.reconnect {
            fields.file_id = fid.0;
            fields.has_reconnect = 1;
        }
        fields
    }

    // The fields that hold a request.
    fn holding(one: &ListedRequest) -> RequestFields {
        match one.ask {
            Ask::Create { access, share, ask, .. } => {
                let mut fields = RequestFields::of_kind(one, 1, 0);
                fields.access = access.bits();
                fields.share = share.bits();
                fields.with_ask(ask)
            }
            Ask::Read { fid } => RequestFields::of_kind(one, 2, fid.0),
            Ask::Write { fid, .. } => RequestFields::of_kind(one, 3, fid.0),
            Ask::Close { fid } => RequestFields::of_kind(one, 4, fid.0),
        }
    }
}

/// Lists all requests that wait (3.3.4.2), in order of their files' numbers, and on each file in order of arrival. What the
/// last call decided stays.
///
/// Returns 0; 1 where there is no memory for the list, and nothing changed; 3 where there is no
/// manager.
pub fn smblease_manager_list_requests(alloc: Global, manager: &mut ManagerHandle) -> u32 {
    manager.list(alloc, Listing::Requests).code()
}

// Writes the request at the index into `out`.
fn tell(requests: &[ListedRequest], index: usize, out: &mut RequestFields) -> Outcome {
    match requests.get(index) {
        Some(one) => {
            *out = RequestFields::holding(one);
            Outcome::Done
        }
        None => Outcome::NoSuch,
    }
}

/// The request that was listed at this index, from 0.
///
/// Returns 0; 3 where there is no manager; 4 where nothing has the index, or a call of the manager
/// came since the requests were listed. Then nothing is written.
pub fn smblease_manager_listed_request_at(
    alloc: Global,
    manager: &mut ManagerHandle,
    index: usize,
    out: &mut RequestFields,
) -> u32 {
    match manager.take(alloc) {
        None => Outcome::Nothing.code(),
        Some(managing) => {
            let outcome = tell(managing.listed.requests.as_slice(), index, out);
            manager.put(alloc, managing);
            outcome.code()
        }
    }
}

/// The functions of this module for C.
pub mod exported {
    use super::{ManagerHandle, RequestFields};

    /// [`super::smblease_manager_list_requests`] for C.
    #[unsafe(no_mangle)]
    pub extern "C" fn smblease_manager_list_requests(manager: &mut ManagerHandle) -> u32 {
        super::smblease_manager_list_requests(std::alloc::Global, manager)
    }

    /// [`super::smblease_manager_listed_request_at`] for C.
    #[unsafe(no_mangle)]
    pub extern "C" fn smblease_manager_listed_request_at(
        manager: &mut ManagerHandle,
        index: usize,
        out: &mut RequestFields,
    ) -> u32 {
        super::smblease_manager_listed_request_at(std::alloc::Global, manager, index, out)
    }
}
