// Made by tools/plain_rust from crates/machines_c/src/versions/creates.rt. Changes belong there.

use crate::proved::machines_c::handles::Outcome;
use crate::proved::machines_c::manager::values::CreateFields;
use crate::proved::machines_c::versions::following::Following;
use crate::proved::machines_c::versions::handle::VersionsHandle;
use smblease::proved::lease_manager::{ClientNo, Tag};
use smblease::proved::lease_versions::{Arrival, Replayed};
use smblease::proved::lease_wire::CreateAsk;
use smblease::proved::lease_wire_v2::read_create_v2;
use std::alloc::Global;

const DUPLICATE_OBJECT_ID: u32 = 0xC000_022A;

const FILE_NOT_AVAILABLE: u32 = 0xC000_0467;

/// What becomes of a create by its contexts: `struct smblease_versions_ask`.
#[repr(C)]
#[derive(Clone, Copy, Debug, PartialEq, Eq)]
pub struct AskedFields {
    /// What the manager is to be asked, where `status` and `again` are 0.
    pub ask: CreateFields,
    /// The FileId of the open that is answered again, or 0.
    pub again: u64,
    /// The NTSTATUS by which the create is refused, or 0.
    pub status: u32,
    /// Room for later versions: 0.
    pub reserved: u32,
}

impl CreateFields {
    // The fields in which nothing is asked.
    fn nothing() -> CreateFields {
        CreateFields {
            key: [0; 16],
            file_id: 0,
            state: 0,
            has_lease: 0,
            durable: 0,
            has_reconnect: 0,
            has_other_lease: 0,
            reserved: [0; 6],
        }
    }

    // The fields that ask for this.
    fn holding(ask: &CreateAsk) -> CreateFields {
        let mut fields = CreateFields::nothing();
        if let Some((key, state)) = ask.lease {
            let bytes = key.0;
            fields.key = bytes;
            fields.state = state.to_wire();
            fields.has_lease = 1;
        }
        if let Some(file_id) = ask.reconnect {
            fields.file_id = file_id.0;
            fields.has_reconnect = 1;
        }
        fields.durable = u8::from(ask.durable);
        fields
    }
}

impl AskedFields {
    // The create is refused by this status, or answered again by this open.
    fn without_ask(status: u32, again: u64) -> AskedFields {
        AskedFields { ask: CreateFields::nothing(), again, status, reserved: 0 }
    }

    fn replayed(replayed: Replayed) -> AskedFields {
        match replayed {
            Replayed::Again(file_id) => AskedFields::without_ask(0, file_id.0),
            Replayed::DuplicateObjectId => AskedFields::without_ask(DUPLICATE_OBJECT_ID, 0),
            Replayed::FileNotAvailable => AskedFields::without_ask(FILE_NOT_AVAILABLE, 0),
        }
    }

    // What becomes of a create that asks the manager for this.
    fn holding(ask: &CreateAsk, arrival: Arrival) -> AskedFields {
        match arrival {
            Arrival::Asked => AskedFields { ask: CreateFields::holding(ask), ..AskedFields::without_ask(0, 0) },
            Arrival::Refused(status) => AskedFields::without_ask(status.code(), 0),
            Arrival::Again(replayed) => AskedFields::replayed(replayed),
        }
    }
}

impl Following {
    // A create comes with these contexts.
    fn asked(&mut self, request: (ClientNo, Tag, bool), contexts: &[u8], out: &mut AskedFields) -> Outcome {
        let (client, tag, replay) = request;
        let Ok(ask) = read_create_v2(contexts) else {
            return Outcome::Damaged;
        };
        match self.versions.arrived(client, tag, &ask, replay) {
            Ok(arrival) => {
                *out = AskedFields::holding(&ask.plain(), arrival);
                Outcome::Done
            }
            Err(_) => Outcome::NoMemory,
        }
    }
}

/// A create comes under this tag with these create contexts (MS-SMB2 2.2.13.2), in a request that has
/// SMB2_FLAGS_REPLAY_OPERATION or hasn't: what the manager is to be asked, or why not. Where it is to be asked, it is known for
/// what until it answers.
///
/// Returns 0; 1 where there is no memory; 3 where the handle holds nothing; 5 where the contexts have a fault, for which
/// STATUS_INVALID_PARAMETER answers the request. But for 0 nothing is written, and nothing changed.
pub fn smblease_versions_asked(
    alloc: Global,
    versions: &mut VersionsHandle,
    client: u64,
    tag: u64,
    replay: u8,
    contexts: &[u8],
    out: &mut AskedFields,
) -> u32 {
    match versions.take(alloc) {
        None => Outcome::Nothing.code(),
        Some(mut following) => {
            let request = (ClientNo(client), Tag(tag), replay != 0);
            let outcome = following.asked(request, contexts, out);
            versions.put(alloc, following);
            outcome.code()
        }
    }
}

/// The functions of this module for C.
pub mod exported {
    use super::{AskedFields, VersionsHandle};

    /// [`super::smblease_versions_asked`] for C.
    ///
    /// # Safety
    ///
    /// There are as many items at each pointer as the length after it says; nobody writes them meanwhile, nor reads them where
    /// they are written. A pointer is null only where the length is 0.
    #[unsafe(no_mangle)]
    pub unsafe extern "C" fn smblease_versions_asked(
        versions: &mut VersionsHandle,
        client: u64,
        tag: u64,
        replay: u8,
        contexts: *const u8,
        contexts_length: usize,
        out: &mut AskedFields,
    ) -> u32 {
        // SAFETY: the caller's word.
        super::smblease_versions_asked(
            std::alloc::Global,
            versions,
            client,
            tag,
            replay,
            unsafe { std::c::slice(contexts, contexts_length) },
            out,
        )
    }
}
