// Made by tools/plain_rust from crates/machines_c/src/translation/asking.rt. Changes belong there.

use crate::proved::machines_c::client::values::ClientGuid;
use crate::proved::machines_c::handles::Outcome;
use crate::proved::machines_c::translation::handle::ClientVersionsHandle;
use crate::proved::machines_c::translation::translating::Translating;
use crate::proved::machines_c::values::MaybeKey;
use crate::proved::machines_c::versions::messages::MessageFields;
use smblease::proved::capture_wire::Guid;
use smblease::proved::lease_state::{FileId, LeaseKey};
use smblease::proved::lease_wire::read_create;
use smblease::proved::lease_wire_v2::{CreateAskV2, fill_create_ask_v2};
use std::alloc::Global;

impl MessageFields {
    // The create contexts of a request.
    fn of_ask(ask: &CreateAskV2) -> MessageFields {
        let mut bytes = [0; 204];
        let length = fill_create_ask_v2(ask, &mut bytes) as u32;
        MessageFields { bytes, length }
    }
}

impl Translating {
    // What is sent for these contexts of the machine.
    fn ask(&self, parent: Option<LeaseKey>, guid: Guid, contexts: &[u8], out: &mut MessageFields) -> Outcome {
        let Ok(ask) = read_create(contexts) else {
            return Outcome::Damaged;
        };
        *out = MessageFields::of_ask(&self.versions.ask(&ask, parent, guid));
        Outcome::Done
    }
}

/// The create contexts that are sent for those of a request of the client's machine (MS-SMB2 2.2.13.2): in version 2, with the
/// epoch that is known of the lease, with this parent of the file's folder where there is one, and with this CreateGuid where the
/// open is to be durable; a reconnect has the CreateGuid of its open.
///
/// Returns 0; 3 where the handle holds nothing; 5 where the contexts have a fault. But for 0 nothing is written.
pub fn smblease_client_versions_ask(
    alloc: Global,
    versions: &mut ClientVersionsHandle,
    guid: &ClientGuid,
    parent: &MaybeKey,
    contexts: &[u8],
    out: &mut MessageFields,
) -> u32 {
    match versions.take(alloc) {
        None => Outcome::Nothing.code(),
        Some(translating) => {
            let outcome = translating.ask(parent.key(), Guid(guid.bytes), contexts, out);
            versions.put(alloc, translating);
            outcome.code()
        }
    }
}

/// The open of this FileId is closed, or the client's machine has given it up: its CreateGuid is forgotten.
///
/// Returns 0; 3 where the handle holds nothing.
pub fn smblease_client_versions_closed(alloc: Global, versions: &mut ClientVersionsHandle, file_id: u64) -> u32 {
    match versions.take(alloc) {
        None => Outcome::Nothing.code(),
        Some(mut translating) => {
            translating.versions.closed(FileId(file_id));
            versions.put(alloc, translating);
            Outcome::Done.code()
        }
    }
}

/// The functions of this module for C.
pub mod exported {
    use super::{ClientGuid, ClientVersionsHandle, MaybeKey, MessageFields};

    /// [`super::smblease_client_versions_ask`] for C.
    ///
    /// # Safety
    ///
    /// There are as many items at each pointer as the length after it says; nobody writes them meanwhile, nor reads them where
    /// they are written. A pointer is null only where the length is 0.
    #[unsafe(no_mangle)]
    pub unsafe extern "C" fn smblease_client_versions_ask(
        versions: &mut ClientVersionsHandle,
        guid: &ClientGuid,
        parent: &MaybeKey,
        contexts: *const u8,
        contexts_length: usize,
        out: &mut MessageFields,
    ) -> u32 {
        // SAFETY: the caller's word.
        super::smblease_client_versions_ask(
            std::alloc::Global,
            versions,
            guid,
            parent,
            unsafe { std::c::slice(contexts, contexts_length) },
            out,
        )
    }

    /// [`super::smblease_client_versions_closed`] for C.
    #[unsafe(no_mangle)]
    pub extern "C" fn smblease_client_versions_closed(versions: &mut ClientVersionsHandle, file_id: u64) -> u32 {
        super::smblease_client_versions_closed(std::alloc::Global, versions, file_id)
    }
}
