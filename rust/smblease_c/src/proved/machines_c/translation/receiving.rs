// Made by tools/plain_rust from crates/machines_c/src/translation/receiving.rt. Changes belong there.

use crate::proved::machines_c::client::values::{BreakMessage, ClientGuid};
use crate::proved::machines_c::handles::Outcome;
use crate::proved::machines_c::translation::handle::ClientVersionsHandle;
use crate::proved::machines_c::translation::translating::Translating;
use crate::proved::machines_c::versions::messages::MessageFields;
use smblease::proved::capture_wire::Guid;
use smblease::proved::lease_state::{FileId, Memory};
use smblease::proved::lease_wire::{CreateAnswer, Notification, fill_create_reply};
use smblease::proved::lease_wire_v2::{CreateAnswerV2, NotificationV2, read_create_reply_v2};
use std::alloc::Global;

impl MessageFields {
    // The create contexts of an answer, in version 1.
    fn of_given(answer: &CreateAnswer) -> MessageFields {
        let mut bytes = [0; 204];
        let length = fill_create_reply(answer, &mut bytes) as u32;
        MessageFields { bytes, length }
    }

    // A notification, in version 1.
    fn of_notification(notification: &Notification) -> MessageFields {
        let mut bytes = [0; 204];
        let message = notification.encode();
        bytes[..message.len()].copy_from_slice(&message);
        MessageFields { bytes, length: 44 }
    }

    // No message.
    fn nothing() -> MessageFields {
        MessageFields { bytes: [0; 204], length: 0 }
    }
}

impl Translating {
    // The answer is taken.
    fn take_answer(
        &mut self,
        in_order: bool,
        file_id: FileId,
        guid: Guid,
        answer: &CreateAnswerV2,
        out: &mut MessageFields,
    ) -> Outcome {
        let came = if in_order {
            self.versions.answered_in_order(file_id, guid, answer)
        } else {
            self.versions.answered(file_id, guid, answer)
        };
        match came {
            Ok(given) => {
                *out = MessageFields::of_given(&given);
                Outcome::Done
            }
            Err(_) => Outcome::NoMemory,
        }
    }

    // The contexts of an answer come.
    fn answered(&mut self, in_order: bool, file_id: FileId, guid: Guid, contexts: &[u8], out: &mut MessageFields) -> Outcome {
        let Ok(answer) = read_create_reply_v2(contexts) else {
            return Outcome::Damaged;
        };
        self.take_answer(in_order, file_id, guid, &answer, out)
    }

    // What the machine is given of a notice, or nothing.
    fn given(&mut self, in_order: bool, notice: &NotificationV2) -> Result<Option<Notification>, Memory> {
        if in_order {
            let notification = self.versions.noticed_in_order(notice)?;
            Ok(Some(notification))
        } else {
            self.versions.noticed(notice)
        }
    }

    // The notice is taken.
    fn take_notice(&mut self, in_order: bool, notice: &NotificationV2, out: &mut MessageFields) -> Outcome {
        match self.given(in_order, notice) {
            Ok(Some(notification)) => {
                *out = MessageFields::of_notification(&notification);
                Outcome::Done
            }
            Ok(None) => {
                *out = MessageFields::nothing();
                Outcome::Done
            }
            Err(_) => Outcome::NoMemory,
        }
    }

    // A notification comes.
    fn noticed(&mut self, in_order: bool, message: &[u8], out: &mut MessageFields) -> Outcome {
        let Ok((notice, _)) = NotificationV2::decode(message) else {
            return Outcome::Damaged;
        };
        self.take_notice(in_order, &notice, out)
    }
}

/// The create contexts of an answer come (MS-SMB2 2.2.14.2), to a create that was sent under this CreateGuid; its open has this
/// FileId. Written are those that the client's machine takes, in version 1. Where `in_order` is set the answer came over the only
/// connection, after all that was sent before it.
///
/// Returns 0; 1 where there is no memory; 3 where the handle holds nothing; 5 where the contexts have a fault. But for 0 nothing is
/// written, and nothing changed.
pub fn smblease_client_versions_answered(
    alloc: Global,
    versions: &mut ClientVersionsHandle,
    in_order: u8,
    file_id: u64,
    guid: &ClientGuid,
    contexts: &[u8],
    out: &mut MessageFields,
) -> u32 {
    match versions.take(alloc) {
        None => Outcome::Nothing.code(),
        Some(mut translating) => {
            let outcome = translating.answered(in_order != 0, FileId(file_id), Guid(guid.bytes), contexts, out);
            versions.put(alloc, translating);
            outcome.code()
        }
    }
}

/// The notification of a break comes (MS-SMB2 2.2.23.2), without its header. Written is the one that the client's machine takes, in
/// version 1, or no bytes: then it is dropped, and not acknowledged. Where `in_order` is set it came over the only connection,
/// after all that was sent before it.
///
/// Returns 0; 1 where there is no memory; 3 where the handle holds nothing; 5 where it can't be read. But for 0 nothing is written,
/// and nothing changed.
pub fn smblease_client_versions_noticed(
    alloc: Global,
    versions: &mut ClientVersionsHandle,
    in_order: u8,
    message: &BreakMessage,
    out: &mut MessageFields,
) -> u32 {
    match versions.take(alloc) {
        None => Outcome::Nothing.code(),
        Some(mut translating) => {
            let outcome = translating.noticed(in_order != 0, &message.bytes, out);
            versions.put(alloc, translating);
            outcome.code()
        }
    }
}

/// The functions of this module for C.
pub mod exported {
    use super::{BreakMessage, ClientGuid, ClientVersionsHandle, MessageFields};

    /// [`super::smblease_client_versions_answered`] for C.
    ///
    /// # Safety
    ///
    /// There are as many items at each pointer as the length after it says; nobody writes them meanwhile, nor reads them where
    /// they are written. A pointer is null only where the length is 0.
    #[unsafe(no_mangle)]
    pub unsafe extern "C" fn smblease_client_versions_answered(
        versions: &mut ClientVersionsHandle,
        in_order: u8,
        file_id: u64,
        guid: &ClientGuid,
        contexts: *const u8,
        contexts_length: usize,
        out: &mut MessageFields,
    ) -> u32 {
        // SAFETY: the caller's word.
        super::smblease_client_versions_answered(
            std::alloc::Global,
            versions,
            in_order,
            file_id,
            guid,
            unsafe { std::c::slice(contexts, contexts_length) },
            out,
        )
    }

    /// [`super::smblease_client_versions_noticed`] for C.
    #[unsafe(no_mangle)]
    pub extern "C" fn smblease_client_versions_noticed(
        versions: &mut ClientVersionsHandle,
        in_order: u8,
        message: &BreakMessage,
        out: &mut MessageFields,
    ) -> u32 {
        super::smblease_client_versions_noticed(std::alloc::Global, versions, in_order, message, out)
    }
}
