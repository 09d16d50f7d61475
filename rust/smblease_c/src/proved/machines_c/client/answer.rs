// Made by tools/plain_rust from crates/machines_c/src/client/answer.rt. Changes belong there.

use crate::proved::machines_c::client::handle::ClientHandle;
use crate::proved::machines_c::handles::{Outcome, fill};
use smblease::proved::lease_client::{Answer, Refusal};
use smblease::proved::lease_state::Status;
use std::alloc::Global;

/// What the application is answered: `struct smblease_answer`. What has no meaning for the kind is
/// 0.
#[repr(C)]
#[derive(Clone, Copy, Debug, PartialEq, Eq)]
pub struct ClientAnswer {
    /// How many bytes there are, where they are those of a file.
    pub length: u64,
    /// 1 done, 2 waiting, 3 bytes, 4 refused, 5 failed, 6 quiet.
    pub kind: u32,
    /// Why it was refused, from 1 to 7.
    pub refusal: u32,
    /// With which NTSTATUS it failed, as it came.
    pub status: u32,
    /// Whether the bytes came from the cache.
    pub cached: u8,
    /// Room for later versions: 0.
    pub reserved: [u8; 27],
}

// The number of a refusal.
fn number_of(refusal: Refusal) -> u32 {
    match refusal {
        Refusal::NotOpen => 1,
        Refusal::Busy => 2,
        Refusal::Differs => 3,
        Refusal::Offline => 4,
        Refusal::TooLong => 5,
        Refusal::Denied => 6,
        Refusal::UsedUp => 7,
    }
}

// The status of a reply as it came, where one is known.
fn told_as(status: Status, code: u32) -> u32 {
    if code == 0 { status.code() } else { code }
}

// The bytes of an answer.
fn bytes_of(answer: &Answer) -> &[u8] {
    match answer {
        Answer::Bytes(bytes, _) => bytes.as_slice(),
        _ => b"",
    }
}

impl ClientAnswer {
    const NOTHING: ClientAnswer = ClientAnswer { length: 0, kind: 0, refusal: 0, status: 0, cached: 0, reserved: [0; 27] };

    // The fields that hold an answer, where the last reply had this status.
    fn holding(answer: &Answer, code: u32) -> ClientAnswer {
        let mut fields = ClientAnswer::NOTHING;
        match answer {
            Answer::Done => fields.kind = 1,
            Answer::Waiting => fields.kind = 2,
            Answer::Bytes(bytes, cached) => {
                fields.kind = 3;
                fields.length = bytes.len() as u64;
                fields.cached = u8::from(*cached);
            }
            Answer::Refused(refusal) => {
                fields.kind = 4;
                fields.refusal = number_of(*refusal);
            }
            Answer::Failed(status) => {
                fields.kind = 5;
                fields.status = told_as(*status, code);
            }
            Answer::Quiet => fields.kind = 6,
        }
        fields
    }
}

/// The answer of the last call. Its bytes are written to the front of `room` where they fit, and
/// else nothing is written there.
///
/// Returns 0, or 3 where there is no machine; then nothing is written.
pub fn smblease_client_answer(alloc: Global, client: &mut ClientHandle, out: &mut ClientAnswer, room: &mut [u8]) -> u32 {
    match client.take(alloc) {
        None => Outcome::Nothing.code(),
        Some(stepping) => {
            *out = ClientAnswer::holding(&stepping.step.answer, stepping.code);
            fill(room, bytes_of(&stepping.step.answer));
            client.put(alloc, stepping);
            Outcome::Done.code()
        }
    }
}

/// The functions of this module for C.
pub mod exported {
    use super::{ClientAnswer, ClientHandle};

    /// [`super::smblease_client_answer`] for C.
    ///
    /// # Safety
    ///
    /// There are as many items at each pointer as the length after it says; nobody writes them meanwhile, nor reads them where
    /// they are written. A pointer is null only where the length is 0.
    #[unsafe(no_mangle)]
    pub unsafe extern "C" fn smblease_client_answer(
        client: &mut ClientHandle,
        out: &mut ClientAnswer,
        room: *mut u8,
        room_length: usize,
    ) -> u32 {
        // SAFETY: the caller's word.
        super::smblease_client_answer(std::alloc::Global, client, out, unsafe { std::c::slice_mut(room, room_length) })
    }
}
