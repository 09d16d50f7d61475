// Made by tools/plain_rust from crates/machines_c/src/client/note.rt. Changes belong there.

use crate::proved::machines_c::client::handle::ClientHandle;
use crate::proved::machines_c::handles::{Outcome, fill};
use smblease::proved::lease_client::{Note, Settlement};
use std::alloc::Global;

/// What a client notes for its program: `smblease_client_note`. What has no meaning for the kind is 0.
#[repr(C)]
#[derive(Clone, Copy, Debug, PartialEq, Eq)]
pub struct ClientNote {
    /// The number of the write.
    pub number: u64,
    /// How many bytes there are: those of the write, or of the file.
    pub length: u64,
    /// 1 a write is settled, 2 a write was taken, 3 the belief of a lease, 4 a read from the cache.
    pub kind: u32,
    /// What became of the write: 1 done, 2 failed, 3 unknown, 4 lost.
    pub outcome: u32,
    /// Where the bytes of the write go.
    pub offset: u32,
    /// What is believed: the bits of LeaseState.
    pub state: u32,
    /// The number of the file.
    pub file: u8,
    /// Whether the write was buffered, and else it was sent.
    pub buffered: u8,
    /// Room for later versions: 0.
    pub reserved: [u8; 30],
}

// The number of what became of a write.
fn number_of(outcome: Settlement) -> u32 {
    match outcome {
        Settlement::Done => 1,
        Settlement::Failed => 2,
        Settlement::Unknown => 3,
        Settlement::Lost => 4,
    }
}

// The bytes of a note.
fn bytes_of(note: &Note) -> &[u8] {
    match note {
        Note::Wrote(_, _, patch, _) => patch.bytes.as_slice(),
        Note::CachedRead(_, bytes) => bytes.as_slice(),
        Note::Settled(_, _) | Note::Believes(_, _) => b"",
    }
}

impl ClientNote {
    const NOTHING: ClientNote =
        ClientNote { number: 0, length: 0, kind: 0, outcome: 0, offset: 0, state: 0, file: 0, buffered: 0, reserved: [0; 30] };

    // The fields that hold a note.
    fn holding(note: &Note) -> ClientNote {
        match note {
            Note::Settled(number, outcome) => {
                ClientNote { number: *number, kind: 1, outcome: number_of(*outcome), ..ClientNote::NOTHING }
            }
            Note::Wrote(file, number, patch, buffered) => ClientNote {
                number: *number,
                length: patch.bytes.len() as u64,
                kind: 2,
                offset: patch.offset,
                file: file.0,
                buffered: u8::from(*buffered),
                ..ClientNote::NOTHING
            },
            Note::Believes(file, state) => ClientNote { kind: 3, state: state.to_wire(), file: file.0, ..ClientNote::NOTHING },
            Note::CachedRead(file, bytes) => {
                ClientNote { length: bytes.as_slice().len() as u64, kind: 4, file: file.0, ..ClientNote::NOTHING }
            }
        }
    }
}

// Writes a note that is there into `out`, and its bytes to the front of `room` where they fit.
fn tell(note: Option<&Note>, out: &mut ClientNote, room: &mut [u8]) -> Outcome {
    match note {
        Some(note) => {
            *out = ClientNote::holding(note);
            fill(room, bytes_of(note));
            Outcome::Done
        }
        None => Outcome::NoSuch,
    }
}

/// How many notes the last call gave out; 0 where there is no machine.
pub fn smblease_client_note_count(alloc: Global, client: &mut ClientHandle) -> usize {
    match client.take(alloc) {
        None => 0,
        Some(stepping) => {
            let count = stepping.step.notes.len();
            client.put(alloc, stepping);
            count
        }
    }
}

/// The note of this index, from 0, that the last call gave out. Its bytes are written to the front
/// of `room` where they fit, and else nothing is written there.
///
/// Returns 0; 3 where there is no machine; 4 where there is no note of the index. Then nothing is
/// written.
pub fn smblease_client_note_at(
    alloc: Global,
    client: &mut ClientHandle,
    index: usize,
    out: &mut ClientNote,
    room: &mut [u8],
) -> u32 {
    match client.take(alloc) {
        None => Outcome::Nothing.code(),
        Some(stepping) => {
            let outcome = tell(stepping.step.notes.get(index), out, room);
            client.put(alloc, stepping);
            outcome.code()
        }
    }
}

/// The functions of this module for C.
pub mod exported {
    use super::{ClientHandle, ClientNote};

    /// [`super::smblease_client_note_count`] for C.
    #[unsafe(no_mangle)]
    pub extern "C" fn smblease_client_note_count(client: &mut ClientHandle) -> usize {
        super::smblease_client_note_count(std::alloc::Global, client)
    }

    /// [`super::smblease_client_note_at`] for C.
    ///
    /// # Safety
    ///
    /// There are as many items at each pointer as the length after it says; nobody writes them meanwhile, nor reads them where
    /// they are written. A pointer is null only where the length is 0.
    #[unsafe(no_mangle)]
    pub unsafe extern "C" fn smblease_client_note_at(
        client: &mut ClientHandle,
        index: usize,
        out: &mut ClientNote,
        room: *mut u8,
        room_length: usize,
    ) -> u32 {
        // SAFETY: the caller's word.
        super::smblease_client_note_at(std::alloc::Global, client, index, out, unsafe { std::c::slice_mut(room, room_length) })
    }
}
