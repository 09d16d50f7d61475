// Made by tools/plain_rust from crates/lease_c/src/fault.rt. Changes belong there.

use crate::proved::lease_c::room::fill;
use smblease::proved::lease_state::Status;
use smblease::proved::lease_wire::WireFault;

/// Whether bytes were refused, and why: `struct smblease_fault`.
#[repr(C)]
#[derive(Clone, Copy, Debug, PartialEq, Eq)]
pub struct LeaseFault {
    /// Where the create context with the fault begins, in bytes from the start of the text; 0 in a
    /// break message.
    pub place: u64,
    /// The number of the fault's kind, from 1 to 7, or 0 where there is no fault.
    pub kind: u32,
    /// 0.
    pub reserved: u32,
}

impl LeaseFault {
    /// What is returned where there is no fault.
    pub(crate) fn none() -> LeaseFault {
        LeaseFault { place: 0, kind: 0, reserved: 0 }
    }

    /// A fault as it is returned.
    pub(crate) fn of(fault: WireFault) -> LeaseFault {
        LeaseFault { place: fault.place() as u64, kind: u32::from(fault.number()), reserved: 0 }
    }
}

// The name of the fault of this number, with a byte of 0 after it; no bytes for any other number.
fn name_of_kind(kind: u32) -> &'static [u8] {
    match kind {
        1 => b"Short\0",
        2 => b"WrongSize\0",
        3 => b"BadNext\0",
        4 => b"BadName\0",
        5 => b"BadData\0",
        6 => b"BadLength\0",
        7 => b"Twice\0",
        _ => b"",
    }
}

/// Writes the name of the fault of this kind to the front of `room`, as `BadNext`, with a byte of 0
/// after it (profile). Returns how many bytes that takes, 10 at most; where `room` is shorter,
/// nothing is written. A number from 1 to 7 is a fault's; any other has no name, and takes no
/// bytes.
pub fn smblease_fault_name(kind: u32, room: &mut [u8]) -> usize {
    fill(room, name_of_kind(kind))
}

/// Returns the status with which a server answers contexts or an acknowledgment of this fault:
/// STATUS_INVALID_PARAMETER (MS-SMB2 3.3.5.9, 3.3.5.22.2); STATUS_SUCCESS, which is 0, for 0, that
/// is no fault.
pub fn smblease_fault_status(kind: u32) -> u32 {
    if kind == 0 { 0 } else { Status::InvalidParameter.code() }
}

/// The functions of this module for C.
pub mod exported {

    /// [`super::smblease_fault_name`] for C.
    ///
    /// # Safety
    ///
    /// There are as many items at each pointer as the length after it says; nobody writes them meanwhile, nor reads them where
    /// they are written. A pointer is null only where the length is 0.
    #[unsafe(no_mangle)]
    pub unsafe extern "C" fn smblease_fault_name(kind: u32, room: *mut u8, room_length: usize) -> usize {
        // SAFETY: the caller's word.
        super::smblease_fault_name(kind, unsafe { std::c::slice_mut(room, room_length) })
    }

    /// [`super::smblease_fault_status`] for C.
    #[unsafe(no_mangle)]
    pub extern "C" fn smblease_fault_status(kind: u32) -> u32 {
        super::smblease_fault_status(kind)
    }
}
