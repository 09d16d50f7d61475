// Made by tools/plain_rust from crates/lease_c/src/messages.rt. Changes belong there.

use crate::proved::lease_c::fault::LeaseFault;
use crate::proved::lease_c::room::fill;
use smblease::proved::lease_state::{LeaseKey, LeaseState};
use smblease::proved::lease_wire::{Acknowledgment, BreakResponse, Notification};

/// A lease break notification: `struct smblease_notification`.
#[repr(C)]
#[derive(Clone, Copy, Debug, PartialEq, Eq)]
pub struct LeaseNotification {
    pub key: [u8; 16],
    /// CurrentLeaseState: the state that the server breaks.
    pub current_state: u32,
    /// NewLeaseState: the state that it is broken to.
    pub new_state: u32,
    /// SMB2_NOTIFY_BREAK_LEASE_FLAG_ACK_REQUIRED: the client has to acknowledge the break.
    pub ack_required: u8,
    /// Left 0, for what later versions may read.
    pub reserved: [u8; 15],
}

/// A lease break acknowledgment: `struct smblease_acknowledgment`.
#[repr(C)]
#[derive(Clone, Copy, Debug, PartialEq, Eq)]
pub struct LeaseAcknowledgment {
    pub key: [u8; 16],
    /// LeaseState: the state that the client keeps.
    pub state: u32,
    /// Left 0, for what later versions may read.
    pub reserved: [u8; 12],
}

/// A lease break response: `struct smblease_response`.
#[repr(C)]
#[derive(Clone, Copy, Debug, PartialEq, Eq)]
pub struct LeaseResponse {
    pub key: [u8; 16],
    /// LeaseState: the state that the lease now has.
    pub state: u32,
    /// Left 0, for what later versions may read.
    pub reserved: [u8; 12],
}

impl LeaseNotification {
    // The message that the fields hold.
    fn value(&self) -> Notification {
        Notification {
            ack_required: self.ack_required != 0,
            key: LeaseKey(self.key),
            current: LeaseState::from_wire(self.current_state),
            new: LeaseState::from_wire(self.new_state),
        }
    }

    // The fields that hold a message.
    fn holding(message: &Notification) -> LeaseNotification {
        LeaseNotification {
            key: message.key.0,
            current_state: message.current.to_wire(),
            new_state: message.new.to_wire(),
            ack_required: u8::from(message.ack_required),
            reserved: [0; 15],
        }
    }
}

impl LeaseAcknowledgment {
    // The message that the fields hold.
    fn value(&self) -> Acknowledgment {
        Acknowledgment { key: LeaseKey(self.key), state: LeaseState::from_wire(self.state) }
    }

    // The fields that hold a message.
    fn holding(message: &Acknowledgment) -> LeaseAcknowledgment {
        LeaseAcknowledgment { key: message.key.0, state: message.state.to_wire(), reserved: [0; 12] }
    }
}

impl LeaseResponse {
    // The message that the fields hold.
    fn value(&self) -> BreakResponse {
        BreakResponse { key: LeaseKey(self.key), state: LeaseState::from_wire(self.state) }
    }

    // The fields that hold a message.
    fn holding(message: &BreakResponse) -> LeaseResponse {
        LeaseResponse { key: message.key.0, state: message.state.to_wire(), reserved: [0; 12] }
    }
}

/// Reads a lease break notification (MS-SMB2 2.2.23.2) from the front of `bytes` into `out`. Other
/// fields that carry no value of the message, and state bits past 7, are passed over, as are the
/// bytes after its 44.
///
/// Returns the fault where there is one, and then `out` is as it was.
pub fn smblease_read_notification(bytes: &[u8], out: &mut LeaseNotification) -> LeaseFault {
    match Notification::decode(bytes) {
        Ok((message, _)) => {
            *out = LeaseNotification::holding(&message);
            LeaseFault::none()
        }
        Err(fault) => LeaseFault::of(fault),
    }
}

/// Writes a lease break notification (MS-SMB2 2.2.23.2) to the front of `room`. Returns its length,
/// 44; where `room` is shorter, nothing is written. Free fields are 0.
pub fn smblease_write_notification(message: &LeaseNotification, room: &mut [u8]) -> usize {
    let notification = message.value();
    fill(room, &notification.encode())
}

/// Reads a lease break acknowledgment (MS-SMB2 2.2.24.2) from the front of `bytes` into `out`. Other
/// fields, and state bits past 7, are passed over, as are the bytes after its 36.
///
/// Returns the fault where there is one, and then `out` is as it was.
pub fn smblease_read_acknowledgment(bytes: &[u8], out: &mut LeaseAcknowledgment) -> LeaseFault {
    match Acknowledgment::decode(bytes) {
        Ok((message, _)) => {
            *out = LeaseAcknowledgment::holding(&message);
            LeaseFault::none()
        }
        Err(fault) => LeaseFault::of(fault),
    }
}

/// Writes a lease break acknowledgment (MS-SMB2 2.2.24.2) to the front of `room`. Returns its
/// length, 36; where `room` is shorter, nothing is written. Free fields are 0.
pub fn smblease_write_acknowledgment(message: &LeaseAcknowledgment, room: &mut [u8]) -> usize {
    let acknowledgment = message.value();
    fill(room, &acknowledgment.encode())
}

/// Reads a lease break response (MS-SMB2 2.2.25.2), as [`smblease_read_acknowledgment`] an
/// acknowledgment.
pub fn smblease_read_response(bytes: &[u8], out: &mut LeaseResponse) -> LeaseFault {
    match BreakResponse::decode(bytes) {
        Ok((message, _)) => {
            *out = LeaseResponse::holding(&message);
            LeaseFault::none()
        }
        Err(fault) => LeaseFault::of(fault),
    }
}

/// Writes a lease break response (MS-SMB2 2.2.25.2), as [`smblease_write_acknowledgment`] an
/// acknowledgment.
pub fn smblease_write_response(message: &LeaseResponse, room: &mut [u8]) -> usize {
    let response = message.value();
    fill(room, &response.encode())
}

/// Returns whether a break asks for an acknowledgment (MS-SMB2 3.2.5.19.2), and writes it to `out`
/// where it does: that of the notification's key, with the state that the lease is broken to.
pub fn smblease_acknowledgment_due(notification: &LeaseNotification, out: &mut LeaseAcknowledgment) -> bool {
    match Acknowledgment::due(&notification.value()) {
        Some(acknowledgment) => {
            *out = LeaseAcknowledgment::holding(&acknowledgment);
            true
        }
        None => false,
    }
}

/// The functions of this module for C.
pub mod exported {
    use super::{LeaseAcknowledgment, LeaseFault, LeaseNotification, LeaseResponse};

    /// [`super::smblease_read_notification`] for C.
    ///
    /// # Safety
    ///
    /// There are as many items at each pointer as the length after it says; nobody writes them meanwhile, nor reads them where
    /// they are written. A pointer is null only where the length is 0.
    #[unsafe(no_mangle)]
    pub unsafe extern "C" fn smblease_read_notification(
        bytes: *const u8,
        bytes_length: usize,
        out: &mut LeaseNotification,
    ) -> LeaseFault {
        // SAFETY: the caller's word.
        super::smblease_read_notification(unsafe { std::c::slice(bytes, bytes_length) }, out)
    }

    /// [`super::smblease_write_notification`] for C.
    ///
    /// # Safety
    ///
    /// There are as many items at each pointer as the length after it says; nobody writes them meanwhile, nor reads them where
    /// they are written. A pointer is null only where the length is 0.
    #[unsafe(no_mangle)]
    pub unsafe extern "C" fn smblease_write_notification(
        message: &LeaseNotification,
        room: *mut u8,
        room_length: usize,
    ) -> usize {
        // SAFETY: the caller's word.
        super::smblease_write_notification(message, unsafe { std::c::slice_mut(room, room_length) })
    }

    /// [`super::smblease_read_acknowledgment`] for C.
    ///
    /// # Safety
    ///
    /// There are as many items at each pointer as the length after it says; nobody writes them meanwhile, nor reads them where
    /// they are written. A pointer is null only where the length is 0.
    #[unsafe(no_mangle)]
    pub unsafe extern "C" fn smblease_read_acknowledgment(
        bytes: *const u8,
        bytes_length: usize,
        out: &mut LeaseAcknowledgment,
    ) -> LeaseFault {
        // SAFETY: the caller's word.
        super::smblease_read_acknowledgment(unsafe { std::c::slice(bytes, bytes_length) }, out)
    }

    /// [`super::smblease_write_acknowledgment`] for C.
    ///
    /// # Safety
    ///
    /// There are as many items at each pointer as the length after it says; nobody writes them meanwhile, nor reads them where
    /// they are written. A pointer is null only where the length is 0.
    #[unsafe(no_mangle)]
    pub unsafe extern "C" fn smblease_write_acknowledgment(
        message: &LeaseAcknowledgment,
        room: *mut u8,
        room_length: usize,
    ) -> usize {
        // SAFETY: the caller's word.
        super::smblease_write_acknowledgment(message, unsafe { std::c::slice_mut(room, room_length) })
    }

    /// [`super::smblease_read_response`] for C.
    ///
    /// # Safety
    ///
    /// There are as many items at each pointer as the length after it says; nobody writes them meanwhile, nor reads them where
    /// they are written. A pointer is null only where the length is 0.
    #[unsafe(no_mangle)]
    pub unsafe extern "C" fn smblease_read_response(
        bytes: *const u8,
        bytes_length: usize,
        out: &mut LeaseResponse,
    ) -> LeaseFault {
        // SAFETY: the caller's word.
        super::smblease_read_response(unsafe { std::c::slice(bytes, bytes_length) }, out)
    }

    /// [`super::smblease_write_response`] for C.
    ///
    /// # Safety
    ///
    /// There are as many items at each pointer as the length after it says; nobody writes them meanwhile, nor reads them where
    /// they are written. A pointer is null only where the length is 0.
    #[unsafe(no_mangle)]
    pub unsafe extern "C" fn smblease_write_response(message: &LeaseResponse, room: *mut u8, room_length: usize) -> usize {
        // SAFETY: the caller's word.
        super::smblease_write_response(message, unsafe { std::c::slice_mut(room, room_length) })
    }

    /// [`super::smblease_acknowledgment_due`] for C.
    #[unsafe(no_mangle)]
    pub extern "C" fn smblease_acknowledgment_due(notification: &LeaseNotification, out: &mut LeaseAcknowledgment) -> bool {
        super::smblease_acknowledgment_due(notification, out)
    }
}
