// Made by tools/plain_rust from crates/lease_wire_v2/src/notification.rt. Changes belong there.

use crate::proved::lease_wire::{Notification, WireFault};
use byteorder::{ByteOrder, LittleEndian};

const NEW_EPOCH_OFFSET: usize = 2;

/// A lease break notification (MS-SMB2 2.2.23.2) with its NewEpoch.
#[derive(Clone, Copy, Debug, PartialEq, Eq)]
pub struct NotificationV2 {
    pub notification: Notification,
    /// NewEpoch: the epoch after the break of a lease of version 2, and 0 for a lease of version 1.
    pub new_epoch: u16,
}

// The notification with another NewEpoch.
fn with_epoch(mut message: [u8; Notification::SIZE], new_epoch: u16) -> [u8; Notification::SIZE] {
    message[NEW_EPOCH_OFFSET..NEW_EPOCH_OFFSET + 2].copy_from_slice(&new_epoch.to_le_bytes());
    message
}

impl NotificationV2 {
    /// The message as its 44 bytes, without the SMB2 header. Free fields are 0.
    pub fn encode(&self) -> [u8; Notification::SIZE] {
        let NotificationV2 { notification, new_epoch } = *self;
        with_epoch(notification.encode(), new_epoch)
    }

    /// Reads a notification from the front of `bytes`, as `lease_wire::Notification::decode` does, and its NewEpoch: the value,
    /// and the bytes after its 44.
    ///
    /// # Errors
    ///
    /// `Short` where there are fewer bytes, else `WrongSize` where StructureSize is not 44.
    pub fn decode(bytes: &[u8]) -> Result<(NotificationV2, &[u8]), WireFault> {
        match Notification::decode(bytes) {
            Err(fault) => Err(fault),
            Ok((notification, rest)) => {
                let new_epoch = LittleEndian::read_u16(&bytes[NEW_EPOCH_OFFSET..]);
                Ok((NotificationV2 { notification, new_epoch }, rest))
            }
        }
    }
}
