// Made by tools/plain_rust from crates/lease_c/src/room.rt. Changes belong there.

/// Writes all of the message to the front of the room, or nothing; gives how long the message is.
pub(crate) fn fill(room: &mut [u8], message: &[u8]) -> usize {
    if message.len() <= room.len() {
        room[..message.len()].copy_from_slice(message);
    }
    message.len()
}
