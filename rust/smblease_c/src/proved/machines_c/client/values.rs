// Made by tools/plain_rust from crates/machines_c/src/client/values.rt. Changes belong there.

/// A ClientGuid (MS-SMB2 2.2.3), its bytes in the order of the wire: `smblease_guid`.
#[repr(C)]
#[derive(Clone, Copy, Debug, PartialEq, Eq)]
pub struct ClientGuid {
    pub bytes: [u8; 16],
}

/// A lease break notification without its header (2.2.23.2): `smblease_break_message`.
#[repr(C)]
#[derive(Clone, Copy, Debug, PartialEq, Eq)]
pub struct BreakMessage {
    pub bytes: [u8; 44],
}
