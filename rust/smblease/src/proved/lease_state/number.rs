// Made by tools/plain_rust from crates/lease_state/src/number.rt. Changes belong there.

/// A client's number, from 1. It stands for the ClientGuid of the connection.
#[derive(Clone, Copy, Debug, PartialEq, Eq, PartialOrd, Ord, Hash)]
pub struct ClientNo(pub u8);

/// A file's number, from 1.
#[derive(Clone, Copy, Debug, PartialEq, Eq, PartialOrd, Ord, Hash)]
pub struct FileNo(pub u8);

/// The FileId of an open (MS-SMB2 2.2.14.1): its Persistent part, which the profile gives the
/// Volatile part too (profile).
#[derive(Clone, Copy, Debug, PartialEq, Eq, PartialOrd, Ord, Hash)]
pub struct FileId(pub u64);
