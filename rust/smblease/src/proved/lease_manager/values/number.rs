// Made by tools/plain_rust from crates/lease_manager/src/values/number.rt. Changes belong there.

/// A client's number, which its host gives it. It stands for the ClientGuid of the connection (MS-SMB2 3.3.1.7).
#[derive(Clone, Copy, Debug, PartialEq, Eq, PartialOrd, Ord, Hash)]
pub struct ClientNo(pub u64);

/// A file's number, which its host gives it. Every number from 1 on is a file's, and a host need not say beforehand which it
/// will use.
#[derive(Clone, Copy, Debug, PartialEq, Eq, PartialOrd, Ord, Hash)]
pub struct FileNo(pub u64);

impl FileNo {
    /// Whether the number is a file's, where this one is the last.
    pub fn is_file(self, last: FileNo) -> bool {
        1 <= self.0 && self.0 <= last.0
    }
}

/// The number under which a host asks something, and by which it is answered (profile).
#[derive(Clone, Copy, Debug, PartialEq, Eq, PartialOrd, Ord, Hash)]
pub struct Tag(pub u64);
