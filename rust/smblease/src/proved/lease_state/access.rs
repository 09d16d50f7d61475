// Made by tools/plain_rust from crates/lease_state/src/access.rt. Changes belong there.

/// What an open may do with its file (the profile's part of DesiredAccess, MS-SMB2 2.2.13.1).
#[derive(Clone, Copy, Debug, PartialEq, Eq, Hash)]
pub enum Access {
    Read,
    Write,
    ReadWrite,
}

impl Access {
    /// Whether the open may read its file.
    pub fn reads(self) -> bool {
        match self {
            Access::Read | Access::ReadWrite => true,
            Access::Write => false,
        }
    }

    /// Whether the open may write its file.
    pub fn writes(self) -> bool {
        match self {
            Access::Write | Access::ReadWrite => true,
            Access::Read => false,
        }
    }

    /// The access as a number (profile): 1 for reading, plus 2 for writing.
    pub fn bits(self) -> u8 {
        match self {
            Access::Read => 1,
            Access::Write => 2,
            Access::ReadWrite => 3,
        }
    }

    /// Whether an open that shares `share` lets an open of this access be: true exactly where
    /// `share` allows all that the access does (ShareAccess, MS-SMB2 2.2.13).
    pub fn is_within(self, share: Share) -> bool {
        (!self.reads() || share.allows_reads()) && (!self.writes() || share.allows_writes())
    }

    /// Whether an open of this access and `share` conflicts with one of `other_access` and
    /// `other_share` (2.2.13): true exactly where the access of one isn't within the share of
    /// the other.
    pub fn conflicts(self, share: Share, other_access: Access, other_share: Share) -> bool {
        !(self.is_within(other_share) && other_access.is_within(share))
    }
}

/// What an open lets other opens of its file do (ShareAccess, MS-SMB2 2.2.13).
#[derive(Clone, Copy, Debug, PartialEq, Eq, Hash)]
pub enum Share {
    Nothing,
    Read,
    Write,
    ReadWrite,
}

impl Share {
    /// Whether other opens may read the file.
    pub fn allows_reads(self) -> bool {
        match self {
            Share::Read | Share::ReadWrite => true,
            Share::Nothing | Share::Write => false,
        }
    }

    /// Whether other opens may write the file.
    pub fn allows_writes(self) -> bool {
        match self {
            Share::Write | Share::ReadWrite => true,
            Share::Nothing | Share::Read => false,
        }
    }

    /// The share as a number (2.2.13): 1 for reading, plus 2 for writing.
    pub fn bits(self) -> u8 {
        match self {
            Share::Nothing => 0,
            Share::Read => 1,
            Share::Write => 2,
            Share::ReadWrite => 3,
        }
    }
}

#[cfg(test)]
mod tests {
    use super::*;

    const ACCESSES: [(Access, bool, bool, u8); 3] =
        [(Access::Read, true, false, 1), (Access::Write, false, true, 2), (Access::ReadWrite, true, true, 3)];

    const SHARES: [(Share, bool, bool, u8); 4] = [
        (Share::Nothing, false, false, 0),
        (Share::Read, true, false, 1),
        (Share::Write, false, true, 2),
        (Share::ReadWrite, true, true, 3),
    ];

    #[test]
    fn letters_and_bits() {
        for (access, reads, writes, bits) in ACCESSES {
            assert_eq!((access.reads(), access.writes(), access.bits()), (reads, writes, bits));
        }
        for (share, reads, writes, bits) in SHARES {
            assert_eq!((share.allows_reads(), share.allows_writes(), share.bits()), (reads, writes, bits));
        }
    }

    #[test]
    fn opens_conflict_both_ways() {
        let cases = [
            (Access::ReadWrite, Share::ReadWrite, Access::ReadWrite, Share::ReadWrite, false),
            (Access::ReadWrite, Share::Nothing, Access::ReadWrite, Share::ReadWrite, true),
            (Access::Read, Share::Read, Access::Read, Share::Read, false),
            (Access::Read, Share::Read, Access::Write, Share::ReadWrite, true),
            (Access::Write, Share::Read, Access::Read, Share::Write, false),
        ];
        for (access, share, other_access, other_share, conflicts) in cases {
            assert_eq!(access.conflicts(share, other_access, other_share), conflicts);
            assert_eq!(other_access.conflicts(other_share, access, share), conflicts);
        }
        assert!(Access::Read.is_within(Share::Read));
        assert!(!Access::ReadWrite.is_within(Share::Read));
    }
}
