// Made by tools/plain_rust from crates/lease_versions/src/carried.rt. Changes belong there.

use crate::proved::lease_state::{FileId, Status};
use crate::proved::lease_wire_v2::SecondVersion;

/// What version 2 adds to what a host sends for a decision.
#[derive(Clone, Copy, Debug, PartialEq, Eq)]
pub enum Carried {
    /// Nothing: the decision needs no message that version 2 adds to.
    Nothing,
    /// To the answer to a create (MS-SMB2 2.2.14.2).
    Answer {
        /// What version 2 adds to its `RqLs` context; `None` where that is of version 1, or there is none.
        second: Option<SecondVersion>,
        /// It has `DH2Q`: that was asked for, and the open is durable. A durable open without it is answered by `DHnQ`, and one
        /// that is connected again by neither.
        durable: bool,
    },
    /// To the notice of a break (MS-SMB2 2.2.23.2): its NewEpoch, which is 0 for a lease of version 1.
    Notice(u16),
}

/// What becomes of a create under a CreateGuid that its client has used (MS-SMB2 3.3.5.9.10).
#[derive(Clone, Copy, Debug, PartialEq, Eq)]
pub enum Replayed {
    /// The open of this FileId is answered again.
    Again(FileId),
    /// The create is refused: STATUS_DUPLICATE_OBJECTID, 0xC000022A.
    DuplicateObjectId,
    /// The create is refused while the first one waits: STATUS_FILE_NOT_AVAILABLE, 0xC0000467.
    FileNotAvailable,
}

/// What becomes of a create by its contexts, before the manager is asked.
#[derive(Clone, Copy, Debug, PartialEq, Eq)]
pub enum Arrival {
    /// The manager is to be asked, and it is noted what for.
    Asked,
    /// It is refused with this status.
    Refused(Status),
    /// Its client has used its CreateGuid.
    Again(Replayed),
}
