// Made by tools/plain_rust from crates/lease_manager/src/values/out.rt. Changes belong there.

use crate::proved::lease_manager::values::decision::CreateAnswer;
use crate::proved::lease_manager::values::key::LeaseName;
use crate::proved::lease_manager::values::number::ClientNo;
use crate::proved::lease_state::{FileId, LeaseState, Status};

/// What the server of the rules gives out, without bytes.
#[derive(Clone, Copy, Debug)]
pub enum Out {
    /// The file was opened for the client.
    Opened,
    /// The file was changed by the client's write.
    Changed,
    /// A create is answered.
    Created { client: ClientNo, file_id: FileId, answer: CreateAnswer },
    /// A request is refused.
    Refused { client: ClientNo, status: Status },
    /// A read is answered.
    ReadDone { client: ClientNo },
    /// A write is answered.
    WriteDone { client: ClientNo },
    /// A close is answered.
    Closed { client: ClientNo },
    /// The lease of the key is broken, from this state to that.
    Broken { key: LeaseName, current: LeaseState, lowered: LeaseState },
    /// A break is acknowledged, and the lease of the key has this state.
    Acknowledged { key: LeaseName, state: LeaseState },
    /// An acknowledgment is refused.
    NotAcknowledged { client: ClientNo, status: Status },
}
