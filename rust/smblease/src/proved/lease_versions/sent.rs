// Made by tools/plain_rust from crates/lease_versions/src/sent.rt. Changes belong there.

use crate::proved::capture_wire::DurableResponseV2;
use crate::proved::lease_manager::{BreakNotice, CreateAnswer};
use crate::proved::lease_state::{LeaseKey, LeaseState};
use crate::proved::lease_versions::carried::Carried;
use crate::proved::lease_wire::Notification;
use crate::proved::lease_wire_v2::{CreateAnswerV2, DurableAnswer, LeaseAnswer, NotificationV2, SecondVersion};

fn lease_sent(given: Option<(LeaseKey, LeaseState, bool)>, second: Option<SecondVersion>) -> Option<LeaseAnswer> {
    match given {
        Some((key, state, breaking)) => Some(LeaseAnswer { key, state, breaking, second }),
        None => None,
    }
}

fn durable_sent(durable: bool, is_second: bool, timeout: u32) -> Option<DurableAnswer> {
    if !durable {
        return None;
    }
    if is_second {
        let persistent = false;
        Some(DurableAnswer::Second(DurableResponseV2 { timeout, persistent }))
    } else {
        Some(DurableAnswer::First)
    }
}

impl Carried {
    /// What the create contexts of an answer grant (MS-SMB2 2.2.14.2): `RqLs` in the version of its lease, and for a durable open
    /// `DH2Q` with this timeout, in milliseconds, or `DHnQ`.
    pub fn answer(self, answer: &CreateAnswer, timeout: u32) -> CreateAnswerV2 {
        let (second, is_second) = match self {
            Carried::Answer { second, durable } => (second, durable),
            _ => (None, false),
        };
        CreateAnswerV2 { lease: lease_sent(answer.lease, second), durable: durable_sent(answer.durable, is_second, timeout) }
    }

    /// The notification of a break (MS-SMB2 2.2.23.2), with its NewEpoch.
    pub fn notification(self, notice: &BreakNotice) -> NotificationV2 {
        let new_epoch = match self {
            Carried::Notice(epoch) => epoch,
            _ => 0,
        };
        let notification =
            Notification { ack_required: notice.ack_required, key: notice.key, current: notice.current, new: notice.lowered };
        NotificationV2 { notification, new_epoch }
    }
}
