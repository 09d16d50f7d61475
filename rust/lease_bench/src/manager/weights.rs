use smblease::proved::lease_manager::Decision;

/// A number for a decision.
pub fn weight(decision: &Decision) -> u64 {
    match decision {
        Decision::Opened { tag, file_id, answer, .. } => {
            let held = match answer.lease {
                Some((_, state, is_breaking)) => u64::from(state.to_wire()).wrapping_mul(2).wrapping_add(u64::from(is_breaking)),
                None => 0,
            };
            joined(tag.0, joined(file_id.0, joined(held, u64::from(answer.durable))))
        }
        Decision::GoesOn { client, tag } => joined(client.0, joined(tag.0, 1)),
        Decision::Closed { client, tag } => joined(client.0, joined(tag.0, 2)),
        Decision::Refused { client, tag, .. } => joined(client.0, joined(tag.0, 3)),
        Decision::Waits { client, tag } => joined(client.0, joined(tag.0, 4)),
        Decision::Withdrawn { client, tag } => joined(client.0, joined(tag.0, 5)),
        Decision::Breaks { client, notice } => {
            joined(client.0, joined(u64::from(notice.current.to_wire()), u64::from(notice.lowered.to_wire())))
        }
        Decision::Acknowledged { client, state, .. } => joined(client.0, joined(u64::from(state.to_wire()), 6)),
        Decision::NotAcknowledged { client, .. } => joined(client.0, 7),
        Decision::Ended { file_id } => joined(file_id.0, 8),
        Decision::LeftBehind { file_id } => joined(file_id.0, 9),
    }
}

fn joined(one: u64, other: u64) -> u64 {
    one.wrapping_mul(31).wrapping_add(other)
}
