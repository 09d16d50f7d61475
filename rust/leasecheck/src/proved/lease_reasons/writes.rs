// Made by tools/plain_rust from crates/lease_reasons/src/writes.rt. Changes belong there.

use crate::proved::lease_reasons::marks::Mark;
use crate::proved::lease_reasons::reason::Reason;
use smblease::proved::lease_facts::Fact;
use smblease::proved::lease_state::{ClientNo, FileNo};

/// Why the change of a file by the client's write of this number comes late, if it does.
pub fn late_write(facts: &[Fact], client: ClientNo, file: FileNo, number: u64) -> Option<Reason> {
    let wrote = Mark::Buffering(client, file, number).first(facts, 0)?;
    let touched = Mark::Touch(client, file).first(facts, wrote)?;
    Some(Reason::LateWrite { client, file, number, wrote, touched })
}

/// What is known of the client's write of this number, which wasn't accepted.
pub fn false_done(facts: &[Fact], client: ClientNo, number: u64) -> Reason {
    Reason::FalseDone {
        client,
        number,
        wrote: Mark::Write(client, number).last(facts),
        changed: Mark::ChangeBy(client, number).last(facts),
    }
}
