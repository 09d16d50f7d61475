// Made by tools/plain_rust from crates/lease_world/src/whole.rt. Changes belong there.

use crate::proved::lease_facts::{Fact, Verdict};
use crate::proved::lease_state::Memory;
use crate::proved::lease_world::judging::Judge;
use std::alloc::Global;

/// The verdict on the record of these facts: `Safe` exactly where that record is safe, and else the first bad place, and there
/// `Malformed` or the lowest rule that is broken.
///
/// # Errors
///
/// `Memory` where there is none left for what the judge keeps, or a place has no number of 64 bits.
pub fn judge_each<'a, I: Iterator<Item = &'a Fact>>(alloc: Global, facts: I) -> Result<Verdict, Memory> {
    let mut judge = Judge::new(alloc);
    for fact in facts {
        judge.add(fact)?;
    }
    Ok(judge.verdict())
}

/// The verdict on a record: `Safe` exactly where it is safe, as that of each run is (`run`), and else the first bad place, and
/// there `Malformed` or the lowest rule that is broken.
///
/// # Errors
///
/// `Memory` where there is none left for what the judge keeps.
pub fn judge(alloc: Global, facts: &[Fact]) -> Result<Verdict, Memory> {
    judge_each(alloc, facts.iter())
}
