// Made by tools/plain_rust from crates/lease_world/src/lib.rt. Changes belong there.

//! A world of clients of SMB 2.1 leases round one server, the record of what happens in it, and the
//! judge of such records. [`run`] gives the record of a run; a [`Judge`] takes a record fact after
//! fact, whoever wrote it, and gives its verdict at any time.
//!
//! ```text
//! let judge = Judge::new(alloc).take(&Fact::Joined(ClientNo(1)))?;
//! assert!(judge.verdict() == Verdict::Safe);
//!
//! // Nothing was sent to it that it could take.
//! let judge = judge.take(&Fact::Took(ClientNo(1)))?;
//! assert!(judge.verdict() == Verdict::Malformed { place: 2 });
//! ```
//!
//! Contracts speak of records, runs and verdicts of the rules in `lease_model`. The clause `safe`
//! of [`run`] is that the record of every run is safe.
mod copies;
mod judging;
mod obstacle;
mod running;
mod setup;
mod whole;
mod world;

pub use crate::proved::lease_facts::{Event, Fact, Passage, Rule, Setup, Verdict};
pub use judging::Judge;
pub use obstacle::{Idle, Obstacle};
pub use running::{Kept, Told, run, run_under};
pub use setup::RunFault;
pub use whole::{judge, judge_each};
