// Made by tools/plain_rust from crates/capture_judge/src/lib.rt. Changes belong there.

//! Whether what a capture shows of one file can have happened without a clash: bounds of the positions at which clients changed
//! what they cache go in, and a verdict comes out. Two clients clash where one caches writes and the other anything.
//!
//! ```text
//! let certain = |level, first, last| Change { level, first, last: Some(last) };
//! let writer = [certain(Level::Writes, 1, 3), certain(Level::Writes, 1, 1)];
//! let reader = [certain(Level::Something, 1, 1), certain(Level::Nothing, 3, 3)];
//! let writer = Chain { client: 1, changes: Vec::from_slice(alloc, &writer)? };
//! let reader = Chain { client: 2, changes: Vec::from_slice(alloc, &reader)? };
//! assert!(matches!(judge_placing(alloc, &[writer, reader])?, Placing::Unsafe(Charge { position: 1, .. })));
//! ```
//!
//! Each verdict is exact, by its contract. A charge, `Placing::Unsafe`, is said only where every placement of the changes within
//! their bounds has a clash. What isn't decided for want of room is said to be too many, and never clean.
mod bounds;
mod charging;
mod judging;
mod levels;
mod values;
mod ways;

pub use judging::judge_placing;
pub use levels::levels_after;
pub use values::{Chain, Change, Charge, Level, Placing, Step};
pub use ways::WAY_LIMIT;
