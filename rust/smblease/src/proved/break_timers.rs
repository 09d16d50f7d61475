// Made by tools/plain_rust from crates/break_timers/src/lib.rt. Changes belong there.

//! The timers of lease breaks, by number (MS-SMB2 3.3.2.5), for a host of a manager of leases: the timer of a break that has
//! ended doesn't end a later break of the same lease.
//!
//! A host lets [`BreakTimers`] note each decision of the manager, in order. Where that gives a number, the host starts a timer,
//! which keeps the number and nothing else, and need never be stopped. When it runs out, `run_out` says whose break it was, if
//! this is still the last break of its lease and wasn't acknowledged:
//!
//! ```text
//! let mut timers = BreakTimers::new(alloc);
//! for decision in decisions.iter() {
//!     if let Some(number) = timers.note(decision)? {
//!         host.start_timer(number);
//!     }
//!     host.carry_out(decision)?;
//! }
//! // Later, for each timer that has run out:
//! if let Some(key) = timers.run_out(number) {
//!     manager.expire(key.client, key.bytes, &mut decisions)?;
//! }
//! ```
mod timers;

pub use timers::{BreakNo, BreakTimers};
