// Made by tools/plain_rust from crates/machines_c/src/handles.rt. Changes belong there.

//! What handles are made of: a box as its pointer, the outcomes of calls, what numbers from C stand for, and
//! what is written into a caller's room.

pub mod codes;
pub mod loose;
pub mod outcome;
pub mod room;
pub mod rules;

pub use codes::{access_of, extent_of, share_of, status_of};
pub use loose::Loose;
pub use outcome::Outcome;
pub use room::{copied, fill, write_id};
pub use rules::rules_of;
