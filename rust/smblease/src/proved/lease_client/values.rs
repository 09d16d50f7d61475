// Made by tools/plain_rust from crates/lease_client/src/values.rt. Changes belong there.

//! What a client is asked, and what it answers and notes.

pub mod command;
pub mod key;
pub mod note;
pub mod shared_bytes;
pub mod state;
pub mod step;
