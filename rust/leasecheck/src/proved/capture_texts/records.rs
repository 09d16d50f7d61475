// Made by tools/plain_rust from crates/capture_texts/src/records.rt. Changes belong there.

//! The record of what is found in a capture: what its clients cache, file by file, as facts that `judge` reads, with remarks
//! that lead back to the packets. It is of the files that are unsafe or, where none is, of those that are safe, up to what a
//! record can name.

mod cast;
mod change;
mod notes;
mod record;

pub use notes::notes_of;
pub use record::{RecordLine, record_of};
