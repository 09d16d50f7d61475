// Made by tools/plain_rust from crates/kept_opens/src/lib.rt. Changes belong there.

//! The bytes in which a file server keeps its durable opens over a restart of its own, read and written exactly. The format is
//! own, and no message of SMB has it. Numbers have their low byte first.
//!
//! A text is `SMBKEPT1`, the FileId that was given last in 8 bytes, how many opens there are in 8, the opens, and the SHA-256 of
//! all that, after which nothing comes. An open has 48 bytes: its FileId, its client and its file in 8 each, its lease key, and
//! in a byte each its access (1 to read, 2 to write, 3 for both), its share (the same, and 0 for nothing) and its lease's state
//! (1 for reads, 2 for handles, 4 for writes, added up); then five bytes of 0.
//!
//! Each list of opens has one text. One that was cut off, or whose digest is not that of its other bytes, is refused.
//!
//! ```text
//! let kept = [KeptOpen { file_id: FileId(7), client, file, key, access, share, state }];
//! let bytes = write(alloc, FileId(9), &kept)?;
//! let back = read(alloc, bytes.as_slice())?;
//! assert_eq!(back.last, FileId(9));
//! assert_eq!(back.opens.as_slice(), kept);
//! ```
mod entry;
mod fault;
mod managers;
mod reading;
#[cfg(test)]
mod tests;
mod writing;

pub use fault::{ImportError, ReadError};
pub use managers::{export, import};
pub use reading::{Kept, read};
pub use writing::write;
