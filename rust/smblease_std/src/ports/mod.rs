//! Crates whose calls the proved code makes in another form than Cargo's crates of these names have: they are passed an allocator,
//! or say so where memory runs out.
pub mod bitflags;
pub mod bytes;
pub mod hex;
pub mod json;
pub mod uuid;
