//! Crates whose calls the program makes in another form than Cargo's crates of these names have.
pub mod clap;
