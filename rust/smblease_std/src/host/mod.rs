//! What a process has: files, the words of the command line, the standard streams.
pub mod env;
pub mod fs;
pub mod io;
pub mod process;
pub mod rt;
