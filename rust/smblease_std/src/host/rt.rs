//! What a program's functions ask of the process, one trait for each.
use super::io::{Stdin, Stream, Write};
use crate::alloc::Global;
use crate::test::HostRuntime;
use core::fmt;

/// Has an allocator.
pub trait AllocGlobal {
    /// The allocator.
    fn alloc(&self) -> Global;
}

/// Has words of a command line.
pub trait Env {}

/// Has files.
pub trait Files {}

/// Has a standard input.
pub trait Input {
    /// Standard input.
    fn reader(&self) -> Stdin;
}

/// Has a standard output.
pub trait Print {
    /// Prints on standard output.
    fn print(&self, told: fmt::Arguments<'_>) -> super::io::Result<()> {
        Stream::output().write_fmt(told)
    }

    /// Prints a line on standard output.
    fn println(&self, told: fmt::Arguments<'_>) -> super::io::Result<()> {
        Stream::output().write_fmt(format_args!("{told}\n"))
    }
}

/// Has a standard error.
pub trait Eprint {
    /// Standard error.
    fn stderr(&self) -> Stream {
        Stream::error()
    }
}

impl AllocGlobal for HostRuntime {
    fn alloc(&self) -> Global {
        Global
    }
}

impl Env for HostRuntime {}

impl Files for HostRuntime {}

impl Input for HostRuntime {
    fn reader(&self) -> Stdin {
        Stdin
    }
}

impl Print for HostRuntime {}

impl Eprint for HostRuntime {}

impl HostRuntime {
    /// Standard error.
    pub fn stderr(&self) -> Stream {
        Stream::error()
    }
}

impl<P: Print> Print for &P {}
