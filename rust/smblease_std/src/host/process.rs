//! How a process ends.

/// The status of a process.
#[derive(Clone, Copy, Debug, PartialEq, Eq)]
pub struct ExitCode(u8);

impl ExitCode {
    /// All went well.
    pub const SUCCESS: ExitCode = ExitCode(0);
    /// It didn't.
    pub const FAILURE: ExitCode = ExitCode(1);

    /// The number for the caller of the process.
    pub fn status(self) -> i32 {
        i32::from(self.0)
    }
}

impl From<u8> for ExitCode {
    fn from(status: u8) -> ExitCode {
        ExitCode(status)
    }
}

/// Lets a write into a pipe that nobody reads give an error, and end no process.
#[cfg(unix)]
pub fn ignore_broken_pipes() {
    const SIGPIPE: i32 = 13;
    const IGNORED: usize = 1;
    unsafe extern "C" {
        fn signal(number: i32, handler: usize) -> usize;
    }
    // SAFETY: these are the numbers on each Unix of Rust's; no function of this process is called by it.
    unsafe { signal(SIGPIPE, IGNORED) };
}
