//! Reading and writing.
use crate::alloc::{AllocError, Global};
use crate::vec::Vec;
use core::fmt;
use core::mem::ManuallyDrop;

// How many bytes are asked for at a time.
const PART: usize = 65_536;
// The room of a reader's buffer.
const BUFFER: usize = 8192;

/// What kind of error it is. Not all of Rust's own are stable.
#[derive(Clone, Copy, Debug, PartialEq, Eq)]
pub enum ErrorKind {
    /// There is no such file.
    NotFound,
    /// It isn't allowed.
    PermissionDenied,
    /// A file was wanted.
    IsADirectory,
    /// A directory was wanted.
    NotADirectory,
    /// No file can have the name.
    InvalidFilename,
    /// Links lead round.
    FilesystemLoop,
    /// A signal came; one may try again.
    Interrupted,
    /// There is no memory.
    OutOfMemory,
    /// It is no text.
    InvalidData,
    /// Any other.
    Other,
}

/// An error of reading or writing.
#[derive(Clone, Copy, Debug, PartialEq, Eq)]
pub struct Error(ErrorKind);

/// What reading or writing gives.
pub type Result<T> = core::result::Result<T, Error>;

impl Error {
    /// Its kind.
    pub fn kind(&self) -> ErrorKind {
        self.0
    }
}

impl fmt::Display for Error {
    fn fmt(&self, f: &mut fmt::Formatter<'_>) -> fmt::Result {
        fmt::Debug::fmt(&self.0, f)
    }
}

impl core::error::Error for Error {}

impl From<ErrorKind> for Error {
    fn from(kind: ErrorKind) -> Error {
        Error(kind)
    }
}

impl From<AllocError> for Error {
    fn from(_error: AllocError) -> Error {
        Error(ErrorKind::OutOfMemory)
    }
}

impl From<rust_std::io::Error> for Error {
    fn from(error: rust_std::io::Error) -> Error {
        use rust_std::io::ErrorKind as Rusts;
        if is_loop(&error) {
            return Error(ErrorKind::FilesystemLoop);
        }
        Error(match error.kind() {
            Rusts::NotFound => ErrorKind::NotFound,
            Rusts::PermissionDenied => ErrorKind::PermissionDenied,
            Rusts::IsADirectory => ErrorKind::IsADirectory,
            Rusts::NotADirectory => ErrorKind::NotADirectory,
            Rusts::InvalidFilename => ErrorKind::InvalidFilename,
            Rusts::Interrupted => ErrorKind::Interrupted,
            Rusts::OutOfMemory => ErrorKind::OutOfMemory,
            Rusts::InvalidData => ErrorKind::InvalidData,
            _ => ErrorKind::Other,
        })
    }
}

// Rust's own kind of it isn't stable.
fn is_loop(error: &rust_std::io::Error) -> bool {
    const ELOOP: i32 = 40;
    cfg!(target_os = "linux") && error.raw_os_error() == Some(ELOOP)
}

/// What takes bytes.
pub trait Write {
    /// Takes some of these bytes, and says how many.
    fn write(&mut self, bytes: &[u8]) -> Result<usize>;

    /// Sees to it that what was taken goes where it should.
    fn flush(&mut self) -> Result<()>;

    /// Takes all of these bytes.
    fn write_all(&mut self, bytes: &[u8]) -> Result<()> {
        let mut rest = bytes;
        while !rest.is_empty() {
            match self.write(rest) {
                Ok(0) => return Err(Error(ErrorKind::Other)),
                Ok(count) => rest = &rest[count..],
                Err(Error(ErrorKind::Interrupted)) => (),
                Err(error) => return Err(error),
            }
        }
        Ok(())
    }

    /// What `write!` calls.
    fn write_fmt(&mut self, told: fmt::Arguments<'_>) -> Result<()> {
        let mut to = Formatted { to: self, came: Ok(()) };
        let _ = fmt::Write::write_fmt(&mut to, told);
        to.came
    }
}

// What a format is written to, and the error that its last part met.
struct Formatted<'a, W: ?Sized> {
    to: &'a mut W,
    came: Result<()>,
}

impl<W: Write + ?Sized> fmt::Write for Formatted<'_, W> {
    fn write_str(&mut self, text: &str) -> fmt::Result {
        self.came = self.to.write_all(text.as_bytes());
        self.came.map_err(|_| fmt::Error)
    }
}

impl Write for Vec<u8> {
    fn write(&mut self, bytes: &[u8]) -> Result<usize> {
        self.extend_from_slice(bytes)?;
        Ok(bytes.len())
    }

    fn flush(&mut self) -> Result<()> {
        Ok(())
    }
}

/// What gives bytes.
pub trait Read {
    /// Puts bytes to the front of the room, and says how many; none at the end.
    fn read(&mut self, room: &mut [u8]) -> Result<usize>;

    /// Adds all bytes up to the end, and says how many.
    fn read_to_end(&mut self, bytes: &mut Vec<u8>) -> Result<usize> {
        let before = bytes.len();
        let mut end = before;
        let came = loop {
            if end == bytes.len() {
                bytes.resize(end + PART, 0)?;
            }
            match self.read(&mut bytes[end..]) {
                Ok(0) => break Ok(end - before),
                Ok(count) => end += count,
                Err(Error(ErrorKind::Interrupted)) => (),
                Err(error) => break Err(error),
            }
        };
        bytes.truncate(end);
        came
    }
}

impl Read for &[u8] {
    fn read(&mut self, room: &mut [u8]) -> Result<usize> {
        let (front, rest) = self.split_at(self.len().min(room.len()));
        room[..front.len()].copy_from_slice(front);
        *self = rest;
        Ok(front.len())
    }
}

impl Read for rust_std::fs::File {
    fn read(&mut self, room: &mut [u8]) -> Result<usize> {
        Ok(rust_std::io::Read::read(self, room)?)
    }
}

/// Standard input.
#[derive(Clone, Copy, Debug)]
pub struct Stdin;

impl Read for Stdin {
    #[cfg(unix)]
    fn read(&mut self, room: &mut [u8]) -> Result<usize> {
        // Rust's own takes one that is closed as empty.
        descriptor(0).read(room)
    }

    #[cfg(not(unix))]
    fn read(&mut self, room: &mut [u8]) -> Result<usize> {
        Ok(rust_std::io::Read::read(&mut rust_std::io::stdin().lock(), room)?)
    }
}

// One of the standard streams, which is never closed here.
#[cfg(unix)]
fn descriptor(number: i32) -> ManuallyDrop<rust_std::fs::File> {
    use rust_std::os::fd::FromRawFd;
    // SAFETY: 0 to 2 are the process's own, and no value closes them.
    ManuallyDrop::new(unsafe { rust_std::fs::File::from_raw_fd(number) })
}

/// What gives bytes up to a byte.
pub trait BufRead: Read {
    /// Adds all bytes up to the next one of this value and it, or up to the end, and says how many.
    fn read_until(&mut self, end: u8, bytes: &mut Vec<u8>) -> Result<usize>;
}

/// A reader with a buffer.
#[derive(Debug)]
pub struct BufReader<R> {
    inner: R,
    buffer: Vec<u8>,
    // Where what wasn't given yet begins in the buffer, and where it ends.
    next: usize,
    end: usize,
}

impl<R: Read> BufReader<R> {
    /// A reader of what this one gives.
    pub fn new(alloc: Global, inner: R) -> Result<BufReader<R>> {
        let buffer = Vec::from_elem(alloc, 0, BUFFER)?;
        Ok(BufReader { inner, buffer, next: 0, end: 0 })
    }

    fn filled(&mut self) -> Result<&[u8]> {
        if self.next == self.end {
            (self.next, self.end) = (0, 0);
            self.end = self.inner.read(&mut self.buffer)?;
        }
        Ok(&self.buffer[self.next..self.end])
    }
}

impl<R: Read> Read for BufReader<R> {
    fn read(&mut self, room: &mut [u8]) -> Result<usize> {
        let mut held = self.filled()?;
        let count = held.read(room)?;
        self.next += count;
        Ok(count)
    }
}

impl<R: Read> BufRead for BufReader<R> {
    fn read_until(&mut self, end: u8, bytes: &mut Vec<u8>) -> Result<usize> {
        let before = bytes.len();
        loop {
            let held = match self.filled() {
                Err(Error(ErrorKind::Interrupted)) => continue,
                held => held?,
            };
            let found = held.iter().position(|byte| *byte == end);
            let count = found.map_or(held.len(), |place| place + 1);
            bytes.extend_from_slice(&held[..count])?;
            self.next += count;
            if found.is_some() || count == 0 {
                return Ok(bytes.len() - before);
            }
        }
    }
}

/// Standard output or standard error, without a buffer.
#[derive(Clone, Copy, Debug)]
pub struct Stream {
    is_error: bool,
}

impl Stream {
    /// Standard output.
    pub(crate) fn output() -> Stream {
        Stream { is_error: false }
    }

    /// Standard error.
    pub(crate) fn error() -> Stream {
        Stream { is_error: true }
    }
}

impl Write for Stream {
    #[cfg(unix)]
    fn write(&mut self, bytes: &[u8]) -> Result<usize> {
        let mut stream = descriptor(if self.is_error { 2 } else { 1 });
        Ok(rust_std::io::Write::write(&mut *stream, bytes)?)
    }

    #[cfg(not(unix))]
    fn write(&mut self, bytes: &[u8]) -> Result<usize> {
        use rust_std::io::{Write, stderr, stdout};
        Ok(if self.is_error { stderr().write(bytes) } else { stdout().write(bytes) }?)
    }

    #[cfg(unix)]
    fn flush(&mut self) -> Result<()> {
        Ok(())
    }

    #[cfg(not(unix))]
    fn flush(&mut self) -> Result<()> {
        use rust_std::io::{Write, stderr, stdout};
        Ok(if self.is_error { stderr().flush() } else { stdout().flush() }?)
    }
}

/// The runtime's standard output.
pub fn writer<R>(_rt: &R) -> Stream {
    Stream::output()
}
