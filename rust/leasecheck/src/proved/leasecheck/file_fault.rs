// Made by tools/plain_rust from crates/leasecheck/src/file_fault.rt. Changes belong there.

use std::io::ErrorKind;

/// Why a file can't be opened or read.
#[derive(Clone, Copy, Debug, PartialEq, Eq)]
pub enum FileFault {
    /// There is none of its name.
    Missing,
    /// Nobody gave the right to read it.
    Forbidden,
    /// It is a folder.
    Folder,
    /// What its path leads through is no folder.
    NoFolder,
    /// Its name, or its path, is too long.
    LongName,
    /// Its path leads through too many symbolic links.
    ManyLinks,
    /// Another error.
    Unreadable,
}

impl FileFault {
    /// Why an error of this kind came; `None` where it was for want of memory.
    pub fn of(kind: ErrorKind) -> Option<FileFault> {
        match kind {
            ErrorKind::OutOfMemory => None,
            ErrorKind::NotFound => Some(FileFault::Missing),
            ErrorKind::PermissionDenied => Some(FileFault::Forbidden),
            ErrorKind::IsADirectory => Some(FileFault::Folder),
            ErrorKind::NotADirectory => Some(FileFault::NoFolder),
            ErrorKind::InvalidFilename => Some(FileFault::LongName),
            ErrorKind::FilesystemLoop => Some(FileFault::ManyLinks),
            _ => Some(FileFault::Unreadable),
        }
    }

    /// What is said of it.
    pub fn words(self) -> &'static str {
        match self {
            FileFault::Missing => "there is no such file",
            FileFault::Forbidden => "there is no right to read it",
            FileFault::Folder => "it is a folder",
            FileFault::NoFolder => "its path leads through something that is no folder",
            FileFault::LongName => "its name is too long",
            FileFault::ManyLinks => "its path leads through too many symbolic links",
            FileFault::Unreadable => "it can't be read",
        }
    }
}
