// Made by tools/plain_rust from crates/machines_c/src/client/commands.rt. Changes belong there.

use crate::proved::machines_c::client::handle::ClientHandle;
use crate::proved::machines_c::handles::{Outcome, access_of, copied, share_of};
use smblease::proved::lease_client::Command;
use smblease::proved::lease_state::{FileNo, LeaseState, Patch};
use std::alloc::Global;

/// How an application opens a file: `struct smblease_open_terms`.
#[repr(C)]
#[derive(Clone, Copy, Debug, PartialEq, Eq)]
pub struct ClientOpen {
    /// The lease's state that is wanted: the bits of LeaseState.
    pub want: u32,
    /// The number of the file.
    pub file: u8,
    /// 1 for reading, plus 2 for writing.
    pub access: u8,
    /// What other opens may do: 1 for reading, plus 2 for writing.
    pub share: u8,
    /// The open is to outlive its connection.
    pub durable: u8,
    /// Room for later versions, which is not looked at.
    pub reserved: [u8; 24],
}

impl ClientOpen {
    // The command, where the numbers of the access and the share stand for something.
    fn command(&self) -> Option<Command> {
        match (access_of(self.access), share_of(self.share)) {
            (Some(access), Some(share)) => Some(Command::Open {
                file: FileNo(self.file),
                access,
                share,
                want: LeaseState::from_wire(self.want),
                durable: self.durable != 0,
            }),
            _ => None,
        }
    }
}

/// The application opens a file: one more handle on it.
///
/// Returns 0, and the answer of the client is to be read; 4 where the number of the access or of
/// the share stands for nothing, and nothing changed; 2 where memory ran out, and the machine is
/// lost, which is never where the command is refused; 3 where there is none.
pub fn smblease_client_open(alloc: Global, client: &mut ClientHandle, terms: &ClientOpen) -> u32 {
    match terms.command() {
        Some(command) => client.app(alloc, command).code(),
        None => Outcome::NoSuch.code(),
    }
}

/// The application closes a file: one handle on it less.
///
/// Returns 0; 2 where memory ran out, and the machine is lost, which is never where the command is
/// refused; 3 where there is none.
pub fn smblease_client_close(alloc: Global, client: &mut ClientHandle, file: u8) -> u32 {
    let file = FileNo(file);
    client.app(alloc, Command::Close { file }).code()
}

/// The application reads a whole file. The outcomes are those of `smblease_client_close`.
pub fn smblease_client_read(alloc: Global, client: &mut ClientHandle, file: u8) -> u32 {
    let file = FileNo(file);
    client.app(alloc, Command::Read { file }).code()
}

/// The application has the buffered writes of a file sent. The outcomes are those of
/// `smblease_client_close`.
pub fn smblease_client_flush(alloc: Global, client: &mut ClientHandle, file: u8) -> u32 {
    let file = FileNo(file);
    client.app(alloc, Command::Flush { file }).code()
}

/// The application writes bytes to a file from an offset on. They are copied.
///
/// Returns 0; 1 where there is no memory for the copy, and nothing changed; 2 where memory ran out
/// later, and the machine is lost, which is never where the command is refused; 3 where there is
/// none.
pub fn smblease_client_write(alloc: Global, client: &mut ClientHandle, file: u8, offset: u32, bytes: &[u8]) -> u32 {
    match copied(alloc, bytes) {
        Ok(bytes) => {
            let (file, patch) = (FileNo(file), Patch { offset, bytes });
            client.app(alloc, Command::Write { file, patch }).code()
        }
        Err(_) => Outcome::NoMemory.code(),
    }
}

/// The functions of this module for C.
pub mod exported {
    use super::{ClientHandle, ClientOpen};

    /// [`super::smblease_client_open`] for C.
    #[unsafe(no_mangle)]
    pub extern "C" fn smblease_client_open(client: &mut ClientHandle, terms: &ClientOpen) -> u32 {
        super::smblease_client_open(std::alloc::Global, client, terms)
    }

    /// [`super::smblease_client_close`] for C.
    #[unsafe(no_mangle)]
    pub extern "C" fn smblease_client_close(client: &mut ClientHandle, file: u8) -> u32 {
        super::smblease_client_close(std::alloc::Global, client, file)
    }

    /// [`super::smblease_client_read`] for C.
    #[unsafe(no_mangle)]
    pub extern "C" fn smblease_client_read(client: &mut ClientHandle, file: u8) -> u32 {
        super::smblease_client_read(std::alloc::Global, client, file)
    }

    /// [`super::smblease_client_flush`] for C.
    #[unsafe(no_mangle)]
    pub extern "C" fn smblease_client_flush(client: &mut ClientHandle, file: u8) -> u32 {
        super::smblease_client_flush(std::alloc::Global, client, file)
    }

    /// [`super::smblease_client_write`] for C.
    ///
    /// # Safety
    ///
    /// There are as many items at each pointer as the length after it says; nobody writes them meanwhile, nor reads them where
    /// they are written. A pointer is null only where the length is 0.
    #[unsafe(no_mangle)]
    pub unsafe extern "C" fn smblease_client_write(
        client: &mut ClientHandle,
        file: u8,
        offset: u32,
        bytes: *const u8,
        bytes_length: usize,
    ) -> u32 {
        // SAFETY: the caller's word.
        super::smblease_client_write(std::alloc::Global, client, file, offset, unsafe { std::c::slice(bytes, bytes_length) })
    }
}
