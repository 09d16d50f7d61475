//! A client's cache: what it answers an application, what it sends, and what it takes from a server.

use crate::OutOfMemory;
use crate::proved::lease_client as proved;
use crate::proved::lease_state::{LeaseState, Reply, Request};
use alloc::vec::Vec;
use std::alloc::Global;

pub use crate::proved::lease_client::{Answer, Command, Note, Refusal, Settlement, SharedBytes, lease_key};
pub use crate::proved::lease_state::{ClientNo, FileNo};

/// A client with the files that it has open and what it keeps of them.
///
/// Where a call gives [`OutOfMemory`] the client has forgotten all but its ClientGuid, as a new one without files.
#[derive(Debug)]
pub struct Client {
    inner: proved::Client,
}

/// What a call of a client gives.
#[derive(Debug, PartialEq, Eq)]
pub struct Turn {
    /// What the application is answered.
    pub answer: Answer,
    /// What is to be sent to the server, in order.
    pub requests: Vec<Request>,
    /// What became of writes, beliefs and cached reads, in order.
    pub notes: Vec<Note>,
}

impl From<proved::Given> for Turn {
    fn from(given: proved::Given) -> Turn {
        Turn { answer: given.answer, requests: given.requests.into_inner(), notes: given.notes.into_inner() }
    }
}

impl Client {
    /// A client of this ClientGuid that isn't connected, with so many files that it may open, numbered from 1.
    ///
    /// # Errors
    ///
    /// Where there is no memory.
    pub fn new(guid: [u8; 16], files: u8) -> Result<Client, OutOfMemory> {
        Ok(Client { inner: proved::Client::new(Global, guid, files)? })
    }

    /// What the client believes of the lease of a file.
    pub fn belief(&self, file: FileNo) -> LeaseState {
        self.inner.belief(file)
    }

    /// A command comes from the application.
    ///
    /// # Errors
    ///
    /// Where there is no memory, and never where the command is refused.
    pub fn command(&mut self, command: Command) -> Result<Turn, OutOfMemory> {
        let mut given = proved::Given::new(Global);
        self.inner.app_in_place(command, &mut given)?;
        Ok(Turn::from(given))
    }

    /// A message comes from the server (MS-SMB2 3.2.5).
    ///
    /// # Errors
    ///
    /// Where there is no memory, and never where a Close or an acknowledgment is answered.
    pub fn take(&mut self, reply: Reply) -> Result<Turn, OutOfMemory> {
        let mut given = proved::Given::new(Global);
        self.inner.take_in_place(reply, &mut given)?;
        Ok(Turn::from(given))
    }

    /// The client notices that its connection is lost (MS-SMB2 3.2.7.1).
    ///
    /// # Errors
    ///
    /// Where there is no memory.
    pub fn notice(&mut self) -> Result<Turn, OutOfMemory> {
        let mut given = proved::Given::new(Global);
        self.inner.notice_in_place(&mut given)?;
        Ok(Turn::from(given))
    }

    /// The client connects (MS-SMB2 3.2.4.4): a create is sent for each open that waits for it.
    ///
    /// # Errors
    ///
    /// Where there is no memory.
    pub fn connect(&mut self) -> Result<Turn, OutOfMemory> {
        let mut given = proved::Given::new(Global);
        self.inner.connect_in_place(&mut given)?;
        Ok(Turn::from(given))
    }
}
