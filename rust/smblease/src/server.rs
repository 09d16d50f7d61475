//! A server that keeps its files too, in memory: for tests of clients, and to see what the rules say.

use crate::OutOfMemory;
use crate::proved::lease_state::{Content, FileId, LeaseKey, LeaseState, Memory, Request, Rules};
use crate::proved::share_server as proved;
use alloc::vec::Vec;
use std::alloc::Global;
use std::prelude::Vec as Fallible;

pub use crate::client::{ClientNo, FileNo};
pub use crate::proved::share_server::Out;

/// A file server of leases and durable opens: the files with their bytes, the opens, the leases and the requests that wait.
///
/// Where a call gives [`OutOfMemory`] the server is gone: each later call gives that too.
#[derive(Debug)]
pub struct Server {
    inner: Option<proved::Server>,
}

impl Server {
    /// A server of these rules with these files, numbered from 1 in their order, that no client has joined. Files past the 255th
    /// have no number and are dropped.
    ///
    /// # Errors
    ///
    /// Where there is no memory.
    pub fn new(rules: Rules, files: Vec<Content>) -> Result<Server, OutOfMemory> {
        Ok(Server { inner: Some(proved::Server::with_rules(Global, rules, Fallible::from(files))?) })
    }

    fn after(
        &mut self,
        call: impl FnOnce(proved::Server) -> Result<(proved::Server, Fallible<Out>), OutOfMemory>,
    ) -> Result<Vec<Out>, OutOfMemory> {
        let (server, outs) = call(self.inner.take().ok_or(Memory)?)?;
        self.inner = Some(server);
        Ok(outs.into_inner())
    }

    /// A client connects (MS-SMB2 3.3.5.1). Gives what is to be sent and what happened, in order, as each call here does.
    ///
    /// # Errors
    ///
    /// Where there is no memory.
    pub fn join(&mut self, client: ClientNo) -> Result<Vec<Out>, OutOfMemory> {
        self.after(|server| server.join(client))
    }

    /// A request of a client comes (MS-SMB2 3.3.5).
    ///
    /// # Errors
    ///
    /// Where there is no memory.
    pub fn receive(&mut self, client: ClientNo, request: Request) -> Result<Vec<Out>, OutOfMemory> {
        self.after(|server| server.receive(client, request))
    }

    /// A client's connection is lost (MS-SMB2 3.3.7.1).
    ///
    /// # Errors
    ///
    /// Where there is no memory.
    pub fn cut(&mut self, client: ClientNo) -> Result<Vec<Out>, OutOfMemory> {
        self.after(|server| server.cut(client))
    }

    /// The timer of a lease break runs out (MS-SMB2 3.3.6.5).
    ///
    /// # Errors
    ///
    /// Where there is no memory.
    pub fn expire(&mut self, client: ClientNo, key: LeaseKey) -> Result<Vec<Out>, OutOfMemory> {
        self.after(|server| server.expire(client, key))
    }

    /// The timer of a durable open that waits for its client runs out (MS-SMB2 3.3.6.2).
    ///
    /// # Errors
    ///
    /// Where there is no memory.
    pub fn scavenge(&mut self, file_id: FileId) -> Result<Vec<Out>, OutOfMemory> {
        self.after(|server| server.scavenge(file_id))
    }

    /// The bytes of a file; nothing where there is no file of this number.
    pub fn content(&self, file: FileNo) -> Option<&[u8]> {
        self.inner.as_ref()?.content(file)
    }

    /// Whether the client is connected.
    pub fn is_connected(&self, client: ClientNo) -> bool {
        self.inner.as_ref().is_some_and(|server| server.is_connected(client))
    }

    /// Whether a break of the client's lease of this key waits for its acknowledgment.
    pub fn is_breaking(&self, client: ClientNo, key: LeaseKey) -> bool {
        self.inner.as_ref().is_some_and(|server| server.breaking(client, key))
    }

    /// Whether an open of this FileId waits for its client to connect again.
    pub fn has_left_behind(&self, file_id: FileId) -> bool {
        self.inner.as_ref().is_some_and(|server| server.has_left_behind(file_id))
    }

    /// The FileId of the client's oldest durable open on the file that waits to be connected again.
    pub fn kept(&self, client: ClientNo, file: FileNo) -> Option<FileId> {
        self.inner.as_ref()?.kept(client, file)
    }

    /// What may be granted of a wanted state; nothing by a server that is gone.
    pub fn allowed(&self, client: ClientNo, key: Option<LeaseKey>, file: FileNo, wanted: LeaseState) -> LeaseState {
        self.inner.as_ref().map_or(LeaseState::NONE, |server| server.allowed(client, key, file, wanted))
    }
}
