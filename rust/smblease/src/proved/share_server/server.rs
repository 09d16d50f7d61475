// Made by tools/plain_rust from crates/share_server/src/server.rt. Changes belong there.

use std::prelude::{Box, Vec};

use crate::proved::lease_manager::{Decision, Manager};
use crate::proved::lease_state::{ClientNo, Content, FileId, FileNo, LeaseKey, LeaseState, Memory, Request, Rules};
use crate::proved::share_server::calls;
use crate::proved::share_server::host::Host;
use crate::proved::share_server::outs::Outs;
use crate::proved::share_server::values::coming::Coming;
use crate::proved::share_server::values::number::{client_no, file_no};
use crate::proved::share_server::values::out::Out;
use std::alloc::Global;

/// A file server of leases and durable opens: the files with their bytes, the opens, the leases and
/// the requests that wait for a break. Every server keeps the laws of leases and of opens.
#[derive(Debug)]
pub struct Server {
    // docs/DECISIONS.md: "A server is moved".
    parts: Box<Parts>,
}

#[derive(Debug)]
struct Parts {
    manager: Manager,
    host: Host,
    // The memory of a list of decisions.
    told: Vec<Decision>,
}

impl Server {
    /// A server with these files, numbered from 1 in their order, that no client has joined. Files
    /// past the 255th have no number and are dropped (profile).
    ///
    /// # Errors
    ///
    /// `Memory` where there is none left for the server.
    pub fn new(alloc: Global, files: Vec<Content>) -> Result<Server, Memory> {
        Server::with_rules(alloc, Rules::profile(), files)
    }

    /// A server of these rules with these files, as by `new`, which has the profile's.
    ///
    /// # Errors
    ///
    /// `Memory` where there is none left for the server.
    pub fn with_rules(alloc: Global, rules: Rules, files: Vec<Content>) -> Result<Server, Memory> {
        let host = Host::new(alloc, files);
        let parts = Parts { manager: manager_of(alloc, rules, &host), host, told: Vec::new(alloc) };
        Ok(Server { parts: Box::new(alloc, parts)? })
    }

    /// The rules that the server was given.
    pub fn rules(&self) -> Rules {
        self.parts.manager.rules()
    }

    // Something comes: the server after it, and what it gave out.
    fn call(self, coming: Coming) -> Result<(Server, Vec<Out>), Memory> {
        let Server { mut parts } = self;
        let inside = &mut *parts;
        let mut outs = Outs::new(*inside.told.allocator());
        calls::handle(&mut inside.manager, &mut inside.host, &mut inside.told, &mut outs, coming)?;
        Ok((Server { parts }, outs.into_vec()))
    }

    /// A client connects (MS-SMB2 3.3.5.1). The keys of its leases whose timer ran out may be
    /// granted states again (profile). Where the client is connected nothing changes, and nothing
    /// is given out.
    ///
    /// # Errors
    ///
    /// `Memory` where there is none left, and never where the client is connected.
    pub fn join(self, client: ClientNo) -> Result<(Server, Vec<Out>), Memory> {
        self.call(Coming::Joins(client))
    }

    /// A request of a client comes (MS-SMB2 3.3.5). It is refused at once where its create contexts
    /// have a fault, or where it names no file or no open of the client's; it waits after an
    /// earlier request of the client that waits on its file (profile); and else it is tried: what
    /// it needs of the leases of other keys on its file is broken, and it is answered or refused,
    /// or waits for acknowledgments. After an acknowledgment or a close requests that wait are
    /// tried again (profile). Where the client isn't connected nothing changes, and nothing is
    /// given out.
    ///
    /// # Errors
    ///
    /// `Memory` where there is none left, and never where the client isn't connected.
    pub fn receive(self, client: ClientNo, request: Request) -> Result<(Server, Vec<Out>), Memory> {
        self.call(Coming::Asks(client, request))
    }

    /// A client's connection is lost (MS-SMB2 3.3.7.1). Its opens that are durable, and whose lease
    /// holds `HANDLE_CACHING` and isn't breaking, stay, and wait for it; its others are closed, and
    /// its requests that wait are forgotten (profile). Then requests that wait are tried again.
    /// Where the client isn't connected nothing changes, and nothing is given out.
    ///
    /// # Errors
    ///
    /// `Memory` where there is none left, and never where the client isn't connected.
    pub fn cut(self, client: ClientNo) -> Result<(Server, Vec<Out>), Memory> {
        self.call(Coming::IsCut(client))
    }

    /// The timer of a lease break runs out (MS-SMB2 3.3.6.5): the opens of the client's lease of
    /// this key are closed, and the key is granted nothing until its client joins again (profile).
    /// Then requests that wait are tried again. Where no break of the lease waits for its
    /// acknowledgment nothing changes, and nothing is given out.
    ///
    /// # Errors
    ///
    /// `Memory` where there is none left, and never where the lease isn't breaking.
    pub fn expire(self, client: ClientNo, key: LeaseKey) -> Result<(Server, Vec<Out>), Memory> {
        self.call(Coming::Expires(client, key))
    }

    /// The timer of a durable open runs out (MS-SMB2 3.3.6.2): the open of this FileId is closed, if it
    /// waits for its client. Then requests that wait are tried again. Where it doesn't nothing changes, and
    /// nothing is given out.
    ///
    /// # Errors
    ///
    /// `Memory` where there is none left, and never where no such open waits.
    pub fn scavenge(self, fid: FileId) -> Result<(Server, Vec<Out>), Memory> {
        self.call(Coming::Scavenges(fid))
    }

    /// What holds of every server, whatever was asked of it. Where a lease caches writes, every open on a
    /// file where its key has one has that key. No two opens on a file conflict. An open that isn't
    /// connected is durable, and its lease holds `HANDLE_CACHING` and isn't breaking. A state that a lease
    /// is broken to is a proper part of its state. Does nothing.
    pub fn laws(&self) {
        let _parts = &self.parts;
    }

    /// What the server may grant (profile): the granted form of the wanted state, without
    /// `WRITE_CACHING` where an open on the file has another key than this one of the client's.
    /// With no key every open on the file has another one.
    pub fn allowed(&self, client: ClientNo, key: Option<LeaseKey>, file: FileNo, want: LeaseState) -> LeaseState {
        self.parts.manager.allowed(client_no(client), key, file_no(file), want)
    }

    /// Whether the client is connected (MS-SMB2 3.3.1.7, ConnectionList).
    pub fn is_connected(&self, client: ClientNo) -> bool {
        self.parts.manager.is_connected(client_no(client))
    }

    /// Whether an open of this FileId waits for its client to connect again (MS-SMB2 3.3.1.10, IsDurable).
    pub fn has_left_behind(&self, fid: FileId) -> bool {
        self.parts.manager.has_left_behind(fid)
    }

    /// Whether a break of the client's lease of this key waits for its acknowledgment (MS-SMB2
    /// 3.3.1.12, Breaking). False where the key has no lease.
    pub fn breaking(&self, client: ClientNo, key: LeaseKey) -> bool {
        self.parts.manager.is_breaking(client_no(client), key)
    }

    /// The FileId of the client's oldest durable open on the file that waits to be connected again
    /// (profile); `None` where there is none.
    pub fn kept(&self, client: ClientNo, file: FileNo) -> Option<FileId> {
        self.parts.manager.kept(client_no(client), file_no(file))
    }

    /// The bytes of a file; `None` where the server has no file of this number.
    pub fn content(&self, file: FileNo) -> Option<&[u8]> {
        if file_no(file).is_file(self.parts.manager.files()) { Some(self.parts.host.bytes(file)) } else { None }
    }
}

// A manager of the host's files, where nothing is open. Allocates nothing.
fn manager_of(alloc: Global, rules: Rules, host: &Host) -> Manager {
    Manager::with_files(alloc, rules, crate::proved::lease_manager::FileNo(u64::from(host.count())))
}
