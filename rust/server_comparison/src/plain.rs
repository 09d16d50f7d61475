//! A file server of leases and durable opens over plain lists: each question is answered by a look at all opens, all leases
//! or all requests that wait. It is written after docs/PROFILE.md, and shares no code with `share_server`.
use std::prelude::Vec;

mod answering;
mod finding;
mod granting;
mod lists;
pub mod open;
mod trying;

use crate::plain::open::{Held, Key, Lease, Open};
use smblease::proved::lease_state::{ClientNo, Content, FileId, FileNo, LeaseKey, LeaseState, Memory, Request, Rules};
use smblease::proved::share_server::Out;
use std::alloc::Global;

/// The files, and lists of opens, leases, requests that wait, connections and keys whose timer ran out.
pub struct Server {
    rules: Rules,
    file_limit: usize,
    contents: Vec<Content>,
    opens: Vec<Open>,
    leases: Vec<Lease>,
    held: Vec<Held>,
    present: Vec<ClientNo>,
    expired: Vec<Key>,
    last_id: u64,
    outs: Vec<Out>,
}

impl Server {
    /// With these rules, and these files, numbered from 1, in which no write ends past `file_limit` bytes.
    pub fn new(alloc: Global, rules: Rules, contents: Vec<Content>, file_limit: usize) -> Server {
        Server {
            rules,
            file_limit,
            contents,
            opens: Vec::new(alloc),
            leases: Vec::new(alloc),
            held: Vec::new(alloc),
            present: Vec::new(alloc),
            expired: Vec::new(alloc),
            last_id: 0,
            outs: Vec::new(alloc),
        }
    }

    /// A client connects.
    pub fn join(&mut self, client: ClientNo) -> Result<Vec<Out>, Memory> {
        if !self.present.contains(&client) {
            self.present.push(client)?;
            self.expired.retain(|key| key.client != client);
        }
        Ok(self.given_out())
    }

    /// A request of a client comes; after an acknowledgment or a close those that wait are tried again.
    pub fn receive(&mut self, client: ClientNo, request: Request) -> Result<Vec<Out>, Memory> {
        if self.present.contains(&client) {
            let ends_waiting = matches!(request, Request::Close { .. } | Request::Ack(_));
            self.arrive(client, request)?;
            if ends_waiting {
                self.try_held()?;
            }
        }
        Ok(self.given_out())
    }

    /// A client's connection is lost, and with it the opens that don't outlive it and the requests that wait.
    pub fn cut(&mut self, client: ClientNo) -> Result<Vec<Out>, Memory> {
        if self.present.contains(&client) {
            self.lose_opens(client);
            self.held.retain(|one| one.client != client);
            self.present.retain(|one| *one != client);
            self.try_held()?;
        }
        Ok(self.given_out())
    }

    /// The timer of a break runs out: the lease's opens are closed, and its key is granted nothing from now on.
    pub fn expire(&mut self, client: ClientNo, bytes: LeaseKey) -> Result<Vec<Out>, Memory> {
        let key = Key { client, bytes };
        if self.broken_to(key).is_some() {
            self.opens.retain(|one| one.key != Some(key));
            self.drop_leases();
            self.expired.push(key)?;
            self.try_held()?;
        }
        Ok(self.given_out())
    }

    /// The timer of a durable open runs out: it is closed, if its client is away.
    pub fn scavenge(&mut self, fid: FileId) -> Result<Vec<Out>, Memory> {
        let before = self.opens.len();
        self.opens.retain(|one| one.fid != fid || one.connected);
        if self.opens.len() < before {
            self.drop_leases();
            self.try_held()?;
        }
        Ok(self.given_out())
    }

    /// What may be granted of a wanted state: its granted form, without writes where another key has an open on the file.
    pub fn allowed(&self, own: Option<Key>, file: FileNo, want: LeaseState) -> LeaseState {
        if self.opens.iter().any(|one| one.is_other(own, file)) {
            lists::without(want.granted_form(), LeaseState::WRITE_CACHING)
        } else {
            want.granted_form()
        }
    }

    /// The state that a key's lease is breaking to.
    pub fn broken_to(&self, key: Key) -> Option<LeaseState> {
        self.lease(key).and_then(|lease| lease.broken_to)
    }

    /// The lowest open of the client on the file that waits for its client.
    pub fn kept(&self, client: ClientNo, file: FileNo) -> Option<FileId> {
        self.opens.iter().filter(|one| one.client == client && one.file == file && !one.connected).map(|one| one.fid).min()
    }

    /// The bytes of a file.
    pub fn content(&self, file: FileNo) -> Option<&[u8]> {
        let place = usize::from(file.0).checked_sub(1)?;
        self.contents.get(place).map(|content| content.bytes())
    }
}
