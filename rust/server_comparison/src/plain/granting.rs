use crate::plain::Server;
use crate::plain::open::{Key, Lease, Open, Opening};
use smblease::proved::lease_state::{Bytes, FileId, LeaseState, Memory, Reply, Rise, Status};
use smblease::proved::lease_wire::{CreateAnswer, write_create_reply};
use smblease::proved::share_server::Out;
use std::prelude::Vec;

impl Server {
    // Opens a file, or connects an open again.
    pub(super) fn create(&mut self, opening: &Opening) -> Result<(), Memory> {
        let (client, file) = (opening.client, opening.file);
        if let Some(fid) = opening.ask.reconnect {
            self.connect_again(fid);
            let lease = opening.key().and_then(|key| self.lease(key));
            return self.tell_created(opening, fid, lease, false);
        }
        let Some(number) = self.last_id.checked_add(1) else {
            let status = Status::InsufficientResources;
            return self.send(client, Reply::CreateFailed { file, status });
        };
        self.last_id = number;
        let lease = self.lease_after(opening);
        if let Some(lease) = lease {
            self.put_lease(lease)?;
        }
        let holds_handles = lease.is_some_and(|lease| lease.state.caches_handles());
        let open = Open {
            fid: FileId(number),
            client,
            file,
            key: opening.key(),
            access: opening.access,
            share: opening.share,
            durable: opening.ask.durable && holds_handles,
            connected: true,
        };
        self.opens.push(open)?;
        self.outs.push(Out::Opened(file, client))?;
        self.tell_created(opening, open.fid, lease, open.durable)
    }

    // The lease after a grant: it stays while it is breaking, where it holds what isn't wanted now, or where it may rise
    // to all of it alone and can't.
    fn lease_after(&self, opening: &Opening) -> Option<Lease> {
        let (bytes, want) = opening.ask.lease?;
        let client = opening.client;
        let key = Key { client, bytes };
        let (held, broken_to) = (self.state(key), self.broken_to(key));
        let free = if self.expired.contains(&key) { LeaseState::NONE } else { self.allowed(Some(key), opening.file, want) };
        let stays = broken_to.is_some()
            || !held.is_within(want.granted_form())
            || (self.rules.rise == Rise::Whole
                && self.opens.iter().any(|one| one.key == Some(key))
                && free != want.granted_form());
        let state = if stays { held } else { free };
        Some(Lease { key, state, broken_to })
    }

    fn connect_again(&mut self, fid: FileId) {
        for one in self.opens.iter_mut() {
            one.connected = one.connected || one.fid == fid;
        }
    }

    fn tell_created(&mut self, opening: &Opening, fid: FileId, lease: Option<Lease>, durable: bool) -> Result<(), Memory> {
        let lease = lease.map(|lease| (lease.key.bytes, lease.state, lease.broken_to.is_some()));
        let mut contexts = Vec::new(self.alloc());
        write_create_reply(&CreateAnswer { lease, durable }, &mut contexts)?;
        let created = Reply::Created { file: opening.file, fid, contexts: Bytes::new(contexts) };
        self.send(opening.client, created)
    }
}
