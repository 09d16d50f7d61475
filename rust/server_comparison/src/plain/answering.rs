use crate::plain::Server;
use crate::plain::open::{Held, Key, Lease, Opening};
use smblease::proved::lease_state::{Bytes, ClientNo, FileNo, Memory, Patch, Reply, Request, Status};
use smblease::proved::lease_wire::{Acknowledgment, BreakResponse};
use smblease::proved::share_server::Out;
use std::prelude::Vec;

impl Server {
    // Answers a request that needs nothing more.
    pub(super) fn answer(&mut self, one: &Held) -> Result<(), Memory> {
        let client = one.client;
        match &one.request {
            Request::Read { fid } => {
                let content = self.content(one.file).unwrap_or_default();
                let bytes = Bytes::new(Vec::from_slice(self.alloc(), content)?);
                self.send(client, Reply::ReadDone { fid: *fid, bytes })
            }
            Request::Write { fid, number, patch } => {
                let (fid, number) = (*fid, *number);
                self.change(one.file, patch)?;
                self.outs.push(Out::Changed(one.file, client, number, patch.try_copy()?))?;
                self.send(client, Reply::WriteDone { fid, number })
            }
            Request::Close { fid } => {
                self.opens.retain(|open| open.fid != *fid);
                self.drop_leases();
                self.send(client, Reply::Closed { fid: *fid })
            }
            request => match Opening::of(client, request) {
                Some(opening) => self.create(&opening),
                None => Ok(()),
            },
        }
    }

    // A patch that ends past the limit was refused before.
    fn change(&mut self, file: FileNo, patch: &Patch) -> Result<(), Memory> {
        let place = usize::from(file.0).saturating_sub(1);
        match self.contents.get_mut(place) {
            Some(content) => content.apply(patch).map_err(|_| Memory),
            None => Ok(()),
        }
    }

    // Judges an acknowledgment.
    pub(super) fn acknowledge(&mut self, client: ClientNo, message: &[u8; 36]) -> Result<(), Memory> {
        let Ok((given, _)) = Acknowledgment::decode(message) else {
            return self.refuse(client, &Request::Ack(*message), Status::InvalidParameter);
        };
        let bytes = given.key;
        let key = Key { client, bytes };
        let status = match self.lease(key).map(|lease| lease.broken_to) {
            None => Status::ObjectNameNotFound,
            Some(None) => Status::Unsuccessful,
            Some(Some(lowered)) if !given.state.is_within(lowered) => Status::RequestNotAccepted,
            Some(Some(_)) => {
                let state = given.state.granted_form();
                self.put_lease(Lease { key, state, broken_to: None })?;
                let response = BreakResponse { key: bytes, state };
                return self.send(client, Reply::AckDone(response.encode()));
            }
        };
        self.refuse(client, &Request::Ack(*message), status)
    }
}
