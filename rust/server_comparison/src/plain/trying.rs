use crate::plain::Server;
use crate::plain::finding::Finding;
use crate::plain::lists::without;
use crate::plain::open::{Held, Key, Lease, Opening};
use smblease::proved::lease_state::{ClientNo, FileId, FileNo, LeaseState, Memory, Order, Reply, Request, Status};
use smblease::proved::lease_wire::Notification;
use std::mem;
use std::prelude::Vec;

impl Server {
    // A request is refused at once, or waits after an earlier one of its client on its file, or is
    // tried.
    pub(super) fn arrive(&mut self, client: ClientNo, request: Request) -> Result<(), Memory> {
        if let Request::Ack(message) = &request {
            return self.acknowledge(client, message);
        }
        let file = match self.file_of(client, &request) {
            Ok(file) => file,
            Err(status) => return self.refuse(client, &request, status),
        };
        let (key, fid) = self.named(client, &request);
        let one = Held { client, file, key, fid, request };
        if self.is_behind(&one) || self.waits(&one)? {
            self.held.push(one)?;
        }
        Ok(())
    }

    // The file that a request is about, or the status that refuses it at once.
    fn file_of(&self, client: ClientNo, request: &Request) -> Result<FileNo, Status> {
        match request {
            Request::Read { fid } | Request::Write { fid, .. } | Request::Close { fid } => {
                self.connected(client, *fid).map(|open| open.file).ok_or(Status::FileClosed)
            }
            _ => match Opening::of(client, request) {
                None => Err(Status::InvalidParameter),
                Some(opening) if self.content(opening.file).is_some() => Ok(opening.file),
                Some(_) => Err(Status::ObjectNameNotFound),
            },
        }
    }

    // The key that a request stands under, and the FileId that it names.
    fn named(&self, client: ClientNo, request: &Request) -> (Option<Key>, Option<FileId>) {
        match request {
            Request::Read { fid } | Request::Write { fid, .. } | Request::Close { fid } => {
                let key = self.connected(client, *fid).and_then(|open| open.key);
                (key, Some(*fid))
            }
            _ => {
                let key = Opening::of(client, request).and_then(|opening| opening.key());
                (key, None)
            }
        }
    }

    fn is_behind(&self, one: &Held) -> bool {
        self.held
            .iter()
            .filter(|earlier| earlier.client == one.client && earlier.file == one.file)
            .any(|earlier| self.rules.order == Order::ByClient || earlier.stands_with(one))
    }

    // Tries the requests that wait: file by file, on each until a pass answers nothing.
    pub(super) fn try_held(&mut self) -> Result<(), Memory> {
        for number in 1..=u8::MAX {
            self.try_on(FileNo(number))?;
        }
        Ok(())
    }

    // Each pass that is followed by another one answers a request.
    fn try_on(&mut self, file: FileNo) -> Result<(), Memory> {
        for _pass in 0..self.held.len() {
            if !self.pass(file)? {
                break;
            }
        }
        Ok(())
    }

    // Tries what waits on a file in order of arrival, but for what comes after a request that still
    // waits. Whether a request was answered.
    fn pass(&mut self, file: FileNo) -> Result<bool, Memory> {
        let none = Vec::new(self.alloc());
        let held = mem::replace(&mut self.held, none);
        let count = held.len();
        for one in held {
            if one.file != file || self.is_behind(&one) || self.waits(&one)? {
                self.held.push(one)?;
            }
        }
        Ok(self.held.len() < count)
    }

    // Tries a request: whether it has to wait, since else it was answered or refused. Each round that is followed by another
    // one closes an open or lowers a lease.
    fn waits(&mut self, one: &Held) -> Result<bool, Memory> {
        let rounds = self.opens.len().saturating_mul(2).saturating_add(1);
        for _round in 0..rounds {
            let (keys, taken) = match self.finding(one)? {
                Finding::Wants(keys, taken) => (keys, taken),
                Finding::Refused(status) => {
                    self.refuse(one.client, &one.request, status)?;
                    return Ok(false);
                }
            };
            if keys.iter().all(|key| self.is_settled(one, *key)) {
                self.answer(one)?;
                return Ok(false);
            }
            self.break_leases(&keys, taken)?;
            if keys.iter().any(|key| self.keeps_waiting(one, *key)) {
                return Ok(true);
            }
        }
        Ok(true)
    }

    // A write needn't wait for a break to nothing, since that break was sent before.
    fn is_settled(&self, one: &Held, key: Key) -> bool {
        let writes = matches!(one.request, Request::Write { .. });
        writes && self.broken_to(key).is_some_and(|state| state.is_none())
    }

    fn keeps_waiting(&self, one: &Held, key: Key) -> bool {
        self.broken_to(key).is_some() && !self.is_settled(one, key)
    }

    // The opens of these keys whose clients are away are closed, and what is left of their leases is broken.
    fn break_leases(&mut self, keys: &[Key], taken: LeaseState) -> Result<(), Memory> {
        for key in keys {
            self.opens.retain(|one| one.connected || one.key != Some(*key));
            self.drop_leases();
            match self.lease(*key) {
                Some(lease) if lease.broken_to.is_none() => self.break_lease(lease, taken)?,
                _ => {}
            }
        }
        Ok(())
    }

    // A lease whose break asks for no acknowledgment has lost what is taken at once.
    fn break_lease(&mut self, lease: Lease, taken: LeaseState) -> Result<(), Memory> {
        let Lease { key, state, .. } = lease;
        let new = without(state, taken);
        let ack_required = state.needs_ack();
        self.put_lease(Lease {
            key,
            state: if ack_required { state } else { new },
            broken_to: if ack_required { Some(new) } else { None },
        })?;
        let notification = Notification { ack_required, key: key.bytes, current: state, new };
        self.send(key.client, Reply::Break(notification.encode()))
    }
}
