use crate::plain::Server;
use crate::plain::lists::meet;
use crate::plain::open::{Held, Key, Open, Opening};
use smblease::proved::lease_state::{FileNo, LeaseState, Memory, Request, Status};
use std::prelude::Vec;

/// What a look at a request finds.
pub enum Finding {
    Refused(Status),
    /// These keys, which hold some of this, are to lose it; perhaps none.
    Wants(Vec<Key>, LeaseState),
}

impl Server {
    pub(super) fn finding(&self, one: &Held) -> Result<Finding, Memory> {
        match &one.request {
            Request::Read { fid } | Request::Write { fid, .. } | Request::Close { fid } => {
                match self.connected(one.client, *fid) {
                    Some(open) => self.finding_on(&open, &one.request),
                    None => Ok(Finding::Refused(Status::FileClosed)),
                }
            }
            request => match Opening::of(one.client, request) {
                Some(opening) => self.create_finding(&opening),
                None => Ok(Finding::Refused(Status::InvalidParameter)),
            },
        }
    }

    fn nothing(&self) -> Finding {
        Finding::Wants(Vec::new(self.alloc()), LeaseState::NONE)
    }

    // A write wants that no other key caches anything of its file; a read and a close want nothing.
    fn finding_on(&self, open: &Open, request: &Request) -> Result<Finding, Memory> {
        match request {
            Request::Read { .. } if !open.access.reads() => Ok(Finding::Refused(Status::AccessDenied)),
            Request::Write { patch, .. } => {
                let end = (patch.offset as usize).saturating_add(patch.bytes.len());
                if !open.access.writes() {
                    return Ok(Finding::Refused(Status::AccessDenied));
                }
                if end > self.file_limit {
                    return Ok(Finding::Refused(Status::InvalidParameter));
                }
                self.wants(open.key, open.file, LeaseState::from_wire(7), None)
            }
            _ => Ok(self.nothing()),
        }
    }

    // A reconnect wants nothing. A create that conflicts wants the handles of those it conflicts with, any other the cached
    // writes of all.
    fn create_finding(&self, opening: &Opening) -> Result<Finding, Memory> {
        let (own, file) = (opening.key(), opening.file);
        if opening.ask.reconnect.is_some() {
            return Ok(if self.opens.iter().any(|one| opening.awaits(one)) {
                self.nothing()
            } else {
                Finding::Refused(Status::ObjectNameNotFound)
            });
        }
        let is_elsewhere = |one: &Open| own.is_some() && one.key == own && one.file != file;
        if self.opens.iter().any(is_elsewhere) {
            return Ok(Finding::Refused(Status::InvalidParameter));
        }
        if !self.opens.iter().any(|one| opening.conflicts(one)) {
            return self.wants(own, file, LeaseState::WRITE_CACHING, None);
        }
        match self.wants(own, file, LeaseState::HANDLE_CACHING, Some(opening))? {
            Finding::Wants(keys, _) if keys.is_empty() => Ok(Finding::Refused(Status::SharingViolation)),
            found => Ok(found),
        }
    }

    // The other keys on the file that hold some of what is taken, in order; of those with an open that conflicts, if that counts.
    fn wants(&self, own: Option<Key>, file: FileNo, taken: LeaseState, opening: Option<&Opening>) -> Result<Finding, Memory> {
        let mut keys = Vec::new(self.alloc());
        for one in self.opens.iter() {
            if let Some(key) = one.key
                && one.is_other(own, file)
                && opening.is_none_or(|opening| opening.conflicts(one))
                && meet(self.state(key), taken)
                && !keys.contains(&key)
            {
                keys.push(key)?;
            }
        }
        keys.sort()?;
        Ok(Finding::Wants(keys, taken))
    }
}
