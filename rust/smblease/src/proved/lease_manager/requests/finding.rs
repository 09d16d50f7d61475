// Made by tools/plain_rust from crates/lease_manager/src/requests/finding.rt. Changes belong there.

use std::prelude::Vec;

use crate::proved::lease_manager::tables::Tables;
use crate::proved::lease_manager::values::key::LeaseName;
use crate::proved::lease_manager::values::number::{ClientNo, FileNo};
use crate::proved::lease_manager::values::request::{Ask, CreateAsk, key_asked};
use crate::proved::lease_manager::values::want::{Want, Wish};
use crate::proved::lease_state::{Access, FileId, Memory, Share, Status};

/// What a look at a request finds.
#[derive(Debug)]
pub enum Finding {
    /// It is refused.
    Fails(Status),
    /// It can be answered; with the file that it is about.
    Ready,
    /// It needs these leases to be broken.
    Needs(Vec<Want>),
}

impl Tables {
    /// What a look at the request finds.
    ///
    /// # Errors
    ///
    /// `Memory` where there is none left for the list of leases.
    pub fn finding(&self, client: ClientNo, ask: Ask) -> Result<Finding, Memory> {
        match ask {
            Ask::Create { file, access, share, ask } => self.create_finding(client, file, access, share, ask),
            Ask::Read { fid } => Ok(self.read_finding(client, fid)),
            Ask::Write { fid, fits } => self.write_finding(client, fid, fits),
            Ask::Close { fid } => Ok(self.close_finding(client, fid)),
        }
    }

    fn read_finding(&self, client: ClientNo, fid: FileId) -> Finding {
        match self.connected_open(client, fid) {
            Some(one) => {
                if one.access.reads() {
                    Finding::Ready
                } else {
                    Finding::Fails(Status::AccessDenied)
                }
            }
            None => Finding::Fails(Status::FileClosed),
        }
    }

    fn close_finding(&self, client: ClientNo, fid: FileId) -> Finding {
        match self.connected_open(client, fid) {
            Some(_) => Finding::Ready,
            None => Finding::Fails(Status::FileClosed),
        }
    }

    fn write_finding(&self, client: ClientNo, fid: FileId, fits: bool) -> Result<Finding, Memory> {
        match self.connected_open(client, fid) {
            None => Ok(Finding::Fails(Status::FileClosed)),
            Some(one) => {
                if !one.access.writes() {
                    return Ok(Finding::Fails(Status::AccessDenied));
                }
                if !fits {
                    return Ok(Finding::Fails(Status::InvalidParameter));
                }
                let needs = self.write_needs(one.key(), one.file)?;
                Ok(needs)
            }
        }
    }

    // What a write needs under this key, or under none: nothing where each lease of another key on the
    // file that holds something is breaking to nothing.
    // docs/DECISIONS.md: "A write whose wanted keys already break to none".
    fn write_needs(&self, own: Option<LeaseName>, file: FileNo) -> Result<Finding, Memory> {
        if !self.is_hindered(own, file) {
            return Ok(Finding::Ready);
        }
        Ok(Finding::Needs(self.wants(Wish::Nothing, own, file)?))
    }

    // A create of a file that is there is looked at as a reconnect, or as an open.
    fn create_finding(
        &self,
        client: ClientNo,
        file: FileNo,
        access: Access,
        share: Share,
        ask: CreateAsk,
    ) -> Result<Finding, Memory> {
        if !self.has_file(file) {
            return Ok(Finding::Fails(Status::ObjectNameNotFound));
        }
        let own = key_asked(client, ask.lease);
        match ask.reconnect {
            Some(fid) => Ok(self.reconnect_finding(client, file, own, fid)),
            None => self.open_finding(own, file, access, share),
        }
    }

    // A reconnect fails in one way whatever is wrong (profile).
    fn reconnect_finding(&self, client: ClientNo, file: FileNo, own: Option<LeaseName>, fid: FileId) -> Finding {
        if self.has_awaiting(client, file, own, fid) { Finding::Ready } else { Finding::Fails(Status::ObjectNameNotFound) }
    }

    // First the key's file, then conflicts, then cached writes (profile).
    fn open_finding(&self, own: Option<LeaseName>, file: FileNo, access: Access, share: Share) -> Result<Finding, Memory> {
        if self.is_leased_elsewhere(own, file) {
            return Ok(Finding::Fails(Status::InvalidParameter));
        }
        if !self.has_conflict_on(file, access, share) {
            return Ok(needing(self.wants(Wish::NoWrites, own, file)?));
        }
        let wants = self.wants(Wish::NoHandles { access, share }, own, file)?;
        if has_none(&wants) { Ok(Finding::Fails(Status::SharingViolation)) } else { Ok(Finding::Needs(wants)) }
    }
}

// The request about the file needs these leases to be broken, and can be answered where there are none.
fn needing(needed: Vec<Want>) -> Finding {
    if has_none(&needed) { Finding::Ready } else { Finding::Needs(needed) }
}

// Whether nothing is wanted.
fn has_none(wants: &[Want]) -> bool {
    match wants {
        [] => true,
        [..] => false,
    }
}
