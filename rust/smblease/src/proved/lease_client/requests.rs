// Made by tools/plain_rust from crates/lease_client/src/requests.rt. Changes belong there.

use std::prelude::Vec;

use crate::proved::lease_client::entry::{Parted, Pending};
use crate::proved::lease_client::writes::queue::Writes;
use crate::proved::lease_state::{Access, Bytes, FileId, FileNo, LeaseKey, LeaseState, Memory, Request, Share};
use crate::proved::lease_wire::{Acknowledgment, CreateAsk, write_create_ask};
use std::alloc::Global;

/// How a file is to be opened.
#[derive(Clone, Copy, Debug)]
pub struct Terms {
    pub access: Access,
    pub share: Share,
    pub want: LeaseState,
    pub durable: bool,
}

/// The write as a request (MS-SMB2 2.2.21) under a FileId. The entry keeps the write until it is
/// answered, so the request has a copy.
///
/// # Errors
///
/// `Memory` where there is none left for the copy.
fn write_request(file_id: FileId, write: &Pending) -> Result<Request, Memory> {
    Ok(Request::Write { fid: file_id, number: write.number, patch: write.patch.try_copy()? })
}

/// Sends the writes under a FileId, after the requests that there are.
///
/// # Errors
///
/// `Memory` where there is none left for the requests.
pub fn push_writes(requests: &mut Vec<Request>, file_id: FileId, writes: &Writes) -> Result<(), Memory> {
    let (first, rest) = writes.as_slices();
    push_each_write(requests, file_id, first)?;
    push_each_write(requests, file_id, rest)
}

fn push_each_write(requests: &mut Vec<Request>, file_id: FileId, writes: &[Pending]) -> Result<(), Memory> {
    for write in writes {
        let request = write_request(file_id, write)?;
        requests.push(request)?;
    }
    Ok(())
}

/// To close an open (2.2.15).
pub fn close(file_id: FileId) -> Request {
    Request::Close { fid: file_id }
}

/// To acknowledge the break of a lease (2.2.24.2).
pub fn acknowledge(key: LeaseKey, state: LeaseState) -> Request {
    Request::Ack(Acknowledgment { key, state }.encode())
}

/// To open a file under its key (2.2.13): RqLs with the wanted state, and DHnQ where a durable open is
/// wanted.
///
/// # Errors
///
/// `Memory` where there is none left for the create contexts.
pub fn open(alloc: Global, file: FileNo, key: LeaseKey, terms: Terms) -> Result<Request, Memory> {
    let ask = CreateAsk { lease: Some((key, terms.want)), durable: terms.durable, reconnect: None };
    Ok(Request::Create { file, access: terms.access, share: terms.share, contexts: contexts(alloc, &ask)? })
}

/// To connect an open again (2.2.13): RqLs with no state (profile), and DHnC.
///
/// # Errors
///
/// `Memory` where there is none left for the create contexts.
pub fn connect_again(alloc: Global, file: FileNo, key: LeaseKey, parted: &Parted) -> Result<Request, Memory> {
    let ask = CreateAsk { lease: Some((key, LeaseState::NONE)), durable: false, reconnect: Some(parted.file_id) };
    Ok(Request::Create { file, access: parted.access, share: parted.share, contexts: contexts(alloc, &ask)? })
}

fn contexts(alloc: Global, ask: &CreateAsk) -> Result<Bytes, Memory> {
    let mut text = Vec::new(alloc);
    write_create_ask(ask, &mut text)?;
    Ok(Bytes::new(text))
}
