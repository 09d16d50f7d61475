// Made by tools/plain_rust from crates/share_server/src/calls.rt. Changes belong there.

use std::prelude::Vec;

use crate::proved::lease_manager::{CreateAsk, Decision, Manager, Tag};
use crate::proved::lease_state::{Access, Bytes, ClientNo, FileId, FileNo, LeaseKey, LeaseState, Memory, Request, Share, Status};
use crate::proved::lease_wire::{Acknowledgment, read_create};
use crate::proved::share_server::host::Host;
use crate::proved::share_server::outs::Outs;
use crate::proved::share_server::values::coming::Coming;
use crate::proved::share_server::values::number::client_no;
use crate::proved::share_server::values::request::FileRequest;

/// Something comes to a server.
pub fn handle(
    manager: &mut Manager,
    host: &mut Host,
    told: &mut Vec<Decision>,
    outs: &mut Outs,
    coming: Coming,
) -> Result<(), Memory> {
    match coming {
        Coming::Joins(client) => join(manager, host, outs, client),
        Coming::Asks(client, request) => receive(manager, host, told, outs, client, request),
        Coming::IsCut(client) => cut(manager, host, told, outs, client),
        Coming::Expires(client, key) => expire(manager, host, told, outs, client, key),
        Coming::Scavenges(fid) => scavenge(manager, host, told, outs, fid),
    }
}

/// A client connects.
pub fn join(manager: &mut Manager, host: &mut Host, outs: &mut Outs, client: ClientNo) -> Result<(), Memory> {
    if !manager.is_connected(client_no(client)) {
        manager.join(client_no(client))?;
        settle(manager, host, &[], outs)?;
    }
    Ok(())
}

/// A request of a client comes.
pub fn receive(
    manager: &mut Manager,
    host: &mut Host,
    told: &mut Vec<Decision>,
    outs: &mut Outs,
    client: ClientNo,
    request: Request,
) -> Result<(), Memory> {
    if manager.is_connected(client_no(client)) {
        arrive(manager, host, told, outs, client, request)?;
    }
    Ok(())
}

// A request of a connected client comes.
fn arrive(
    manager: &mut Manager,
    host: &mut Host,
    told: &mut Vec<Decision>,
    outs: &mut Outs,
    client: ClientNo,
    request: Request,
) -> Result<(), Memory> {
    match request {
        Request::Create { file, access, share, contexts } => {
            create(manager, host, told, outs, client, file, access, share, contexts)
        }
        Request::Read { fid } => ask(manager, host, told, outs, client, FileRequest::Read { fid }),
        Request::Write { fid, number, patch } => {
            ask(manager, host, told, outs, client, FileRequest::Write { fid, number, patch })
        }
        Request::Close { fid } => ask(manager, host, told, outs, client, FileRequest::Close { fid }),
        Request::Ack(bytes) => acknowledge(manager, host, told, outs, client, &bytes),
    }
}

// A create comes, whose contexts are read.
fn create(
    manager: &mut Manager,
    host: &mut Host,
    told: &mut Vec<Decision>,
    outs: &mut Outs,
    client: ClientNo,
    file: FileNo,
    access: Access,
    share: Share,
    contexts: Bytes,
) -> Result<(), Memory> {
    match read_create(contexts.as_slice()) {
        Ok(given) => {
            let request = FileRequest::Create {
                file,
                access,
                share,
                ask: CreateAsk { lease: given.lease, durable: given.durable, reconnect: given.reconnect },
            };
            ask(manager, host, told, outs, client, request)?;
            Ok(())
        }
        Err(_) => {
            outs.refuse_create(client, file, Status::InvalidParameter)?;
            Ok(())
        }
    }
}

// The manager is asked under a new tag.
fn ask(
    manager: &mut Manager,
    host: &mut Host,
    told: &mut Vec<Decision>,
    outs: &mut Outs,
    client: ClientNo,
    request: FileRequest,
) -> Result<(), Memory> {
    let asked = request.ask();
    let tag = host.ask(request)?;
    manager.ask(client_no(client), Tag(tag), asked, told)?;
    settle(manager, host, told, outs)?;
    Ok(())
}

// An acknowledgment comes, and is read.
fn acknowledge(
    manager: &mut Manager,
    host: &mut Host,
    told: &mut Vec<Decision>,
    outs: &mut Outs,
    client: ClientNo,
    bytes: &[u8],
) -> Result<(), Memory> {
    match acknowledged(bytes) {
        Some((key, state)) => {
            manager.acknowledge(client_no(client), key, state, told)?;
            settle(manager, host, told, outs)?;
            Ok(())
        }
        None => {
            manager.acknowledge_malformed(client_no(client), told)?;
            settle(manager, host, told, outs)?;
            Ok(())
        }
    }
}

// What is acknowledged by these bytes (MS-SMB2 2.2.24.2).
fn acknowledged(bytes: &[u8]) -> Option<(LeaseKey, LeaseState)> {
    match Acknowledgment::decode(bytes) {
        Ok((given, _)) => Some((given.key, given.state)),
        Err(_) => None,
    }
}

/// A client's connection is lost.
pub fn cut(
    manager: &mut Manager,
    host: &mut Host,
    told: &mut Vec<Decision>,
    outs: &mut Outs,
    client: ClientNo,
) -> Result<(), Memory> {
    if manager.is_connected(client_no(client)) {
        manager.cut(client_no(client), told)?;
        settle(manager, host, told, outs)?;
    }
    Ok(())
}

/// The timer of a lease break runs out.
pub fn expire(
    manager: &mut Manager,
    host: &mut Host,
    told: &mut Vec<Decision>,
    outs: &mut Outs,
    client: ClientNo,
    key: LeaseKey,
) -> Result<(), Memory> {
    if manager.is_breaking(client_no(client), key) {
        manager.expire(client_no(client), key, told)?;
        settle(manager, host, told, outs)?;
    }
    Ok(())
}

/// The timer of a durable open runs out.
pub fn scavenge(
    manager: &mut Manager,
    host: &mut Host,
    told: &mut Vec<Decision>,
    outs: &mut Outs,
    fid: FileId,
) -> Result<(), Memory> {
    if manager.has_left_behind(fid) {
        manager.scavenge(fid, told)?;
        settle(manager, host, told, outs)?;
    }
    Ok(())
}

// Carries out what the manager decided of what came.
fn settle(manager: &Manager, host: &mut Host, told: &[Decision], outs: &mut Outs) -> Result<(), Memory> {
    host.settle(manager, told, outs)?;
    Ok(())
}
