use crate::serving::Serving;
use smblease::proved::lease_state::{
    Access, Bytes, ClientNo, FileId, FileNo, LeaseKey, LeaseState, Memory, Patch, Request, Share,
};
use smblease::proved::lease_wire::{Acknowledgment, CreateAsk, write_create_ask};
use std::alloc::Global;
use std::prelude::Vec;

/// A call of a server. Clients and files are numbers, and a key is sixteen times its number.
#[derive(Clone, Copy)]
pub enum Call {
    Join(u8),
    Cut(u8),
    Expire(u8, u8),
    Scavenge(u64),
    Ask(u8, Ask),
}

/// What a client asks.
#[derive(Clone, Copy)]
pub enum Ask {
    Create(u8, Access, Share, Text),
    Read(u64),
    /// FileId, number, offset.
    Write(u64, u64, u32),
    Close(u64),
    /// Key and state.
    Ack(u8, u8),
    NoAck,
}

/// The create contexts of a request.
#[derive(Clone, Copy)]
pub enum Text {
    Nothing,
    Faulty,
    /// Key and state.
    Leased(u8, u8),
    Durable(u8, u8),
    /// Key and FileId.
    Reconnect(u8, u64),
}

fn written(alloc: Global, ask: &CreateAsk) -> Result<Vec<u8>, Memory> {
    let mut bytes = Vec::new(alloc);
    write_create_ask(ask, &mut bytes)?;
    Ok(bytes)
}

fn contexts(alloc: Global, text: Text) -> Result<Bytes, Memory> {
    let (key, state, durable, reconnect) = match text {
        Text::Nothing => return Ok(Bytes::new(Vec::new(alloc))),
        Text::Faulty => return Ok(Bytes::new(Vec::from_slice(alloc, b"faulty")?)),
        Text::Leased(key, state) => (key, state, false, None),
        Text::Durable(key, state) => (key, state, true, None),
        Text::Reconnect(key, fid) => (key, 0, false, Some(FileId(fid))),
    };
    let lease = Some((LeaseKey([key; 16]), LeaseState::from_wire(u32::from(state))));
    let ask = CreateAsk { lease, durable, reconnect };
    Ok(Bytes::new(written(alloc, &ask)?))
}

fn acknowledgment(key: u8, state: u8) -> [u8; 36] {
    let acknowledgment = Acknowledgment { key: LeaseKey([key; 16]), state: LeaseState::from_wire(u32::from(state)) };
    acknowledgment.encode()
}

// The request that asks this.
fn request(alloc: Global, ask: Ask) -> Result<Request, Memory> {
    Ok(match ask {
        Ask::Create(file, access, share, text) => {
            Request::Create { file: FileNo(file), access, share, contexts: contexts(alloc, text)? }
        }
        Ask::Read(fid) => Request::Read { fid: FileId(fid) },
        Ask::Write(fid, number, offset) => {
            Request::Write { fid: FileId(fid), number, patch: Patch { offset, bytes: Bytes::new(Vec::from_slice(alloc, b"X")?) } }
        }
        Ask::Close(fid) => Request::Close { fid: FileId(fid) },
        Ask::Ack(key, state) => Request::Ack(acknowledgment(key, state)),
        Ask::NoAck => Request::Ack([0; 36]),
    })
}

impl Call {
    /// The call with its values and messages.
    pub fn serving(self, alloc: Global) -> Result<Serving, Memory> {
        Ok(match self {
            Call::Join(client) => Serving::Join(ClientNo(client)),
            Call::Cut(client) => Serving::Cut(ClientNo(client)),
            Call::Expire(client, key) => Serving::Expire(ClientNo(client), LeaseKey([key; 16])),
            Call::Scavenge(fid) => Serving::Scavenge(FileId(fid)),
            Call::Ask(client, ask) => Serving::Receive(ClientNo(client), request(alloc, ask)?),
        })
    }
}
