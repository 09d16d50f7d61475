// Made by tools/plain_rust from crates/machines_c/src/server/calls.rt. Changes belong there.

use std::prelude::{Box, Vec};

use crate::proved::machines_c::handles::Outcome;
use crate::proved::machines_c::server::handle::{Hosted, ServerHandle};
use crate::proved::machines_c::values::KeyBytes;
use smblease::proved::lease_state::{ClientNo, FileId, LeaseKey, Memory, Request};
use smblease::proved::share_server::{Out, Server};
use std::alloc::Global;

impl ServerHandle {
    // The server that is held, and room for it. Nothing is held then.
    fn take_server(&mut self, alloc: Global) -> Option<(Server, Box<Hosted>)> {
        let mut room = self.take(alloc)?;
        let nothing = Hosted { server: None, outs: Vec::new(alloc) };
        let Hosted { server, .. } = Box::replace(&mut room, nothing);
        Some((server?, room))
    }

    // What a call came to is held from now on; where it ran out of memory nothing is.
    fn keep(&mut self, alloc: Global, mut room: Box<Hosted>, came: Result<(Server, Vec<Out>), Memory>) -> Outcome {
        match came {
            Ok((server, outs)) => {
                let server = Some(server);
                let _old = Box::replace(&mut room, Hosted { server, outs });
                self.put(alloc, room);
                Outcome::Done
            }
            Err(_) => Outcome::Lost,
        }
    }

    /// A request of a client comes.
    pub(crate) fn hear(&mut self, alloc: Global, client: u8, request: Request) -> Outcome {
        match self.take_server(alloc) {
            None => Outcome::Nothing,
            Some((server, room)) => self.keep(alloc, room, server.receive(ClientNo(client), request)),
        }
    }
}

/// A client connects (MS-SMB2 3.3.5.1). Where it is connected nothing changes.
///
/// Returns 0; 2 where memory ran out, and the machine is lost, which is never where nothing
/// changes; 3 where there is none.
pub fn smblease_server_join(alloc: Global, server: &mut ServerHandle, client: u8) -> u32 {
    match server.take_server(alloc) {
        None => Outcome::Nothing.code(),
        Some((machine, room)) => server.keep(alloc, room, machine.join(ClientNo(client))).code(),
    }
}

/// A client's connection is lost (3.3.7.1). Where it isn't connected nothing changes. The outcomes
/// are those of `smblease_server_join`.
pub fn smblease_server_cut(alloc: Global, server: &mut ServerHandle, client: u8) -> u32 {
    match server.take_server(alloc) {
        None => Outcome::Nothing.code(),
        Some((machine, room)) => server.keep(alloc, room, machine.cut(ClientNo(client))).code(),
    }
}

/// The timer of the break of a client's lease runs out (3.3.6.5). Where no break of it waits for its
/// acknowledgment nothing changes. The outcomes are those of `smblease_server_join`.
pub fn smblease_server_expire(alloc: Global, server: &mut ServerHandle, client: u8, key: &KeyBytes) -> u32 {
    match server.take_server(alloc) {
        None => Outcome::Nothing.code(),
        Some((machine, room)) => server.keep(alloc, room, machine.expire(ClientNo(client), LeaseKey(key.bytes))).code(),
    }
}

/// The timer of a durable open runs out (3.3.6.2). Where no such open waits for its client nothing
/// changes. The outcomes are those of `smblease_server_join`.
pub fn smblease_server_scavenge(alloc: Global, server: &mut ServerHandle, file_id: u64) -> u32 {
    match server.take_server(alloc) {
        None => Outcome::Nothing.code(),
        Some((machine, room)) => server.keep(alloc, room, machine.scavenge(FileId(file_id))).code(),
    }
}

/// The functions of this module for C.
pub mod exported {
    use super::{KeyBytes, ServerHandle};

    /// [`super::smblease_server_join`] for C.
    #[unsafe(no_mangle)]
    pub extern "C" fn smblease_server_join(server: &mut ServerHandle, client: u8) -> u32 {
        super::smblease_server_join(std::alloc::Global, server, client)
    }

    /// [`super::smblease_server_cut`] for C.
    #[unsafe(no_mangle)]
    pub extern "C" fn smblease_server_cut(server: &mut ServerHandle, client: u8) -> u32 {
        super::smblease_server_cut(std::alloc::Global, server, client)
    }

    /// [`super::smblease_server_expire`] for C.
    #[unsafe(no_mangle)]
    pub extern "C" fn smblease_server_expire(server: &mut ServerHandle, client: u8, key: &KeyBytes) -> u32 {
        super::smblease_server_expire(std::alloc::Global, server, client, key)
    }

    /// [`super::smblease_server_scavenge`] for C.
    #[unsafe(no_mangle)]
    pub extern "C" fn smblease_server_scavenge(server: &mut ServerHandle, file_id: u64) -> u32 {
        super::smblease_server_scavenge(std::alloc::Global, server, file_id)
    }
}
