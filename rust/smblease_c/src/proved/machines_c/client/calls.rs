// Made by tools/plain_rust from crates/machines_c/src/client/calls.rt. Changes belong there.

use std::prelude::{Box, Vec};

use crate::proved::machines_c::client::handle::ClientHandle;
use crate::proved::machines_c::client::stepping::Stepping;
use crate::proved::machines_c::client::values::ClientGuid;
use crate::proved::machines_c::handles::Outcome;
use crate::proved::machines_c::values::KeyBytes;
use smblease::proved::lease_client::{Answer, Client, Command, Step, lease_key};
use smblease::proved::lease_state::{FileNo, Memory, Reply};
use std::alloc::Global;

// A client with this, that was asked nothing yet.
fn asked_nothing(alloc: Global, client: Client) -> Step {
    Step { client, answer: Answer::Quiet, requests: Vec::new(alloc), notes: Vec::new(alloc) }
}

// What stands in the place of a client while it is called: a client with no file, for which nothing
// is allocated.
fn placeholder(alloc: Global) -> Stepping {
    let client = Client::new(alloc, [0; 16], 0).unwrap();
    Stepping { step: asked_nothing(alloc, client), code: 0 }
}

impl ClientHandle {
    // The client that is held, and room for its next step. Nothing is held then.
    fn take_client(&mut self, alloc: Global) -> Option<(Client, Box<Stepping>)> {
        match self.take(alloc) {
            None => None,
            Some(mut room) => {
                let Stepping { step, .. } = Box::replace(&mut room, placeholder(alloc));
                let Step { client, .. } = step;
                Some((client, room))
            }
        }
    }

    // What a call came to is held from now on, with the status of the reply that it took; where it ran out of memory nothing is.
    fn keep(&mut self, alloc: Global, mut room: Box<Stepping>, came: Result<Step, Memory>, code: u32) -> Outcome {
        match came {
            Ok(step) => {
                let _old = Box::replace(&mut room, Stepping { step, code });
                self.put(alloc, room);
                Outcome::Done
            }
            Err(_) => Outcome::Lost,
        }
    }

    /// A command comes from the application.
    pub(crate) fn app(&mut self, alloc: Global, command: Command) -> Outcome {
        match self.take_client(alloc) {
            None => Outcome::Nothing,
            Some((client, room)) => self.keep(alloc, room, client.app(command), 0),
        }
    }

    /// A message comes from the server that refuses nothing.
    pub(crate) fn hear(&mut self, alloc: Global, reply: Reply) -> Outcome {
        self.hear_with(alloc, reply, 0)
    }

    /// A message comes from the server, with this status: 0 where it refuses nothing.
    pub(crate) fn hear_with(&mut self, alloc: Global, reply: Reply, code: u32) -> Outcome {
        match self.take_client(alloc) {
            None => Outcome::Nothing,
            Some((client, room)) => self.keep(alloc, room, client.take(reply), code),
        }
    }
}

/// A client of this ClientGuid with files from 1 to `files`, that was never connected: no file is
/// open. What the handle held is freed.
///
/// Returns 0, or 1 where there is no memory; then nothing changed.
pub fn smblease_client_new(alloc: Global, client: &mut ClientHandle, guid: &ClientGuid, files: u8) -> u32 {
    match fresh(alloc, guid, files) {
        Ok(stepping) => {
            client.put(alloc, stepping);
            Outcome::Done.code()
        }
        Err(_) => Outcome::NoMemory.code(),
    }
}

// A new client in a box.
fn fresh(alloc: Global, guid: &ClientGuid, files: u8) -> Result<Box<Stepping>, Memory> {
    let client = Client::new(alloc, guid.bytes, files)?;
    let step = asked_nothing(alloc, client);
    Ok(Box::new(alloc, Stepping { step, code: 0 })?)
}

/// Frees the machine and what its last call gave out; the handle holds none then. Where it holds
/// none nothing is done.
pub fn smblease_client_free(alloc: Global, client: &mut ClientHandle) {
    drop(client.take(alloc));
}

/// The client connects (MS-SMB2 3.2.4.4): a create is sent for each open that waits for it.
///
/// Returns 0; 2 where memory ran out, and the machine is lost; 3 where there is none.
pub fn smblease_client_connect(alloc: Global, client: &mut ClientHandle) -> u32 {
    match client.take_client(alloc) {
        None => Outcome::Nothing.code(),
        Some((machine, room)) => client.keep(alloc, room, machine.connect(), 0).code(),
    }
}

/// The client notices that its connection is lost (MS-SMB2 3.2.7.1). Live durable opens wait for
/// the next one, with their buffered writes where writes may be cached; any other open is closed.
///
/// Returns 0; 2 where memory ran out, and the machine is lost; 3 where there is none.
pub fn smblease_client_notice(alloc: Global, client: &mut ClientHandle) -> u32 {
    match client.take_client(alloc) {
        None => Outcome::Nothing.code(),
        Some((machine, room)) => client.keep(alloc, room, machine.notice(), 0).code(),
    }
}

/// What the client believes of the lease of a file (MS-SMB2 3.2.1.5, LeaseState): the bits of
/// LeaseState. 0 where the file isn't open, or there is no machine.
pub fn smblease_client_belief(alloc: Global, client: &mut ClientHandle, file: u8) -> u32 {
    match client.take(alloc) {
        None => 0,
        Some(stepping) => {
            let bits = stepping.step.client.belief(FileNo(file)).to_wire();
            client.put(alloc, stepping);
            bits
        }
    }
}

/// The LeaseKey under which the client of a ClientGuid opens a file (3.2.4.3.8), into `key`.
pub fn smblease_client_key(guid: &ClientGuid, file: u8, key: &mut KeyBytes) {
    let found = lease_key(guid.bytes, FileNo(file));
    let bytes = found.0;
    key.bytes = bytes;
}

/// The functions of this module for C.
pub mod exported {
    use super::{ClientGuid, ClientHandle, KeyBytes};

    /// [`super::smblease_client_new`] for C.
    #[unsafe(no_mangle)]
    pub extern "C" fn smblease_client_new(client: &mut ClientHandle, guid: &ClientGuid, files: u8) -> u32 {
        super::smblease_client_new(std::alloc::Global, client, guid, files)
    }

    /// [`super::smblease_client_free`] for C.
    #[unsafe(no_mangle)]
    pub extern "C" fn smblease_client_free(client: &mut ClientHandle) {
        super::smblease_client_free(std::alloc::Global, client)
    }

    /// [`super::smblease_client_connect`] for C.
    #[unsafe(no_mangle)]
    pub extern "C" fn smblease_client_connect(client: &mut ClientHandle) -> u32 {
        super::smblease_client_connect(std::alloc::Global, client)
    }

    /// [`super::smblease_client_notice`] for C.
    #[unsafe(no_mangle)]
    pub extern "C" fn smblease_client_notice(client: &mut ClientHandle) -> u32 {
        super::smblease_client_notice(std::alloc::Global, client)
    }

    /// [`super::smblease_client_belief`] for C.
    #[unsafe(no_mangle)]
    pub extern "C" fn smblease_client_belief(client: &mut ClientHandle, file: u8) -> u32 {
        super::smblease_client_belief(std::alloc::Global, client, file)
    }

    /// [`super::smblease_client_key`] for C.
    #[unsafe(no_mangle)]
    pub extern "C" fn smblease_client_key(guid: &ClientGuid, file: u8, key: &mut KeyBytes) {
        super::smblease_client_key(guid, file, key)
    }
}
