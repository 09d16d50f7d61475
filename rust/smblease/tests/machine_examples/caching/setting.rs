//! What the tests have in common: a client with this ClientGuid and one file, whose opens get
//! FileIds from 1 on, and the bytes of replies.

use smblease::proved::lease_client::{Answer, Client, Command, Note, Refusal, SharedBytes, Step};
use smblease::proved::lease_state::{Access, Bytes, FileId, FileNo, LeaseState, Patch, Reply, Request, Share, Status};
use smblease_std::alloc::Global;
use smblease_std::prelude::Vec;
use smblease_std::test::Fail;

pub const GUID: [u8; 16] = [0x11; 16];

pub const FILE: FileNo = FileNo(1);

// The key of file 1.
pub const KEY: [u8; 16] = [0x11, 0x11, 0x11, 0x11, 0x11, 0x11, 0x11, 0x11, 0x11, 0x11, 0x11, 0x11, 1, 0, 0, 0];

pub fn bytes(alloc: Global, items: &[u8]) -> Result<Bytes, Fail> {
    Ok(Bytes::new(Vec::from_slice(alloc, items)?))
}

pub fn cached_read(alloc: Global, seen: &[u8]) -> Result<Note, Fail> {
    Ok(Note::CachedRead(FILE, SharedBytes::new(bytes(alloc, seen)?)?))
}

pub fn open(file: u8, access: Access, share: Share, want: u32, durable: bool) -> Command {
    Command::Open { file: FileNo(file), access, share, want: LeaseState::from_wire(want), durable }
}

// Read and write, shared with all.
pub fn open_all(want: u32, durable: bool) -> Command {
    open(1, Access::ReadWrite, Share::ReadWrite, want, durable)
}

pub fn patch(alloc: Global, offset: u32, items: &[u8]) -> Result<Patch, Fail> {
    Ok(Patch { offset, bytes: bytes(alloc, items)? })
}

pub fn write(alloc: Global, offset: u32, items: &[u8]) -> Result<Command, Fail> {
    Ok(Command::Write { file: FILE, patch: patch(alloc, offset, items)? })
}

pub fn write_request(alloc: Global, fid: u64, number: u64, offset: u32, items: &[u8]) -> Result<Request, Fail> {
    Ok(Request::Write { fid: FileId(fid), number, patch: patch(alloc, offset, items)? })
}

// The RqLs context that stands last: a state, and flags.
fn push_lease(text: &mut Vec<u8>, next: u8, state: u8, flags: u8) -> Result<(), Fail> {
    text.extend_from_slice(&[next, 0, 0, 0, 16, 0, 4, 0, 0, 0, 24, 0, 32, 0, 0, 0])?;
    text.extend_from_slice(b"RqLs\0\0\0\0")?;
    text.extend_from_slice(&KEY)?;
    text.extend_from_slice(&[state, 0, 0, 0, flags, 0, 0, 0, 0, 0, 0, 0, 0, 0, 0, 0])?;
    Ok(())
}

// The contexts of a create: RqLs with this state.
pub fn asked(alloc: Global, state: u8) -> Result<Bytes, Fail> {
    let mut text = Vec::new(alloc);
    push_lease(&mut text, 0, state, 0)?;
    Ok(Bytes::new(text))
}

// RqLs with this state, and DHnQ.
pub fn asked_durable(alloc: Global, state: u8) -> Result<Bytes, Fail> {
    let mut text = Vec::new(alloc);
    push_lease(&mut text, 56, state, 0)?;
    text.extend_from_slice(&[0, 0, 0, 0, 16, 0, 4, 0, 0, 0, 24, 0, 16, 0, 0, 0])?;
    text.extend_from_slice(b"DHnQ\0\0\0\0")?;
    text.extend_from_slice(&[0; 16])?;
    Ok(Bytes::new(text))
}

// RqLs without a state, and DHnC of a FileId.
pub fn asked_again(alloc: Global, fid: u8) -> Result<Bytes, Fail> {
    let mut text = Vec::new(alloc);
    push_lease(&mut text, 56, 0, 0)?;
    text.extend_from_slice(&[0, 0, 0, 0, 16, 0, 4, 0, 0, 0, 24, 0, 16, 0, 0, 0])?;
    text.extend_from_slice(b"DHnC\0\0\0\0")?;
    text.extend_from_slice(&[fid, 0, 0, 0, 0, 0, 0, 0, fid, 0, 0, 0, 0, 0, 0, 0])?;
    Ok(Bytes::new(text))
}

pub fn create(access: Access, share: Share, contexts: Bytes) -> Request {
    Request::Create { file: FILE, access, share, contexts }
}

pub fn created(alloc: Global, fid: u64, state: u8) -> Result<Reply, Fail> {
    Ok(Reply::Created { file: FILE, fid: FileId(fid), contexts: asked(alloc, state)? })
}

// The same with BREAK_IN_PROGRESS.
pub fn created_in_break(alloc: Global, fid: u64, state: u8) -> Result<Reply, Fail> {
    let mut text = Vec::new(alloc);
    push_lease(&mut text, 0, state, 2)?;
    Ok(Reply::Created { file: FILE, fid: FileId(fid), contexts: Bytes::new(text) })
}

pub fn created_durable(alloc: Global, fid: u64, state: u8) -> Result<Reply, Fail> {
    let mut text = Vec::new(alloc);
    push_lease(&mut text, 56, state, 0)?;
    text.extend_from_slice(&[0, 0, 0, 0, 16, 0, 4, 0, 0, 0, 24, 0, 8, 0, 0, 0])?;
    text.extend_from_slice(b"DHnQ\0\0\0\0")?;
    text.extend_from_slice(&[0; 8])?;
    Ok(Reply::Created { file: FILE, fid: FileId(fid), contexts: Bytes::new(text) })
}

pub fn create_failed(status: Status) -> Reply {
    Reply::CreateFailed { file: FILE, status }
}

pub fn read_done(alloc: Global, fid: u64, items: &[u8]) -> Result<Reply, Fail> {
    Ok(Reply::ReadDone { fid: FileId(fid), bytes: bytes(alloc, items)? })
}

pub fn write_done(fid: u64, number: u64) -> Reply {
    Reply::WriteDone { fid: FileId(fid), number }
}

pub fn write_failed(fid: u64, number: u64, status: Status) -> Reply {
    Reply::WriteFailed { fid: FileId(fid), number, status }
}

// A notification that file 1's lease goes from one state to another.
pub fn break_to(old: u8, new: u8, flags: u8) -> Reply {
    let mut text = [0; 44];
    text[0] = 0x2c;
    text[4] = flags;
    text[8..24].copy_from_slice(&KEY);
    text[24] = old;
    text[28] = new;
    Reply::Break(text)
}

pub fn ack(state: u8) -> Request {
    let mut text = [0; 36];
    text[0] = 0x24;
    text[8..24].copy_from_slice(&KEY);
    text[24] = state;
    Request::Ack(text)
}

pub fn believes(state: u32) -> Note {
    Note::Believes(FILE, LeaseState::from_wire(state))
}

// What a step is to be.
pub struct Expected {
    answer: Answer,
    requests: Vec<Request>,
    notes: Vec<Note>,
}

pub fn answers(alloc: Global, answer: Answer) -> Expected {
    Expected { answer, requests: Vec::new(alloc), notes: Vec::new(alloc) }
}

impl Expected {
    pub fn sends(self, request: Request) -> Result<Expected, Fail> {
        let mut expected = self;
        expected.requests.push(request)?;
        Ok(expected)
    }

    pub fn notes(self, note: Note) -> Result<Expected, Fail> {
        let mut expected = self;
        expected.notes.push(note)?;
        Ok(expected)
    }

    // The client after a command, of which the step has to be as expected.
    pub fn app(self, client: Client, command: Command) -> Result<Client, Fail> {
        self.of(client.app(command)?)
    }

    // The client after a message of the server.
    pub fn take(self, client: Client, reply: Reply) -> Result<Client, Fail> {
        self.of(client.take(reply)?)
    }

    pub fn notice(self, client: Client) -> Result<Client, Fail> {
        self.of(client.notice()?)
    }

    pub fn connect(self, client: Client) -> Result<Client, Fail> {
        self.of(client.connect()?)
    }

    fn of(self, step: Step) -> Result<Client, Fail> {
        let Step { client, answer, requests, notes } = step;
        if answer == self.answer && requests == self.requests && notes == self.notes {
            Ok(client)
        } else {
            Err(Fail::new("another step"))
        }
    }
}

pub fn connected(alloc: Global) -> Result<Client, Fail> {
    let client = Client::new(alloc, GUID, 1)?;
    let step = client.connect()?;
    Ok(step.client)
}

// File 1 is open under FileId 1, for reads and writes, shared with all.
pub fn opened(alloc: Global, state: u8) -> Result<Client, Fail> {
    let step = connected(alloc)?.app(open_all(7, false))?;
    let step = step.client.take(created(alloc, 1, state)?)?;
    Ok(step.client)
}

pub fn opened_durable(alloc: Global, state: u8) -> Result<Client, Fail> {
    let step = connected(alloc)?.app(open_all(7, true))?;
    let step = step.client.take(created_durable(alloc, 1, state)?)?;
    Ok(step.client)
}

// The same with this access.
pub fn opened_as(alloc: Global, access: Access, state: u8) -> Result<Client, Fail> {
    let first = open(1, access, Share::ReadWrite, 7, false);
    told(after(connected(alloc)?, first)?, created(alloc, 1, state)?)
}

pub fn read() -> Command {
    Command::Read { file: FILE }
}

pub fn read_request(fid: u64) -> Request {
    Request::Read { fid: FileId(fid) }
}

// The client after a command that it has to refuse so, sending and noting nothing.
pub fn refuses(client: Client, command: Command, refusal: Refusal) -> Result<Client, Fail> {
    let step = client.app(command)?;
    let alloc = *step.requests.allocator();
    answers(alloc, Answer::Refused(refusal)).of(step)
}

// The client after a command.
pub fn after(client: Client, command: Command) -> Result<Client, Fail> {
    let step = client.app(command)?;
    Ok(step.client)
}

// The client after a reply.
pub fn told(client: Client, reply: Reply) -> Result<Client, Fail> {
    let step = client.take(reply)?;
    Ok(step.client)
}
