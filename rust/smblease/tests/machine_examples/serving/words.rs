use smblease::proved::lease_state::{
    Access, Bytes, ClientNo, Content, FileId, FileNo, LeaseKey, Patch, Reply, Request, Share, Status,
};
use smblease::proved::share_server::{Out, Server};
use smblease_std::alloc::Global;
use smblease_std::prelude::Vec;
use smblease_std::test::Fail;

pub const KEY: LeaseKey = LeaseKey([0, 1, 2, 3, 4, 5, 6, 7, 8, 9, 10, 11, 12, 13, 14, 15]);

pub const LATER_KEY: LeaseKey = LeaseKey([15, 14, 13, 12, 11, 10, 9, 8, 7, 6, 5, 4, 3, 2, 1, 0]);

// State bits.
pub const R: u8 = 1;

pub const RH: u8 = 3;

pub const RWH: u8 = 7;

// An RqLs context that stands alone, under a key of zeros.
const LEASE_CONTEXT: [u8; 56] = *b"\0\0\0\0\x10\0\x04\0\0\0\x18\0\x20\0\0\0RqLs\0\0\0\0\
\0\0\0\0\0\0\0\0\0\0\0\0\0\0\0\0\0\0\0\0\0\0\0\0\0\0\0\0\0\0\0\0";

// The same, followed by DHnQ as it is asked, DHnC, and DHnQ as it is given.
const DURABLE_ASK: [u8; 96] = *b"\x38\0\0\0\x10\0\x04\0\0\0\x18\0\x20\0\0\0RqLs\0\0\0\0\
\0\0\0\0\0\0\0\0\0\0\0\0\0\0\0\0\0\0\0\0\0\0\0\0\0\0\0\0\0\0\0\0\
\0\0\0\0\x10\0\x04\0\0\0\x18\0\x10\0\0\0DHnQ\0\0\0\0\0\0\0\0\0\0\0\0\0\0\0\0\0\0\0\0";

const RECONNECT_ASK: [u8; 96] = *b"\x38\0\0\0\x10\0\x04\0\0\0\x18\0\x20\0\0\0RqLs\0\0\0\0\
\0\0\0\0\0\0\0\0\0\0\0\0\0\0\0\0\0\0\0\0\0\0\0\0\0\0\0\0\0\0\0\0\
\0\0\0\0\x10\0\x04\0\0\0\x18\0\x10\0\0\0DHnC\0\0\0\0\0\0\0\0\0\0\0\0\0\0\0\0\0\0\0\0";

const DURABLE_ANSWER: [u8; 88] = *b"\x38\0\0\0\x10\0\x04\0\0\0\x18\0\x20\0\0\0RqLs\0\0\0\0\
\0\0\0\0\0\0\0\0\0\0\0\0\0\0\0\0\0\0\0\0\0\0\0\0\0\0\0\0\0\0\0\0\
\0\0\0\0\x10\0\x04\0\0\0\x18\0\x08\0\0\0DHnQ\0\0\0\0\0\0\0\0\0\0\0\0";

// The contexts of a create that asks for these state bits, and those of the reply that gives them.
fn leased(key: LeaseKey, bits: [u8; 4]) -> [u8; 56] {
    let mut text = LEASE_CONTEXT;
    text[24..40].copy_from_slice(&key.0);
    text[40..44].copy_from_slice(&bits);
    text
}

fn durable_ask(key: LeaseKey, state: u8) -> [u8; 96] {
    let mut text = DURABLE_ASK;
    text[24..40].copy_from_slice(&key.0);
    text[40] = state;
    text
}

fn reconnect_ask(key: LeaseKey, fid: u8) -> [u8; 96] {
    let mut text = RECONNECT_ASK;
    text[24..40].copy_from_slice(&key.0);
    text[80] = fid;
    text
}

fn durable_answer(key: LeaseKey, state: u8, flags: u8) -> [u8; 88] {
    let mut text = DURABLE_ANSWER;
    text[24..40].copy_from_slice(&key.0);
    text[40] = state;
    text[44] = flags;
    text
}

// A break notification.
fn notice(key: LeaseKey, ack_required: u8, current: u8, lowered: u8) -> [u8; 44] {
    let mut message = [0; 44];
    message[0] = 0x2c;
    message[4] = ack_required;
    message[8..24].copy_from_slice(&key.0);
    message[24] = current;
    message[28] = lowered;
    message
}

// An acknowledgment, and its response.
fn acknowledgment(key: LeaseKey, state: u8) -> [u8; 36] {
    let mut message = [0; 36];
    message[0] = 0x24;
    message[8..24].copy_from_slice(&key.0);
    message[24] = state;
    message
}

/// The create contexts of a request or of a reply.
#[derive(Clone, Copy, Debug)]
pub enum Text {
    Nothing,
    Leased(LeaseKey, u8),
    DurableAsk(LeaseKey, u8),
    Reconnect(LeaseKey, u8),
    /// With the flags of the lease.
    DurableAnswer(LeaseKey, u8, u8),
    /// The state bits of a request, as they are.
    Bits(LeaseKey, [u8; 4]),
}

/// What a client asks.
#[derive(Clone, Copy, Debug)]
pub enum Ask {
    /// A create for reading and writing that shares both.
    Open(u8, Text),
    Create(u8, Access, Share, Text),
    Read(u64),
    /// FileId, number, offset, bytes.
    Write(u64, u64, u32, &'static [u8]),
    Close(u64),
    Ack(LeaseKey, u8),
    /// An acknowledgment of no bytes but zeros.
    NoAck,
}

/// What is given out; first comes the client of a reply, and before it in Opened and Changed the file.
#[derive(Clone, Copy, Debug)]
pub enum Told {
    Opened(u8, u8),
    Created(u8, u8, u64, Text),
    CreateFailed(u8, u8, Status),
    /// A break that asks for an acknowledgment: from this state to that.
    Broken(u8, LeaseKey, u8, u8),
    /// A break to nothing that asks for none.
    Taken(u8, LeaseKey, u8),
    AckDone(u8, LeaseKey, u8),
    AckFailed(u8, Status),
    Changed(u8, u8, u64, u32, &'static [u8]),
    WriteDone(u8, u64, u64),
    WriteFailed(u8, u64, u64, Status),
    ReadDone(u8, u64, &'static [u8]),
    ReadFailed(u8, u64, Status),
    Closed(u8, u64),
    CloseFailed(u8, u64, Status),
}

fn text_bytes(alloc: Global, text: Text) -> Result<Bytes, Fail> {
    let bytes = match text {
        Text::Nothing => Vec::new(alloc),
        Text::Leased(key, state) => Vec::from_slice(alloc, &leased(key, [state, 0, 0, 0]))?,
        Text::DurableAsk(key, state) => Vec::from_slice(alloc, &durable_ask(key, state))?,
        Text::Reconnect(key, fid) => Vec::from_slice(alloc, &reconnect_ask(key, fid))?,
        Text::DurableAnswer(key, state, flags) => Vec::from_slice(alloc, &durable_answer(key, state, flags))?,
        Text::Bits(key, bits) => Vec::from_slice(alloc, &leased(key, bits))?,
    };
    Ok(Bytes::new(bytes))
}

fn patch(alloc: Global, offset: u32, bytes: &[u8]) -> Result<Patch, Fail> {
    let bytes = Bytes::new(Vec::from_slice(alloc, bytes)?);
    Ok(Patch { offset, bytes })
}

fn create(alloc: Global, file: u8, access: Access, share: Share, text: Text) -> Result<Request, Fail> {
    Ok(Request::Create { file: FileNo(file), access, share, contexts: text_bytes(alloc, text)? })
}

fn request(alloc: Global, ask: Ask) -> Result<Request, Fail> {
    Ok(match ask {
        Ask::Open(file, text) => create(alloc, file, Access::ReadWrite, Share::ReadWrite, text)?,
        Ask::Create(file, access, share, text) => create(alloc, file, access, share, text)?,
        Ask::Read(fid) => Request::Read { fid: FileId(fid) },
        Ask::Write(fid, number, offset, bytes) => {
            Request::Write { fid: FileId(fid), number, patch: patch(alloc, offset, bytes)? }
        }
        Ask::Close(fid) => Request::Close { fid: FileId(fid) },
        Ask::Ack(key, state) => Request::Ack(acknowledgment(key, state)),
        Ask::NoAck => Request::Ack([0; 36]),
    })
}

fn reply(alloc: Global, told: Told) -> Result<Reply, Fail> {
    Ok(match told {
        Told::Opened(..) | Told::Changed(..) => return Err(Fail::from("no reply")),
        Told::Created(_, file, fid, text) => {
            Reply::Created { file: FileNo(file), fid: FileId(fid), contexts: text_bytes(alloc, text)? }
        }
        Told::CreateFailed(_, file, status) => Reply::CreateFailed { file: FileNo(file), status },
        Told::Broken(_, key, current, lowered) => Reply::Break(notice(key, 1, current, lowered)),
        Told::Taken(_, key, current) => Reply::Break(notice(key, 0, current, 0)),
        Told::AckDone(_, key, state) => Reply::AckDone(acknowledgment(key, state)),
        Told::AckFailed(_, status) => Reply::AckFailed { status },
        Told::WriteDone(_, fid, number) => Reply::WriteDone { fid: FileId(fid), number },
        Told::WriteFailed(_, fid, number, status) => Reply::WriteFailed { fid: FileId(fid), number, status },
        Told::ReadDone(_, fid, bytes) => Reply::ReadDone { fid: FileId(fid), bytes: Bytes::new(Vec::from_slice(alloc, bytes)?) },
        Told::ReadFailed(_, fid, status) => Reply::ReadFailed { fid: FileId(fid), status },
        Told::Closed(_, fid) => Reply::Closed { fid: FileId(fid) },
        Told::CloseFailed(_, fid, status) => Reply::CloseFailed { fid: FileId(fid), status },
    })
}

fn client_of(told: Told) -> ClientNo {
    ClientNo(match told {
        Told::Opened(_, client) | Told::Changed(_, client, ..) => client,
        Told::Created(client, ..)
        | Told::CreateFailed(client, ..)
        | Told::Broken(client, ..)
        | Told::Taken(client, ..)
        | Told::AckDone(client, ..)
        | Told::AckFailed(client, _)
        | Told::WriteDone(client, ..)
        | Told::WriteFailed(client, ..)
        | Told::ReadDone(client, ..)
        | Told::ReadFailed(client, ..)
        | Told::Closed(client, _)
        | Told::CloseFailed(client, ..) => client,
    })
}

fn out(alloc: Global, told: Told) -> Result<Out, Fail> {
    let client = client_of(told);
    Ok(match told {
        Told::Opened(file, _) => Out::Opened(FileNo(file), client),
        Told::Changed(file, _, number, offset, bytes) => Out::Changed(FileNo(file), client, number, patch(alloc, offset, bytes)?),
        _ => Out::Sent(client, reply(alloc, told)?),
    })
}

/// Sees that this was given out, and nothing else.
pub fn expect_outs(alloc: Global, outs: &[Out], wanted: &[Told]) -> Result<(), Fail> {
    assert_eq!(outs.len(), wanted.len());
    for (given, told) in outs.iter().zip(wanted) {
        let right = out(alloc, *told)?;
        assert!(*given == right, "{given:?} in place of {right:?}");
    }
    Ok(())
}

/// Two files: the first holds `abc`, the second nothing.
pub fn two_files(alloc: Global) -> Result<Server, Fail> {
    let mut files = Vec::new(alloc);
    files.push(Content::new(Vec::from_slice(alloc, b"abc")?)?)?;
    files.push(Content::new(Vec::new(alloc))?)?;
    Ok(Server::new(alloc, files)?)
}

/// The same, with three clients.
pub fn three_joined(alloc: Global) -> Result<Server, Fail> {
    let (server, _) = two_files(alloc)?.join(ClientNo(1))?;
    let (server, _) = server.join(ClientNo(2))?;
    let (server, _) = server.join(ClientNo(3))?;
    Ok(server)
}

/// The server after the request, which is to give this out.
pub fn after(alloc: Global, server: Server, client: u8, ask: Ask, wanted: &[Told]) -> Result<Server, Fail> {
    let (server, outs) = server.receive(ClientNo(client), request(alloc, ask)?)?;
    expect_outs(alloc, outs.as_slice(), wanted)?;
    Ok(server)
}
