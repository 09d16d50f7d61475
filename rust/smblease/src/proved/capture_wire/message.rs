// Made by tools/plain_rust from crates/capture_wire/src/message.rt. Changes belong there.

use crate::proved::capture_wire::command::Command;
use crate::proved::capture_wire::connecting::{
    NegotiateRequest, NegotiateResponse, SessionSetupRequest, TreeConnectRequest, read_negotiate_request,
    read_negotiate_response, read_session_setup_request, read_tree_connect_request,
};
use crate::proved::capture_wire::contexts::{CreateContexts, read_create_contexts};
use crate::proved::capture_wire::create::{CreateRequest, CreateResponse, read_create_request, read_create_response};
use crate::proved::capture_wire::fault::MessageFault;
use crate::proved::capture_wire::field::{Smb2FileId, file_id_at};
use crate::proved::capture_wire::files::{
    CloseRequest, ReadRequest, WriteRequest, read_close_request, read_read_request, read_write_request,
};
use crate::proved::capture_wire::header::{Header, read_header};
use crate::proved::capture_wire::lease::new_epoch;
use crate::proved::capture_wire::set_info::{SetInfoRequest, read_set_info_request};
use crate::proved::lease_wire::{Acknowledgment, BreakResponse, Direction, HEADER_SIZE, Notification, WireFault};

const NEGOTIATE: u16 = 0;

const CREATE: u16 = 5;

const OPLOCK_BREAK: u16 = 18;

const STATUS_SUCCESS: u32 = 0;

/// The MessageId of a message that answers no request (MS-SMB2 2.2.23).
pub const UNASKED: u64 = 0xffff_ffff_ffff_ffff;

/// A request, as far as leases depend on it.
#[derive(Clone, Copy, Debug, PartialEq, Eq)]
pub enum Request<'a> {
    Negotiate(NegotiateRequest<'a>),
    SessionSetup(SessionSetupRequest),
    Logoff,
    TreeConnect(TreeConnectRequest<'a>),
    TreeDisconnect,
    Create(CreateRequest<'a>, CreateContexts),
    Close(CloseRequest),
    Read(ReadRequest),
    Write(WriteRequest),
    SetInfo(SetInfoRequest<'a>),
    /// An acknowledgment of a lease break.
    Acknowledge(Acknowledgment),
    /// FLUSH, LOCK, IOCTL, QUERY_DIRECTORY, CHANGE_NOTIFY or QUERY_INFO, by the FileId of its open.
    OnOpen(Smb2FileId),
    /// CANCEL, ECHO, an acknowledgment of an oplock break, or a command that isn't known.
    Other,
}

/// A response, as far as leases depend on it.
#[derive(Clone, Copy, Debug, PartialEq, Eq)]
pub enum Response {
    /// Of STATUS_SUCCESS.
    Negotiate(NegotiateResponse),
    /// Of STATUS_SUCCESS.
    Create(CreateResponse, CreateContexts),
    /// A notification of a lease break, which answers no request, with NewEpoch: the epoch of the lease after it, where the lease
    /// is of version 2.
    Break(Notification, u16),
    /// An acknowledgment of a lease break is accepted.
    Accepted(BreakResponse),
    /// Any other: the header has its Status.
    Other,
}

/// What a message says.
#[derive(Clone, Copy, Debug, PartialEq, Eq)]
pub enum Content<'a> {
    Request(Request<'a>),
    Response(Response),
}

/// A message, from the client or the server.
#[derive(Clone, Copy, Debug, PartialEq, Eq)]
pub struct Message<'a> {
    pub header: Header,
    pub content: Content<'a>,
}

/// Why a message can't be read.
#[derive(Clone, Copy, Debug, PartialEq, Eq)]
pub enum Unreadable {
    /// Its header, its fixed part, or a name.
    Message(MessageFault),
    /// The create contexts of a CREATE.
    Contexts(WireFault),
}

impl From<MessageFault> for Unreadable {
    fn from(fault: MessageFault) -> Unreadable {
        Unreadable::Message(fault)
    }
}

impl From<WireFault> for Unreadable {
    fn from(fault: WireFault) -> Unreadable {
        Unreadable::Contexts(fault)
    }
}

// The FileId at a place of a request that has nothing else to read.
fn read_file_id(message: &[u8], place: usize) -> Result<Smb2FileId, MessageFault> {
    if message.len() < place + 16 {
        return Err(MessageFault::Short);
    }
    Ok(file_id_at(message, place))
}

// What is behind the header.
fn body_of(message: &[u8]) -> &[u8] {
    let (_header, body) = message.split_at(HEADER_SIZE);
    body
}

fn read_acknowledgment(message: &[u8]) -> Request<'_> {
    match Acknowledgment::decode(body_of(message)) {
        Ok((acknowledgment, _)) => Request::Acknowledge(acknowledgment),
        Err(_fault) => Request::Other,
    }
}

fn read_request(asked: Command, message: &[u8]) -> Result<Request<'_>, Unreadable> {
    Ok(match asked {
        Command::Negotiate => Request::Negotiate(read_negotiate_request(message)?),
        Command::SessionSetup => Request::SessionSetup(read_session_setup_request(message)?),
        Command::Logoff => Request::Logoff,
        Command::TreeConnect => Request::TreeConnect(read_tree_connect_request(message)?),
        Command::TreeDisconnect => Request::TreeDisconnect,
        Command::Create => Request::Create(read_create_request(message)?, read_create_contexts(Direction::Request, message)?),
        Command::Close => Request::Close(read_close_request(message)?),
        Command::Read => Request::Read(read_read_request(message)?),
        Command::Write => Request::Write(read_write_request(message)?),
        Command::SetInfo => Request::SetInfo(read_set_info_request(message)?),
        Command::OplockBreak => read_acknowledgment(message),
        Command::QueryInfo => Request::OnOpen(read_file_id(message, 88)?),
        Command::Flush | Command::Lock | Command::Ioctl | Command::QueryDirectory | Command::ChangeNotify => {
            Request::OnOpen(read_file_id(message, 72)?)
        }
        Command::Cancel | Command::Echo | Command::Unknown => Request::Other,
    })
}

// Whether the response grants what a request of the command asked for.
fn is_granted(command: u16, header: &Header) -> bool {
    header.command == command && header.status == STATUS_SUCCESS
}

// The notification of a lease break that a message of the server is, if it is one, and its NewEpoch.
fn read_notification(header: &Header, message: &[u8]) -> Option<(Notification, u16)> {
    if header.command != OPLOCK_BREAK || header.message_id != UNASKED {
        return None;
    }
    match Notification::decode(body_of(message)) {
        Ok((notification, _)) => Some((notification, new_epoch(message))),
        Err(_fault) => None,
    }
}

// The response to an acknowledgment of a lease break that a message of the server is, if it is one and accepts it.
fn read_accepted(header: &Header, message: &[u8]) -> Option<BreakResponse> {
    if !is_granted(OPLOCK_BREAK, header) || header.message_id == UNASKED {
        return None;
    }
    match BreakResponse::decode(body_of(message)) {
        Ok((response, _)) => Some(response),
        Err(_fault) => None,
    }
}

fn read_break(header: &Header, message: &[u8]) -> Response {
    if let Some((notification, new_epoch)) = read_notification(header, message) {
        return Response::Break(notification, new_epoch);
    }
    match read_accepted(header, message) {
        Some(response) => Response::Accepted(response),
        None => Response::Other,
    }
}

fn read_response(header: &Header, message: &[u8]) -> Result<Response, Unreadable> {
    if is_granted(NEGOTIATE, header) {
        return Ok(Response::Negotiate(read_negotiate_response(message)?));
    }
    if is_granted(CREATE, header) {
        let response = read_create_response(message)?;
        let contexts = read_create_contexts(Direction::Reply, message)?;
        return Ok(Response::Create(response, contexts));
    }
    Ok(read_break(header, message))
}

fn read_content<'a>(header: &Header, message: &'a [u8]) -> Result<Content<'a>, Unreadable> {
    if header.response {
        Ok(Content::Response(read_response(header, message)?))
    } else {
        Ok(Content::Request(read_request(Command::of(header.command), message)?))
    }
}

/// Reads a whole message of a client or a server, from its header on: `lease_wire::first_message` splits a compound into its
/// messages. What is sent to a server and what it sends differ by SMB2_FLAGS_SERVER_TO_REDIR of the header.
///
/// # Errors
///
/// The fault of the header, or else that of what the command has: a request is refused as its reader refuses it, and so is a
/// response of STATUS_SUCCESS to NEGOTIATE or CREATE; of other responses nothing is read after the header. Requests that only
/// name an open are refused with `Short` where they end within its FileId.
pub fn read_message(bytes: &[u8]) -> Result<Message<'_>, Unreadable> {
    let header = read_header(bytes)?;
    let content = read_content(&header, bytes)?;
    Ok(Message { header, content })
}
