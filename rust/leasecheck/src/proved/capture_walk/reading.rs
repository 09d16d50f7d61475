// Made by tools/plain_rust from crates/capture_walk/src/reading.rt. Changes belong there.

use crate::proved::capture_judge::Level;
use crate::proved::capture_walk::note::{
    BreakNote, CreateAsked, CreateGiven, KeyLevel, LeaseGiven, Note, OpenName, TreeAsked, TreeGiven, TreeName,
};
use smblease::proved::capture_wire::{
    Content, CreateContexts, CreateRequest, CreateResponse, Header, LeaseContext, Message, Request, Response, SetInfoRequest,
    Smb2FileId, TreeOrAsync,
};
use smblease::proved::lease_state::{LeaseKey, LeaseState};

// SMB2_OPLOCK_LEVEL_LEASE
const LEASE_LEVEL: u8 = 255;

// FILE_ATTRIBUTE_DIRECTORY
const DIRECTORY: u32 = 16;

const STATUS_PENDING: u32 = 0x103;

const USER_SESSION_DELETED: u32 = 0xc000_0203;

const NETWORK_NAME_DELETED: u32 = 0xc000_00c9;

const FILE_CLOSED: u32 = 0xc000_0128;

const END_OF_FILE: u32 = 0xc000_0011;

const TREE_CONNECT: u16 = 3;

const READ: u16 = 8;

// Half of the FileId by which a related request names the open of the one before it.
const PREVIOUS: u64 = 0xffff_ffff_ffff_ffff;

/// Which open a request is about.
#[derive(Clone, Copy, Debug, PartialEq, Eq)]
pub enum Named {
    /// None.
    Nothing,
    /// The one that a CREATE of the same compound makes.
    Created,
    Open(Smb2FileId),
    /// A related request has a FileId of its own, and not that of the request before it.
    Unclear,
}

/// What a request goes by, which are the ids of the one before it where it is related (MS-SMB2 3.3.5.2.7.2).
#[derive(Clone, Copy, Debug, PartialEq, Eq)]
pub struct Ids {
    pub session: u64,
    pub tree: TreeOrAsync,
    pub file: Named,
}

fn is_previous(file_id: Smb2FileId) -> bool {
    file_id.persistent == PREVIOUS && file_id.volatile == PREVIOUS
}

fn own_named(content: &Content<'_>) -> Named {
    let Content::Request(request) = content else {
        return Named::Nothing;
    };
    match request {
        Request::Create(_, _) => Named::Created,
        Request::Close(asked) => Named::Open(asked.file_id),
        Request::Read(asked) => Named::Open(asked.file_id),
        Request::Write(asked) => Named::Open(asked.file_id),
        Request::SetInfo(asked) => Named::Open(asked.file_id),
        Request::OnOpen(file_id) => Named::Open(*file_id),
        _ => Named::Nothing,
    }
}

fn alone(own: Named) -> Named {
    match own {
        Named::Open(file_id) if is_previous(file_id) => Named::Nothing,
        other => other,
    }
}

fn agreed(file_id: Smb2FileId, before: Named) -> Named {
    match before {
        Named::Nothing => Named::Open(file_id),
        Named::Open(other) if file_id.persistent == other.persistent && file_id.volatile == other.volatile => {
            Named::Open(file_id)
        }
        _ => Named::Unclear,
    }
}

fn related_named(own: Named, before: Named) -> Named {
    match own {
        Named::Open(file_id) if is_previous(file_id) => before,
        Named::Open(file_id) => agreed(file_id, before),
        Named::Nothing => before,
        other => other,
    }
}

fn ids_by(header: &Header, own: Named, before: Option<Ids>) -> Ids {
    match before {
        Some(before) if header.related => {
            Ids { session: before.session, tree: before.tree, file: related_named(own, before.file) }
        }
        _ => Ids { session: header.session_id, tree: header.tree_or_async, file: alone(own) },
    }
}

/// What a message goes by, after the one before it in its compound.
pub fn ids_of(message: &Message<'_>, before: Option<Ids>) -> Ids {
    ids_by(&message.header, own_named(&message.content), before)
}

/// Whether a CLOSE among the messages after a CREATE in its compound closes what it opens.
pub fn closed_behind(later: &[Message<'_>]) -> bool {
    for message in later {
        if !message.header.related {
            return false;
        }
        match message.content {
            Content::Request(Request::Close(_)) => return true,
            Content::Request(Request::Create(_, _)) => return false,
            _ => {}
        }
    }
    false
}

/// How far a lease of this state can clash with those of others.
pub fn level_of(state: LeaseState) -> Level {
    if state.caches_writes() {
        Level::Writes
    } else if state.caches_reads() || state.caches_handles() {
        Level::Something
    } else {
        Level::Nothing
    }
}

fn changes_names(asked: &SetInfoRequest<'_>) -> bool {
    asked.info_type == 1 && ((asked.class == 10 || asked.class == 11) || (asked.class == 65 || asked.class == 72))
}

fn on_open<'a>(id: u64, ids: Ids) -> Note<'a> {
    match ids.file {
        Named::Open(file_id) => Note::OnOpen(OpenName { id, session: ids.session, file_id }),
        Named::Unclear => Note::Gap,
        _ => Note::Other,
    }
}

fn close<'a>(id: u64, ids: Ids) -> Note<'a> {
    match ids.file {
        Named::Open(file_id) => Note::Close(OpenName { id, session: ids.session, file_id }),
        Named::Unclear => Note::Gap,
        _ => Note::Other,
    }
}

fn leave_tree<'a>(ids: Ids) -> Note<'a> {
    match ids.tree {
        TreeOrAsync::TreeId(tree) => Note::LeaveTree(TreeName { session: ids.session, tree }),
        TreeOrAsync::AsyncId(_) => Note::Gap,
    }
}

fn asked_key(lease: Option<LeaseContext>) -> Option<LeaseKey> {
    Some(lease?.key)
}

fn create_asked<'a>(id: u64, closes: bool, asked: &CreateRequest<'a>, contexts: &CreateContexts, tree: TreeOrAsync) -> Note<'a> {
    match tree {
        TreeOrAsync::TreeId(tree) => Note::CreateAsked(CreateAsked {
            id,
            tree,
            name: asked.name,
            key: asked_key(contexts.lease),
            unnamed: contexts.reconnect || contexts.snapshot,
            closes,
            application: contexts.app_instance,
        }),
        TreeOrAsync::AsyncId(_) => Note::Gap,
    }
}

fn request_note<'a>(header: &Header, request: &Request<'a>, ids: Ids, closes: bool) -> Note<'a> {
    match request {
        Request::Negotiate(asked) => Note::Negotiate(asked.client_guid),
        Request::SessionSetup(asked) if asked.previous_session_id == 0 => Note::Other,
        Request::SessionSetup(asked) => Note::Leave(asked.previous_session_id),
        Request::Logoff => Note::Leave(ids.session),
        Request::TreeConnect(asked) => Note::TreeAsked(TreeAsked { id: header.message_id, path: asked.path }),
        Request::TreeDisconnect => leave_tree(ids),
        Request::Create(asked, contexts) => create_asked(header.message_id, closes, asked, contexts, ids.tree),
        Request::Close(_) => close(header.message_id, ids),
        Request::SetInfo(asked) if changes_names(asked) => Note::RenameAsked(header.message_id),
        Request::SetInfo(_) | Request::Read(_) | Request::Write(_) | Request::OnOpen(_) => on_open(header.message_id, ids),
        Request::Acknowledge(given) => {
            Note::Acknowledge(KeyLevel { id: header.message_id, key: given.key, level: level_of(given.state) })
        }
        Request::Other => Note::Asked(header.message_id),
    }
}

fn lease_found(lease: Option<LeaseContext>) -> Option<LeaseGiven> {
    let lease = lease?;
    Some(LeaseGiven {
        key: lease.key,
        state: lease.state,
        level: level_of(lease.state),
        breaking: lease.breaking,
        epoch: lease.epoch,
    })
}

fn is_folder(attributes: u32) -> bool {
    attributes & DIRECTORY == DIRECTORY
}

fn lease_given(given: &CreateResponse, lease: Option<LeaseContext>) -> Option<LeaseGiven> {
    if given.oplock_level == LEASE_LEVEL && !is_folder(given.attributes) { lease_found(lease) } else { None }
}

fn tree_note<'a>(header: &Header) -> Note<'a> {
    match header.tree_or_async {
        TreeOrAsync::TreeId(tree) => Note::TreeGiven(TreeGiven { id: header.message_id, session: header.session_id, tree }),
        TreeOrAsync::AsyncId(_) => Note::Gap,
    }
}

// Whether the server has no such session, tree connect or open any more.
fn is_gone(status: u32) -> bool {
    status == USER_SESSION_DELETED || status == NETWORK_NAME_DELETED || status == FILE_CLOSED
}

// Whether the server did what the request asks; a READ from the end of a file on gives no bytes.
fn is_done(header: &Header) -> bool {
    header.status == 0 || (header.command == READ && header.status == END_OF_FILE)
}

fn other_note<'a>(header: &Header) -> Note<'a> {
    if header.status == STATUS_PENDING {
        return Note::Other;
    }
    if header.command == TREE_CONNECT && header.status == 0 {
        return tree_note(header);
    }
    if is_done(header) {
        return Note::Done(header.message_id);
    }
    if is_gone(header.status) {
        return Note::Gone(header.message_id);
    }
    Note::Answered(header.message_id)
}

fn response_note<'a>(header: &Header, response: &Response) -> Note<'a> {
    match response {
        Response::Negotiate(_) => Note::Answered(header.message_id),
        Response::Create(given, contexts) => Note::CreateGiven(CreateGiven {
            id: header.message_id,
            session: header.session_id,
            file_id: given.file_id,
            is_new: given.action == 0 || given.action == 2,
            creation_time: given.creation_time,
            on_disk: contexts.on_disk,
            lease: lease_given(given, contexts.lease),
        }),
        Response::Break(notification, new_epoch) => Note::Break(BreakNote {
            key: notification.key,
            state: notification.new,
            level: level_of(notification.new),
            acknowledged: notification.ack_required,
            epoch: *new_epoch,
        }),
        Response::Accepted(_) => Note::Done(header.message_id),
        Response::Other => other_note(header),
    }
}

/// What a message says to the walk, by the ids that it goes by, and whether a CREATE is closed in the same compound.
pub fn note_of<'a>(message: &Message<'a>, ids: Ids, closes: bool) -> Note<'a> {
    match &message.content {
        Content::Request(request) => request_note(&message.header, request, ids, closes),
        Content::Response(response) => response_note(&message.header, response),
    }
}
