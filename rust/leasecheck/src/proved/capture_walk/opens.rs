// Made by tools/plain_rust from crates/capture_walk/src/opens.rt. Changes belong there.

use crate::proved::capture_walk::clients::Clients;
use crate::proved::capture_walk::creates::{Create, Creates};
use crate::proved::capture_walk::event::Lease;
use crate::proved::capture_walk::files::{Files, Identity, Naming, Place};
use crate::proved::capture_walk::note::{CreateGiven, LeaseGiven, Note, Seen};
use crate::proved::capture_walk::trees::Trees;
use smblease::proved::capture_wire::{Guid, Smb2FileId};
use smblease::proved::lease_state::{LeaseKey, Memory};

/// An open of a file.
#[derive(Clone, Copy, Debug)]
pub(crate) struct Open {
    pub(crate) server: u64,
    // Where the response to its CREATE was sent.
    pub(crate) connection: u64,
    pub(crate) client: Option<u64>,
    pub(crate) session: u64,
    pub(crate) tree: u32,
    pub(crate) file_id: Smb2FileId,
    // The number of that message.
    pub(crate) number: u64,
    // Where the capture has its request.
    pub(crate) asked: u64,
    pub(crate) file: u64,
    // AppInstanceId
    pub(crate) application: Option<Guid>,
    pub(crate) lease: Option<Lease>,
}

/// Whether a lease is that of a client under a key.
pub(crate) fn is_under(lease: Option<Lease>, client: u64, key: LeaseKey) -> bool {
    match lease {
        Some(lease) => lease.client == client && lease.key.0.as_slice() == key.0.as_slice(),
        None => false,
    }
}

fn is_application(one: Option<Guid>, other: Option<Guid>) -> bool {
    match (one, other) {
        (Some(one), Some(other)) => one.0.as_slice() == other.0.as_slice(),
        _ => false,
    }
}

fn is_other_client(one: Option<u64>, other: Option<u64>) -> bool {
    match (one, other) {
        (Some(one), Some(other)) => one != other,
        _ => false,
    }
}

impl Open {
    /// Whether a session names it by the FileId.
    pub(crate) fn is_named(&self, server: u64, session: u64, file_id: Smb2FileId) -> bool {
        self.server == server
            && self.session == session
            && (self.file_id.persistent == file_id.persistent && self.file_id.volatile == file_id.volatile)
    }

    fn is_ended(&self, seen: &Seen<'_>) -> bool {
        match seen.note {
            Note::Close(name) => self.is_named(seen.server, name.session, name.file_id),
            Note::CreateGiven(given) => self.server == seen.server && self.file_id.persistent == given.file_id.persistent,
            Note::Leave(session) => self.session == session,
            Note::LeaveTree(name) => self.server == seen.server && self.session == name.session && self.tree == name.tree,
            Note::End => self.connection == seen.connection,
            _ => false,
        }
    }

    // Whether an application takes it over.
    fn is_taken_over(&self, made: Option<Open>) -> bool {
        let Some(made) = made else {
            return false;
        };
        self.file == made.file && is_application(self.application, made.application) && is_other_client(self.client, made.client)
    }

    /// Whether a message ends it, by the open that it makes.
    pub(crate) fn ends(&self, seen: &Seen<'_>, made: Option<Open>) -> bool {
        self.is_ended(seen) || self.is_taken_over(made)
    }
}

/// Whether a message may end opens, by the open that it makes.
pub(crate) fn may_end(seen: &Seen<'_>, made: Option<Open>) -> bool {
    made.is_some() || matches!(seen.note, Note::Close(_) | Note::CreateGiven(_) | Note::Leave(_) | Note::LeaveTree(_) | Note::End)
}

// The key under which a CREATE response grants a lease, where it is the one that was asked for.
fn key_granted(given: Option<LeaseGiven>, asked: Option<LeaseKey>) -> Option<LeaseKey> {
    let (given, asked) = (given?, asked?);
    if given.key.0.as_slice() == asked.0.as_slice() { Some(given.key) } else { None }
}

// The file of the lease that a client holds at a server under a key.
fn file_under(opens: &[Open], server: u64, client: Option<u64>, key: Option<LeaseKey>) -> Option<u64> {
    let (client, key) = (client?, key?);
    for one in opens {
        if one.server == server && is_under(one.lease, client, key) {
            return Some(one.file);
        }
    }
    None
}

fn lease_of(key: Option<LeaseKey>, client: Option<u64>, file: u64) -> Option<Lease> {
    let (key, client) = (key?, client?);
    Some(Lease { client, key, file })
}

fn open_of(seen: &Seen<'_>, given: CreateGiven, create: &Create, client: Option<u64>, file: u64) -> Open {
    Open {
        server: seen.server,
        connection: seen.connection,
        client,
        session: given.session,
        tree: create.tree,
        file_id: given.file_id,
        number: seen.number,
        asked: create.position,
        file,
        application: create.application,
        lease: lease_of(key_granted(given.lease, create.key), client, file),
    }
}

/// The place that a CREATE names, by its request and the response to it.
pub(crate) fn place_of<'a>(seen: &Seen<'_>, given: CreateGiven, create: &'a Create, trees: &'a Trees) -> Option<Place<'a>> {
    let path = trees.path_of(seen.server, given.session, create.tree)?;
    if create.unnamed || (create.remade && !given.is_new) {
        return None;
    }
    Some(Place { server: seen.server, path, name: create.name.as_slice(), creation_time: given.creation_time })
}

fn identity_of(seen: &Seen<'_>, given: CreateGiven) -> Option<Identity> {
    let one = given.on_disk?;
    Some(Identity { server: seen.server, file: one.file, volume: one.volume, creation_time: given.creation_time })
}

// What the file of a CREATE response is known by.
fn naming_of<'a>(
    seen: &Seen<'_>,
    given: CreateGiven,
    create: &'a Create,
    trees: &'a Trees,
    under: Option<u64>,
) -> Option<Naming<'a>> {
    if create.unnamed || trees.path_of(seen.server, given.session, create.tree).is_none() {
        return None;
    }
    Some(Naming { place: place_of(seen, given, create, trees), identity: identity_of(seen, given), under })
}

/// What a CREATE response opens. The file that it opens becomes known.
pub(crate) fn open_given(
    clients: &Clients,
    trees: &Trees,
    creates: &Creates,
    held: &[Open],
    files: &mut Files,
    seen: &Seen<'_>,
    given: CreateGiven,
) -> Result<Option<Open>, Memory> {
    let Some(create) = creates.pending(seen.connection, given.id) else {
        return Ok(None);
    };
    let client = clients.of(seen.connection);
    let under = file_under(held, seen.server, client, key_granted(given.lease, create.key));
    let Some(naming) = naming_of(seen, given, create, trees, under) else {
        return Ok(None);
    };
    let Some(file) = files.open(naming, given.is_new, seen.number)? else {
        return Ok(None);
    };
    if create.closes {
        return Ok(None);
    }
    Ok(Some(open_of(seen, given, create, client, file)))
}
