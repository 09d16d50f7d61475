//! A capture of clients that open, use and close files of one server under leases which are broken as others open them, for
//! `bench/walk`.
use std::prelude::Vec;

use leasecheck::proved::capture_judge::Level;
use leasecheck::proved::capture_walk::{
    BreakNote, CreateAsked, CreateGiven, Index, KeyLevel, LeaseGiven, Note, OpenName, Seen, TreeAsked, TreeGiven, Walk,
    chains_on,
};
use smblease::proved::capture_wire::{Guid, Smb2FileId};
use smblease::proved::lease_state::{LeaseKey, LeaseState, Memory};
use std::alloc::Global;

// How many requests use an open before others are opened.
const USES: u32 = 4;

// How many opens a client has at a time.
const KEPT: u32 = 10;

#[derive(Clone, Copy)]
struct Traffic {
    clients: u32,
    files: u32,
    opens: u32,
}

// The messages so far.
struct Capture {
    walk: Walk,
    count: u64,
}

impl Capture {
    fn take(&mut self, connection: u32, note: Note<'_>) -> Result<(), Memory> {
        self.count = self.count.wrapping_add(1);
        let position = self.count.wrapping_mul(2);
        self.walk.take(&Seen {
            number: self.count,
            connection: u64::from(connection),
            server: 1,
            earliest: position,
            latest: position,
            note,
        })
    }
}

fn name_of(file: u32) -> [u8; 8] {
    let mut name = *b"f\0f\0\0\0\0\0";
    name[4..].copy_from_slice(&file.to_le_bytes());
    name
}

fn key_of(client: u32, file: u32) -> LeaseKey {
    let mut key = [0; 16];
    key[..4].copy_from_slice(&client.to_le_bytes());
    key[4..8].copy_from_slice(&file.to_le_bytes());
    LeaseKey(key)
}

fn join(capture: &mut Capture, client: u32) -> Result<(), Memory> {
    let mut guid = Guid(*b"guid of a client");
    guid.0[..4].copy_from_slice(&client.to_le_bytes());
    capture.take(client, Note::Negotiate(guid))?;
    let asked = TreeAsked { id: 1, path: b"\\\0s\0" };
    capture.take(client, Note::TreeAsked(asked))?;
    let given = TreeGiven { id: 1, session: u64::from(client), tree: 7 };
    capture.take(client, Note::TreeGiven(given))
}

fn name_of_open(id: u64, client: u32, turn: u32) -> OpenName {
    OpenName { id, session: u64::from(client), file_id: Smb2FileId { persistent: u64::from(turn), volatile: u64::from(client) } }
}

fn ask(capture: &mut Capture, turn: u32, client: u32, file: u32) -> Result<(), Memory> {
    let asked = CreateAsked {
        id: u64::from(turn) + 2,
        tree: 7,
        name: &name_of(file),
        key: Some(key_of(client, file)),
        unnamed: false,
        closes: false,
        application: None,
    };
    capture.take(client, Note::CreateAsked(asked))
}

// The lease of the client that has the file is broken.
fn give_up(capture: &mut Capture, client: u32, file: u32) -> Result<(), Memory> {
    let key = key_of(client, file);
    let breaks = BreakNote { key, state: LeaseState::NONE, level: Level::Nothing, acknowledged: true, epoch: 0 };
    capture.take(client, Note::Break(breaks))?;
    let id = capture.count;
    let keeps = KeyLevel { id, key, level: Level::Nothing };
    capture.take(client, Note::Acknowledge(keeps))?;
    capture.take(client, Note::Done(id))
}

fn grant(capture: &mut Capture, turn: u32, client: u32, file: u32) -> Result<(), Memory> {
    let name = name_of_open(0, client, turn);
    let state = LeaseState::READ_CACHING | LeaseState::WRITE_CACHING;
    let lease = LeaseGiven { key: key_of(client, file), state, level: Level::Writes, breaking: false, epoch: None };
    let given = CreateGiven {
        id: u64::from(turn) + 2,
        session: name.session,
        file_id: name.file_id,
        is_new: false,
        creation_time: 0,
        on_disk: None,
        lease: Some(lease),
    };
    capture.take(client, Note::CreateGiven(given))
}

fn use_open(capture: &mut Capture, turn: u32, client: u32) -> Result<(), Memory> {
    for _use in 0..USES {
        let id = capture.count;
        capture.take(client, Note::OnOpen(name_of_open(id, client, turn)))?;
        capture.take(client, Note::Done(id))?;
    }
    Ok(())
}

fn close(capture: &mut Capture, turn: u32, client: u32) -> Result<(), Memory> {
    let id = capture.count;
    capture.take(client, Note::Close(name_of_open(id, client, turn)))?;
    capture.take(client, Note::Done(id))
}

// A client opens a file and uses it, and closes what it opened before.
fn take_turn(capture: &mut Capture, holders: &mut Vec<u32>, traffic: Traffic, turn: u32) -> Result<(), Memory> {
    let client = turn.checked_rem(traffic.clients).unwrap_or(0).wrapping_add(1);
    let file = turn.wrapping_mul(7).checked_rem(traffic.files).unwrap_or(0);
    ask(capture, turn, client, file)?;
    if let Some(holder) = holders.get_mut(file as usize) {
        if *holder != 0 && *holder != client {
            give_up(capture, *holder, file)?;
        }
        *holder = client;
    }
    grant(capture, turn, client, file)?;
    use_open(capture, turn, client)?;
    let age = traffic.clients.saturating_mul(KEPT);
    if turn < age { Ok(()) } else { close(capture, turn - age, client) }
}

fn capture_of(alloc: Global, traffic: Traffic) -> Result<Capture, Memory> {
    let mut capture = Capture { walk: Walk::new(alloc), count: 0 };
    for client in 0..traffic.clients {
        join(&mut capture, client.wrapping_add(1))?;
    }
    let mut holders: Vec<u32> = Vec::new(alloc);
    for _file in 0..traffic.files {
        holders.push(0)?;
    }
    for turn in 0..traffic.opens {
        take_turn(&mut capture, &mut holders, traffic, turn)?;
    }
    Ok(capture)
}

// How many chains and changes there are of all files.
fn count_changes(alloc: Global, walk: &Walk) -> Result<(u64, u64), Memory> {
    let (mut chains, mut changes) = (0u64, 0u64);
    let index = Index::of(alloc, walk.events())?;
    for file in index.files() {
        for chain in &chains_on(alloc, *file, walk.events(), &index)? {
            chains = chains.wrapping_add(1);
            changes = changes.wrapping_add(chain.changes.len() as u64);
        }
    }
    Ok((chains, changes))
}

fn number_at(words: &[&str], place: usize) -> Option<u32> {
    words.get(place)?.parse::<u32>().ok()
}

fn lose(capture: &mut Capture, clients: u32) -> Result<(), Memory> {
    for client in 0..clients {
        capture.take(client.wrapping_add(1), Note::Gap)?;
    }
    Ok(())
}

/// What a capture has.
pub(crate) struct Extent {
    pub(crate) messages: u64,
    pub(crate) events: u64,
    pub(crate) chains: u64,
    pub(crate) changes: u64,
}

/// How many clients, files and opens there are; a fourth word `walk` leaves the chains out, and `lost` puts a gap at the end
/// of each connection.
pub(crate) fn counts(alloc: Global, words: &[&str]) -> Option<Extent> {
    let traffic = Traffic { clients: number_at(words, 0)?, files: number_at(words, 1)?, opens: number_at(words, 2)? };
    let mut capture = capture_of(alloc, traffic).ok()?;
    let option = words.get(3).copied();
    if option == Some("lost") {
        lose(&mut capture, traffic.clients).ok()?;
    }
    let (chains, changes) = if option == Some("walk") { (0, 0) } else { count_changes(alloc, &capture.walk).ok()? };
    Some(Extent { messages: capture.count, events: capture.walk.events().len() as u64, chains, changes })
}
