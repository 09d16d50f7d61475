// Made by tools/plain_rust from crates/record_words/src/pictures/lanes.rt. Changes belong there.

use crate::proved::record_words::pictures::shape::Point;
use smblease::proved::lease_facts::Fact;
use smblease::proved::lease_state::ClientNo;
use std::alloc::{AllocError, Global};
use std::prelude::Vec;

// All in pixels.
const LEFT: u32 = 60;

const LANE: u32 = 300;

// Of more lanes than these each is narrower, so that eight clients are within 1,600 pixels. Words may reach over the next lanes,
// where nothing else stands in their row.
const WIDE_LANES: usize = 5;

const NARROW_LANE: u32 = 150;

// Room for the words of the last lane, and more beside narrow lanes.
const RIGHT: u32 = 60;

const NARROW_RIGHT: u32 = 190;

// Where in a lane its line runs. Beliefs stand to the left of it, and words to the right; between these and the line are ways.
const LINE: u32 = 90;

const WAY: u32 = 5;

const NEXT_WAY: u32 = 3;

const WORDS: u32 = 16;

/// So many ways have a place of their own beside a line.
pub const WAYS: usize = 3;

const TOP: u32 = 64;

const ROW: u32 = 24;

/// The lanes of a picture, from left to right: one for each client that a fact names, by their numbers, with the server in the
/// middle.
#[derive(Debug)]
pub struct Lanes {
    clients: Vec<ClientNo>,
    // How wide each is.
    lane: u32,
}

// Whether a fact names a client.
fn names(fact: &Fact, client: ClientNo) -> bool {
    match fact.client() {
        Some(named) => named.0 == client.0,
        None => false,
    }
}

fn is_named(facts: &[Fact], client: ClientNo) -> bool {
    facts.iter().any(|fact| names(fact, client))
}

// The clients that these facts name, by their numbers.
fn clients_of(alloc: Global, facts: &[Fact]) -> Result<Vec<ClientNo>, AllocError> {
    let mut clients = Vec::new(alloc);
    for number in 0..256u16 {
        let client = ClientNo(number as u8);
        if is_named(facts, client) {
            clients.push(client)?;
        }
    }
    Ok(clients)
}

// Where a client stands among these.
fn place_of(clients: &[ClientNo], client: ClientNo) -> Option<usize> {
    clients.iter().position(|one| one.0 == client.0)
}

// How wide a lane is beside the server's and those of so many clients.
fn lane_for(clients: usize) -> u32 {
    if clients < WIDE_LANES { LANE } else { NARROW_LANE }
}

// A client that has no lane is told on the first one.
fn first_of(place: Option<usize>) -> usize {
    match place {
        Some(index) => index,
        None => 0,
    }
}

impl Lanes {
    /// The lanes for these facts.
    pub fn of(alloc: Global, facts: &[Fact]) -> Result<Lanes, AllocError> {
        let clients = clients_of(alloc, facts)?;
        let lane = lane_for(clients.len());
        Ok(Lanes { clients, lane })
    }

    pub fn clients(&self) -> &[ClientNo] {
        self.clients.as_slice()
    }

    // How many clients stand to the left of the server.
    fn left(&self) -> usize {
        self.clients.len().div_ceil(2)
    }

    /// The number of the server's lane, from 0.
    pub fn server(&self) -> u16 {
        at(self.left())
    }

    /// The number of a client's lane.
    pub fn client(&self, client: ClientNo) -> u16 {
        let index = first_of(place_of(self.clients.as_slice(), client));
        if index < self.left() { at(index) } else { at(index).saturating_add(1) }
    }

    /// How wide the lanes are with what stands to their left, in pixels.
    pub fn width(&self) -> u32 {
        let right = if self.lane < LANE { NARROW_RIGHT } else { RIGHT };
        LEFT + self.lane.min(LANE) * u32::from(at(self.clients.len()).saturating_add(1)) + right
    }

    /// Where the line of a lane runs, in pixels from the left of the picture.
    pub fn line_of(&self, lane: u16) -> u32 {
        LEFT + self.lane.min(LANE) * u32::from(lane) + LINE
    }

    /// The point in the middle of a row on the line of a lane.
    pub fn spot(&self, lane: u16, row: u16) -> Point {
        Point { x: self.line_of(lane), y: down(row, 12) }
    }

    /// Next to the line of a lane, on the side of another one and before the words that stand there, in pixels from the left. Ways
    /// that go there at once have places of their own.
    pub fn beside(&self, lane: u16, other: u16, place: usize) -> u32 {
        let away = WAY + NEXT_WAY * u32::from(at(place % WAYS));
        if other < lane { self.line_of(lane).saturating_sub(away) } else { self.line_of(lane).saturating_add(away) }
    }

    /// The point on the line of a lane above a row, where no words stand.
    pub fn above(&self, lane: u16, row: u16) -> Point {
        Point { x: self.line_of(lane), y: down(row, 0) }
    }

    /// The point at which a line of text begins that stands to the right of a lane's line.
    pub fn words_at(&self, lane: u16, row: u16) -> Point {
        Point { x: self.line_of(lane).saturating_add(WORDS), y: down(row, 16) }
    }
}

/// The number of a row or a lane that comes at this index; there are fewer than fit.
pub fn at(index: usize) -> u16 {
    u16::try_from(index).unwrap_or(u16::MAX)
}

/// So far from the top of a row, in pixels from the top of the picture.
pub fn down(row: u16, offset: u16) -> u32 {
    TOP + ROW * u32::from(row) + u32::from(offset)
}
