// Made by tools/plain_rust from crates/record_words/src/pictures/requests.rt. Changes belong there.

use std::prelude::{String, Vec};

use crate::proved::lease_texts::push_request;
use crate::proved::record_words::pictures::labels::request_label;
use crate::proved::record_words::pictures::lanes::{Lanes, WAYS, at};
use crate::proved::record_words::pictures::picture::RequestMark;
use crate::proved::record_words::pictures::shape::{Look, Point, Shape};
use smblease::proved::lease_facts::Passage;
use smblease::proved::lease_state::{ClientNo, Memory, Request};
use std::alloc::{AllocError, Global};

// Where a request that was sent comes to an end.
#[derive(Clone, Copy, Debug)]
enum End {
    // It is still on its way.
    OnItsWay,
    // The server takes it above this row.
    Taken(u16),
    // It is lost above this row.
    Lost(u16),
}

// A request that is on its way: whose it is, and its place among all, from 0.
#[derive(Clone, Copy, Debug)]
struct Waiting {
    client: ClientNo,
    place: usize,
}

// What is known of the way of a request: where it ends, and which place it has beside its client's line.
#[derive(Clone, Copy, Debug)]
struct Journey {
    end: End,
    way: usize,
}

// The requests of a picture, by their places from 0, and which of them are on their way.
#[derive(Debug)]
struct Journeys {
    all: Vec<Journey>,
    waiting: Vec<Waiting>,
}

impl Journeys {
    fn of(alloc: Global, passages: &[Passage]) -> Result<Journeys, Memory> {
        let mut journeys = Journeys { all: Vec::new(alloc), waiting: Vec::new(alloc) };
        for passage in passages {
            journeys.note(passage)?;
        }
        Ok(journeys)
    }

    fn note(&mut self, passage: &Passage) -> Result<(), Memory> {
        match passage {
            Passage::Sent { client, .. } => self.begin(*client)?,
            Passage::Taken { client, facts } => {
                let row = self.row(*facts);
                self.end_first(*client, End::Taken(row));
            }
            Passage::Lost { client, facts } => {
                let row = self.row(*facts);
                self.end_all(*client, End::Lost(row));
            }
        }
        Ok(())
    }

    fn begin(&mut self, client: ClientNo) -> Result<(), Memory> {
        let place = self.all.len();
        let way = self.free_way(client);
        self.waiting.push(Waiting { client, place })?;
        let end = End::OnItsWay;
        self.all.push(Journey { end, way })?;
        Ok(())
    }

    // Whether a request of a client that is on its way has this place beside the client's line.
    fn has_way(&self, client: ClientNo, way: usize) -> bool {
        self.waiting.iter().any(|one| one.client == client && self.way_of(one.place) == way)
    }

    // The first place that no such request has, or the last one of all.
    fn free_way(&self, client: ClientNo) -> usize {
        for way in 0..WAYS {
            if !self.has_way(client, way) {
                return way;
            }
        }
        WAYS - 1
    }

    // The row below so many facts and the requests that were sent.
    fn row(&self, facts: usize) -> u16 {
        at(facts.saturating_add(self.all.len()))
    }

    fn end(&mut self, place: usize, end: End) {
        if let Some(there) = self.all.get_mut(place) {
            there.end = end;
        }
    }

    // The oldest request of a client comes to an end.
    fn end_first(&mut self, client: ClientNo, end: End) {
        let found = self.waiting.iter().position(|one| one.client == client);
        if let Some(index) = found {
            let ended = self.waiting.remove(index);
            self.end(ended.place, end);
        }
    }

    // All requests of a client come to an end.
    fn end_all(&mut self, client: ClientNo, end: End) {
        for index in 0..self.waiting.len() {
            if let Some(one) = self.waiting.get(index).copied()
                && one.client == client
            {
                self.end(one.place, end);
            }
        }
        self.waiting.retain(|one| one.client != client);
    }

    // Where the request at this place ends.
    fn end_of(&self, place: usize) -> End {
        match self.all.get(place) {
            Some(one) => one.end,
            None => End::OnItsWay,
        }
    }

    // Which place it has beside its client's line.
    fn way_of(&self, place: usize) -> usize {
        match self.all.get(place) {
            Some(one) => one.way,
            None => 0,
        }
    }
}

// The way of a request, where no words stand: along the client's line down to where it ends, and to the server's line where it
// is taken.
fn push_way(shapes: &mut Vec<Shape>, lanes: &Lanes, lane: u16, row: u16, way: usize, end: (u16, bool)) -> Result<(), Memory> {
    let (last, is_taken) = end;
    let x = lanes.beside(lane, lanes.server(), way);
    let to = lanes.above(lanes.server(), last);
    let turn = Point { x, y: to.y };
    shapes.push(Shape::Line { from: Point { x, y: lanes.spot(lane, row).y }, to: turn, look: Look::Way })?;
    if is_taken {
        shapes.push(Shape::Line { from: turn, to, look: Look::Message })?;
    }
    Ok(())
}

// What is drawn of the requests of a picture.
#[derive(Clone, Copy)]
struct Sheet<'a> {
    lanes: &'a Lanes,
    journeys: &'a Journeys,
    // How many rows there are.
    rows: u16,
}

impl<'a> Sheet<'a> {
    fn shapes(
        &self,
        alloc: Global,
        place: usize,
        client: ClientNo,
        request: &Request,
        facts: usize,
    ) -> Result<Vec<Shape>, Memory> {
        let (lane, row) = (self.lanes.client(client), at(facts.saturating_add(place)));
        let end = match self.journeys.end_of(place) {
            End::OnItsWay => (self.rows, false),
            End::Taken(row) => (row, true),
            End::Lost(row) => (row, false),
        };
        let mut shapes = Vec::new(alloc);
        let way = self.journeys.way_of(place);
        push_way(&mut shapes, self.lanes, lane, row, way, end)?;
        shapes.push(Shape::Circle { at: self.lanes.spot(lane, row), look: Look::Asking })?;
        shapes.push(Shape::Words {
            at: self.lanes.words_at(lane, row),
            text: request_label(alloc, request)?,
            look: Look::Label,
        })?;
        Ok(shapes)
    }
}

fn words_of(alloc: Global, client: ClientNo, request: &Request) -> Result<String, AllocError> {
    let mut words = String::new(alloc);
    let number = client.0;
    write!(words, "client {number} sends:")?;
    push_request(&mut words, request)?;
    Ok(words)
}

fn marks_on(alloc: Global, sheet: Sheet<'_>, passages: &[Passage]) -> Result<Vec<RequestMark>, Memory> {
    let mut marks = Vec::new(alloc);
    for passage in passages {
        if let Passage::Sent { client, request, facts } = passage {
            let place = marks.len();
            marks.push(RequestMark {
                place: place + 1,
                words: words_of(alloc, *client, request)?,
                shapes: sheet.shapes(alloc, place, *client, request, *facts)?,
            })?;
        }
    }
    Ok(marks)
}

/// A mark for each request that is sent, in a picture of so many rows.
///
/// # Errors
///
/// `Memory` where there is none left.
pub fn request_marks(alloc: Global, lanes: &Lanes, rows: u16, passages: &[Passage]) -> Result<Vec<RequestMark>, Memory> {
    let journeys = Journeys::of(alloc, passages)?;
    let sheet = Sheet { lanes, journeys: &journeys, rows };
    marks_on(alloc, sheet, passages)
}

/// How many requests are sent.
pub fn count_sent(passages: &[Passage]) -> usize {
    let mut count = 0;
    for passage in passages {
        if let Passage::Sent { .. } = passage {
            count += 1;
        }
    }
    count
}
