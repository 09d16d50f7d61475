// Made by tools/plain_rust from crates/record_words/src/pictures/picture.rt. Changes belong there.

use crate::proved::record_words::pictures::shape::{Point, Shape, Size};
use smblease::proved::lease_facts::FactKind;
use smblease::proved::lease_state::Bytes;
use std::prelude::{String, Vec};

/// What a mark says of its fact.
#[derive(Debug, PartialEq, Eq)]
pub struct Caption {
    /// The place of the fact, from 1.
    pub place: usize,
    pub kind: FactKind,
    /// Whether it is one of the facts that make the record bad.
    pub is_bad: bool,
    /// The fact in words.
    pub words: String,
}

/// What stands for a fact.
#[derive(Debug, PartialEq, Eq)]
pub struct Mark {
    pub caption: Caption,
    pub shapes: Vec<Shape>,
}

/// What stands for a request of a client.
#[derive(Debug, PartialEq, Eq)]
pub struct RequestMark {
    /// The place of the request among those that were sent, from 1.
    pub place: usize,
    /// Who sends it, and the request as a schedule's `raw` line has it.
    pub words: String,
    pub shapes: Vec<Shape>,
}

/// What is said of a fact, to the right of the lanes.
#[derive(Debug, PartialEq, Eq)]
pub struct Remark {
    /// Where the words begin.
    pub at: Point,
    pub words: Bytes,
}

/// A picture of a record.
#[derive(Debug, PartialEq, Eq)]
pub struct Picture {
    pub size: Size,
    /// What stands behind the marks: the lanes with their names.
    pub lanes: Vec<Shape>,
    /// A mark for each fact, in their order.
    pub marks: Vec<Mark>,
    /// A mark for each request, in their order.
    pub requests: Vec<RequestMark>,
    /// What is said of some of the facts, in their order.
    pub remarks: Vec<Remark>,
    /// What is said of the record below the marks, in lines.
    pub notes: String,
    /// How far down the notes begin, in pixels.
    pub notes_at: u32,
}
