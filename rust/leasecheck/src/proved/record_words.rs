// Made by tools/plain_rust from crates/record_words/src/lib.rt. Changes belong there.

//! Records of SMB 2.1 leases for people: what is said of a verdict, and pictures.
//!
//! [`push_explanation`] names the facts that make a verdict so, each with the number of its line, in words. [`picture_of`]
//! lays the facts of a record out as a sequence picture, with the requests of its run where these are known, and
//! [`push_picture`] writes the picture as SVG, with a mark for each fact. Time runs down. Each client has a lane, and so has
//! the server, in the middle.
mod pictures;
mod words;

pub use pictures::{
    Caption, Look, MOST_FACTS, MOST_REQUESTS, Mark, Picture, PictureFault, Point, Remark, RequestMark, Shape, Size, picture_of,
    push_picture,
};
pub use smblease::proved::lease_facts::{ClientFact, FactKind, Passage};
pub use words::{Placed, bad_places, push_deed, push_explanation, push_fact_words, push_reasoned, read_placed};
