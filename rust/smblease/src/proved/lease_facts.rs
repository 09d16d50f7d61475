// Made by tools/plain_rust from crates/lease_facts/src/lib.rt. Changes belong there.

//! What can happen in a world of clients of SMB 2.1 leases round one server, and the facts that
//! record it: [`Setup`] is what a run begins with, [`Event`] what happens in it, and [`Fact`] what
//! a record has. The kinds of events and facts come with their words, [`ClientFact`] and [`ClientEvent`] those that say no
//! more than which client they are about. A [`Verdict`] says what a record is, and a [`Passage`] what becomes of a request.
//! `lease_world` runs the events and judges records; `lease_texts` reads and writes both as lines.
mod fact;
mod passage;
mod setup;
mod verdict;
mod words;

pub use fact::{ClientFact, Fact, FactKind};
pub use passage::Passage;
pub use setup::{ClientEvent, Event, Setup};
pub use verdict::{Rule, Verdict};
pub use words::is;
