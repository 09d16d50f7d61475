// Made by tools/plain_rust from crates/lease_texts/src/lib.rt. Changes belong there.

//! Schedules and records as texts: a line for each event and for each fact.
//!
//! `read_schedule` gives the setup and the events of a run, and `push_setup` and `push_event` write their lines. `read_fact`
//! gives the fact that a line of a record is, and `push_fact` writes that line. A line is cut into `Fields`, which are read one
//! after the other, as the row of its kind in a `Table` has them; `complaint_about` says what a line lacks to be one of a table.
//! docs/FORMATS.md has every line.
mod commands;
mod complaints;
mod fault;
mod fields;
mod first;
mod kinds;
mod lines;
mod parts;
mod pieces;
mod quoting;
mod records;
mod replies;
mod requests;
mod said;
mod schedule;
mod status;
mod words;

pub use commands::{CLOSE, FLUSH, OPEN, READ, WRITE, read_command};
pub use complaints::{Complaint, Expected, complaint_about, push_complaint, push_complaint_line};
pub use fault::{LineFault, TextFault};
pub use fields::Fields;
pub use kinds::{Field, Row, Table};
pub use lines::{first_line, is_passed_over};
pub use parts::{Part, part_table, push_event, read_part};
pub use quoting::{push_all_escaped, push_quoted};
pub use records::{fact_table, push_fact, read_fact};
pub use replies::{Arrival, read_arrival, reply_table};
pub use requests::{push_request, read_request, request_table};
pub use said::{Said, push_line};
pub use schedule::{Schedule, push_setup, read_schedule};
pub use smblease::proved::lease_facts::is;
pub use status::{GivenStatus, push_given, status_word};
pub use words::{digits_of, outcome_word, rules_in, state_letters};
