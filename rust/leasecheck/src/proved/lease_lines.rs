// Made by tools/plain_rust from crates/lease_lines/src/lib.rt. Changes belong there.

//! Client machines and a server that speak lines of text: one line in, some lines out, of which the last is an answer.
//!
//! [`Machines`] are either clients or a server. They are given a line at a time and answer it; a line that is refused is
//! answered `fault line N` and changes nothing, and its `Answer` has the reason. docs/FORMATS.md has every line.
mod client_answers;
mod client_lines;
mod client_table;
mod machines;
mod refusals;
mod server_answers;
mod server_lines;
mod server_stage;

pub use client_table::ClientTable;
pub use machines::Machines;
pub use refusals::Answer;
pub use server_stage::Stage;
