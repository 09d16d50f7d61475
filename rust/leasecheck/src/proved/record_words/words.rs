// Made by tools/plain_rust from crates/record_words/src/words.rt. Changes belong there.

//! What is said of a verdict on a record, in words.

mod explained;
mod fact_words;
mod placed;
mod places;
mod reason_words;

pub use explained::{push_explanation, push_reasoned};
pub use fact_words::{push_deed, push_fact_words};
pub use placed::{Placed, read_placed};
pub use places::bad_places;
