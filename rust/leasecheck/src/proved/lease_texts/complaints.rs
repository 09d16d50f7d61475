// Made by tools/plain_rust from crates/lease_texts/src/complaints.rt. Changes belong there.

//! What is said of a line that is refused: the first field that holds something else than its kind expects there.

mod expected;
mod finding;
mod telling;

pub use expected::Expected;
pub use finding::{Complaint, complaint_about};
pub use telling::{push_complaint, push_complaint_line};
