// Made by tools/plain_rust from crates/text_laws/src/lib.rt. Changes belong there.

//! What a run is printed as is read as its record, and judged to be safe: public functions whose
//! contracts carry these laws. They do nothing, or nothing but a run.
mod judged;

pub use judged::judged_run;
