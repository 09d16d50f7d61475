// Made by tools/plain_rust from crates/leasecheck/src/remarks.rt. Changes belong there.

//! What is said of a refused input after its fault: what was expected, where, and what stands
//! there.

mod bytes;
mod digits;
mod files;
mod lines;
mod setup;

pub(crate) use bytes::{bare_remark, shown_remark};
pub(crate) use digits::hex_remark;
pub(crate) use files::unread_line;
pub(crate) use lines::{capture_remark, fact_remark, line_at, part_remark};
pub(crate) use setup::{events_remark, facts_remark, setup_remark};
