// Made by tools/plain_rust from crates/share_server/src/values.rt. Changes belong there.

pub mod coming;
pub mod number;
pub mod out;
pub mod request;
