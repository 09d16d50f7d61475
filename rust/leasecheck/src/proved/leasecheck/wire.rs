// Made by tools/plain_rust from crates/leasecheck/src/wire.rt. Changes belong there.

//! The lines of `leasecheck ack` and `leasecheck show`: what the bytes of messages hold.

mod acknowledge;
mod render;
mod words;

pub use acknowledge::ack_lines;
pub use render::render;
