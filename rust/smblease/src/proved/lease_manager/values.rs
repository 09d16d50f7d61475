// Made by tools/plain_rust from crates/lease_manager/src/values.rt. Changes belong there.

//! What a manager keeps, is asked and decides.

pub mod closing;
pub mod coming;
pub mod decision;
pub mod extent;
pub mod kept;
pub mod key;
pub mod lease;
pub mod listed;
pub mod number;
pub mod open;
pub mod out;
pub mod owner;
pub mod request;
pub mod restore_error;
pub mod want;
