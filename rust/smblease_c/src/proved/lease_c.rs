// Made by tools/plain_rust from crates/lease_c/src/lib.rt. Changes belong there.

//! The messages of `lease_wire` for callers in C, and what is true of states and opens: `include/smblease.h`
//! declares each function and struct of this crate, and says what a caller has to keep to. No function of it
//! allocates, keeps anything between calls, or has a condition beyond those of its types: each takes any bytes,
//! and any number in any field. A fault is reported in the result, and nothing is written then.
mod append;
mod context;
mod create;
mod fault;
mod kind;
mod messages;
mod numbers;
mod room;
mod version;

pub use context::LeaseContext;
pub use create::{LeaseCreateAnswer, LeaseCreateAsk};
pub use fault::LeaseFault;
pub use messages::{LeaseAcknowledgment, LeaseNotification, LeaseResponse};
pub use version::LeaseVersion;
