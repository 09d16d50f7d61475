// Made by tools/plain_rust from crates/lease_versions/src/lib.rt. Changes belong there.

//! What leases and durable opens of version 2 carry (MS-SMB2, dialects 3.0 to 3.1.1), over the decisions of a lease manager.
//! It knows nothing of them: epochs, parents' keys and CreateGuids decide nothing of who may cache what.
//!
//! A host says what it asks the manager for, lets [`Versions`] follow each decision in order, and puts what that gives into the
//! message that it sends for the decision. It asks first whether a create is refused before the manager is asked:
//!
//! ```text
//! let mut versions = Versions::new(alloc);
//! match versions.arrived(client, tag, &ask, replay)? {
//!     Arrival::Asked => manager.ask(client, tag, create, &mut decisions)?,
//!     Arrival::Refused(status) => return host.refuse(tag, status),
//!     Arrival::Again(replayed) => return host.answer_again(tag, replayed),
//! }
//! for decision in decisions.iter() {
//!     let carried = versions.follow(decision)?;
//!     host.carry_out(decision, carried)?;
//! }
//! // As the client's connection goes:
//! versions.forget(client);
//! ```
//!
//! The epoch of a new lease lies one above the one that its client asked with. It rises with each break that is sent, and with
//! each answer whose state the client doesn't know; an answer while a break is in progress has the epoch of its notice. A lease
//! keeps the version and the parent that it was first asked with, whatever is asked later. A durable open keeps the CreateGuid
//! of its create. `version_laws` says what holds over any decisions.
mod carried;
mod leases;
mod opens;
mod requests;
mod sent;
#[cfg(test)]
mod tests;
mod versions;

pub use carried::{Arrival, Carried, Replayed};
pub use versions::Versions;
