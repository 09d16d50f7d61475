// Made by tools/plain_rust from crates/lease_reasons/src/lib.rt. Changes belong there.

//! Why a record of SMB 2.1 leases is safe, unsafe or malformed: the facts that make it so, by their places.
mod beliefs;
mod clients;
mod explaining;
mod extent;
mod last_beliefs;
mod malformed;
mod marks;
mod messages;
mod reads;
mod reason;
mod writes;

pub use explaining::explain;
pub use extent::{Extent, extent_of};
pub use messages::Messages;
pub use reason::{Belief, Expected, Reason};
