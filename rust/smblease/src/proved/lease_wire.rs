// Made by tools/plain_rust from crates/lease_wire/src/lib.rt. Changes belong there.

//! The bytes of SMB 2.1 leases (MS-SMB2): create contexts, and the lease break notification,
//! acknowledgment and response, read and written without the SMB2 header. What is read borrows from
//! the input and allocates nothing; what is written is laid out in one way for each value. Each
//! reader's answer is proved right for every text: a value exactly where the layout holds one, and
//! else the first fault with its place.
//!
//! ```text
//! let message = Notification {
//!     ack_required: true,
//!     key: LeaseKey([7; 16]),
//!     current: LeaseState::from_wire(7),
//!     new: LeaseState::from_wire(3),
//! };
//! let bytes = message.encode();
//! assert_eq!(Notification::decode(&bytes), Ok((message, b"".as_slice())));
//! assert_eq!(Notification::decode(&bytes[1..]), Err(WireFault::Short(0)));
//!
//! let mut contexts = Vec::new(alloc);
//! let ask = CreateAsk { lease: Some((message.key, message.new)), durable: true, reconnect: None };
//! write_create_ask(&ask, &mut contexts)?;
//! assert_eq!(read_create(contexts.as_slice()), Ok(ask));
//! ```
mod acknowledgment;
mod chain;
mod create;
mod fault;
mod field;
mod message;
mod notification;

pub use acknowledgment::{Acknowledgment, BreakResponse};
pub use chain::{Context, Contexts, contexts, read_context_at};
pub use create::{
    ContextValues, CreateAnswer, CreateAsk, Direction, Lease, fill_create_ask, fill_create_reply, read_create, read_create_reply,
    write_create_ask, write_create_reply,
};
pub use fault::WireFault;
pub use message::{HEADER_SIZE, begins_message, contexts_of_create, first_message};
pub use notification::Notification;
