// Made by tools/plain_rust from crates/lease_wire_v2/src/lib.rt. Changes belong there.

//! The bytes of leases and durable opens as SMB 3 has them (MS-SMB2, dialects 3.0 to 3.1.1), without the SMB2 header: the data of
//! create contexts of version 2, written (`capture_wire` reads them); the lease break notification with NewEpoch; and the create
//! contexts of a CREATE in either version, read and written. `lease_wire` has the other messages, and contexts of version 1
//! alone. What is read borrows from the input and allocates nothing; what is written is laid out in one way for each value. Each
//! reader's answer is proved right for every text: a value exactly where the layout holds one, or else the first fault with its
//! place.
//!
//! ```text
//! let second = SecondVersion { parent: None, epoch: 4 };
//! let lease = LeaseAsk { key: LeaseKey([7; 16]), state: LeaseState::from_wire(7), second: Some(second) };
//! let create_guid = Guid([9; 16]);
//! let durable = DurableRequestV2 { timeout: 60_000, persistent: false, create_guid };
//! let ask = CreateAskV2 {
//!     lease: Some(lease),
//!     durable: Some(DurableAsk::Second(durable)),
//!     reconnect: None,
//! };
//! let mut contexts = Vec::new(alloc);
//! write_create_ask_v2(&ask, &mut contexts)?;
//! assert_eq!(contexts.len(), 136);
//! assert_eq!(read_create_v2(contexts.as_slice()), Ok(ask));
//! assert_eq!(ask.plain().lease, Some((lease.key, lease.state)));
//! ```
mod create;
mod durable;
mod fault;
mod lease;
mod notification;

pub use create::{
    CONTEXTS_LIMIT, CreateAnswerV2, CreateAskV2, DurableAnswer, DurableAsk, LeaseAnswer, LeaseAsk, Reconnect, SecondVersion,
    fill_create_ask_v2, fill_create_reply_v2, read_create_reply_v2, read_create_v2, write_create_ask_v2, write_create_reply_v2,
};
pub use durable::{encode_durable_reconnect_v2, encode_durable_request_v2, encode_durable_response_v2};
pub use fault::CreateFault;
pub use lease::{LEASE_SIZE, encode_lease_v2};
pub use notification::NotificationV2;
