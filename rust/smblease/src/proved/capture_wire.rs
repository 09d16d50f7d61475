// Made by tools/plain_rust from crates/capture_wire/src/lib.rt. Changes belong there.

//! What the messages of a capture say (MS-SMB2, dialects 2.0.2 to 3.1.1), as far as leases depend on it: headers, the requests
//! and responses by which clients connect, and open, read, write, rename and close files, and create contexts of version 2.
//! What is read borrows from the input and allocates nothing. Each reader's answer is proved right for every text: the fields
//! where the layout has them, or else the first fault.
//!
//! A reader of a message is given the message from its header on, since offsets in it count from there;
//! `lease_wire::first_message` splits a compound into its messages, and `lease_wire::contexts_of_create` finds create contexts.
//! `read_message` reads any message by its command and direction. The other readers look at the layout alone: which message it
//! is has to be known, by `read_header`.
//!
//! ```text
//! let mut message = [0; 88];
//! message[..6].copy_from_slice(b"\xfeSMB\x40\0");
//! message[12] = 6;
//! message[64] = 24;
//! message[72] = 5;
//! assert_eq!(read_header(&message).map(|header| header.command), Ok(6));
//! let file_id = Smb2FileId { persistent: 5, volatile: 0 };
//! assert_eq!(read_close_request(&message), Ok(CloseRequest { file_id }));
//! assert_eq!(read_close_request(&message[..87]), Err(MessageFault::Short));
//! ```
mod command;
mod connecting;
mod contexts;
mod create;
mod durable;
mod fault;
mod field;
mod files;
mod header;
mod lease;
mod message;
mod part;
mod set_info;

pub use command::Command;
pub use connecting::{
    NegotiateRequest, NegotiateResponse, SessionSetupRequest, TreeConnectRequest, read_negotiate_request,
    read_negotiate_response, read_session_setup_request, read_tree_connect_request,
};
pub use contexts::{CreateContexts, FileOnDisk, LeaseContext, read_create_contexts};
pub use create::{CreateRequest, CreateResponse, read_create_request, read_create_response};
pub use durable::{
    DurableReconnectV2, DurableRequestV2, DurableResponseV2, read_durable_reconnect_v2, read_durable_request_v2,
    read_durable_response_v2,
};
pub use fault::MessageFault;
pub use field::{Guid, Smb2FileId};
pub use files::{CloseRequest, ReadRequest, WriteRequest, read_close_request, read_read_request, read_write_request};
pub use header::{Header, TreeOrAsync, read_header};
pub use lease::{LeaseV2, read_lease_v2, read_new_epoch};
pub use message::{Content, Message, Request, Response, UNASKED, Unreadable, read_message};
pub use set_info::{Rename, SetInfoRequest, read_disposition, read_rename, read_set_info_request};
