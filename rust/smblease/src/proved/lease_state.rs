// Made by tools/plain_rust from crates/lease_state/src/lib.rt. Changes belong there.

//! The values that a server and a client of SMB 2.1 leases share: lease states and keys, numbers of
//! clients, files and opens, access and share, statuses, contents and patches of files, and the
//! requests and replies that are made of them. Nothing here reads or writes a stream; `lease_wire`
//! has the bytes of messages.
//!
//! ```text
//! let mut file = Content::new(Vec::from_slice(alloc, b"abc")?)?;
//! let bytes = Bytes::new(Vec::from_slice(alloc, b"Y")?);
//! file.apply(&Patch { offset: 4, bytes })?;
//! assert_eq!(file.bytes(), b"abc\0Y");
//!
//! let wanted = LeaseState::from_wire(6);
//! assert!(wanted.needs_ack() && wanted.granted_form().is_none());
//! assert!(LeaseState::READ_CACHING.is_within(LeaseState::from_wire(3)));
//! ```
mod access;
mod bytes;
mod content;
mod key;
mod memory;
mod number;
mod patch;
mod reply;
mod request;
mod rules;
mod state;
mod status;

pub use access::{Access, Share};
pub use bytes::Bytes;
pub use content::{Content, ContentFault, FILE_LIMIT};
pub use key::LeaseKey;
pub use memory::Memory;
pub use number::{ClientNo, FileId, FileNo};
pub use patch::Patch;
pub use reply::Reply;
pub use request::Request;
pub use rules::{Order, Rise, Rules};
pub use state::LeaseState;
pub use status::Status;

#[cfg(test)]
mod tests {
    use std::prelude::{HostRuntime, Vec};

    use super::*;
    use std::test::Fail;

    // The example at the top of this file.
    #[test]
    fn the_example_holds() {
        std::test::passes(|| -> Result<(), Fail> {
            let rt = HostRuntime::host();
            let alloc = rt.alloc();
            let mut file = Content::new(Vec::from_slice(alloc, b"abc")?)?;
            let bytes = Bytes::new(Vec::from_slice(alloc, b"Y")?);
            file.apply(&Patch { offset: 4, bytes })?;
            assert_eq!(file.bytes(), b"abc\0Y".as_slice());

            let wanted = LeaseState::from_wire(6);
            assert!(wanted.needs_ack() && wanted.granted_form().is_none());
            assert!(LeaseState::READ_CACHING.is_within(LeaseState::from_wire(3)));
            Ok(())
        })
    }
}
