// Made by tools/plain_rust from crates/lease_client/src/lib.rt. Changes belong there.

//! A client machine of SMB 2.1 leases (MS-SMB2 3.2) as a pure state machine: it has no sockets,
//! threads or clocks. A program that embeds it makes a [`Client`] of its ClientGuid and the number of
//! its files, and calls it for each command of an application, each message of the server, and each
//! connection that is made or lost. A call takes the client and gives a [`Step`]: the client after
//! it, what the application is answered, the requests that go to the server and the notes, each in
//! order. `app_in_place` and its like change a client where it is, and put the rest of the step into
//! a [`Given`] that they are passed.
//!
//! ```text
//! let (guid, file, all) = ([0x11; 16], FileNo(1), LeaseState::from_wire(7));
//! let Step { client, .. } = Client::new(alloc, guid, 1)?.connect()?;
//! let (access, share) = (Access::ReadWrite, Share::ReadWrite);
//! let open = Command::Open { file, access, share, want: all, durable: false };
//! let Step { client, answer, requests, .. } = client.app(open)?;
//! assert!(answer == Answer::Waiting && requests.len() == 1);
//!
//! // The server's answer: the file is open, and its lease holds all that was asked for.
//! let mut contexts = Vec::new(alloc);
//! let lease = Some((lease_key(guid, file), all, false));
//! write_create_reply(&CreateAnswer { lease, durable: false }, &mut contexts)?;
//! let contexts = Bytes::new(contexts);
//! let Step { client, .. } = client.take(Reply::Created { file, fid: FileId(1), contexts })?;
//! assert!(client.belief(file) == all);
//!
//! // So a write waits in the cache.
//! let bytes = Bytes::new(Vec::from_slice(alloc, b"X")?);
//! let step = client.app(Command::Write { file, patch: Patch { offset: 0, bytes } })?;
//! assert!(step.answer == Answer::Done && step.requests.is_empty());
//! ```
//!
//! Contracts speak of the client of the rules in `lease_model`, and every client keeps the laws of clients, as
//! the invariant of its type.
mod client;
mod entry;
mod file;
mod machine;
mod requests;
mod values;
mod writes;

pub use client::Client;
pub use entry::turn::Given;
pub use values::command::{Answer, Command, Refusal};
pub use values::key::lease_key;
pub use values::note::{Note, Settlement};
pub use values::shared_bytes::SharedBytes;
pub use values::step::Step;
