// Made by tools/plain_rust from crates/share_server/src/lib.rt. Changes belong there.

//! A file server of SMB 2.1 leases and durable opens (MS-SMB2 3.3) as a pure state machine: it has
//! no sockets, threads or clocks. A program that embeds it makes a [`Server`] of the contents of its
//! files, hands in the requests that come and the connections and timers that end, and does what each
//! call gives out. Contracts speak of the server of the rules in `lease_model`; every server keeps the
//! laws of leases and opens (`Server::laws`), as the invariant of its type.
//!
//! ```text
//! let mut contexts = Vec::new(alloc);
//! let lease = Some((LeaseKey([7; 16]), LeaseState::from_wire(7)));
//! let ask = CreateAsk { lease, durable: false, reconnect: None };
//! write_create_ask(&ask, &mut contexts)?;
//! let contexts = Bytes::new(contexts);
//! let (access, share) = (Access::ReadWrite, Share::ReadWrite);
//! let create = Request::Create { file: FileNo(1), access, share, contexts };
//!
//! let mut files = Vec::new(alloc);
//! files.push(Content::new(Vec::from_slice(alloc, b"abc")?)?)?;
//! let (server, _) = Server::new(alloc, files)?.join(ClientNo(1))?;
//! let (server, outs) = server.receive(ClientNo(1), create)?;
//! for out in outs {
//!     match out {
//!         Out::Sent(client, reply) => connections.send(client, reply)?,
//!         Out::Opened(file, client) => journal.opened(file, client)?,
//!         Out::Changed(file, _, _, patch) => disk.write(file, patch)?,
//!     }
//! }
//! let others = server.allowed(ClientNo(2), None, FileNo(1), LeaseState::from_wire(7));
//! assert_eq!(others, LeaseState::from_wire(3));
//! ```
mod asked;
mod calls;
mod files;
mod handles;
mod host;
mod outs;
mod requests;
mod server;
mod values;

pub use server::Server;
pub use values::out::Out;
