//! SMB 2.1 leases and durable opens (MS-SMB2), for authors of file servers and of client caches, and for testers.
//!
//! A lease lets a client keep a file's data: it answers reads from its cache and keeps writes there. The server takes the lease back
//! by a break before another client may see or change the file. This crate has the parts:
//!
//! | for | there is |
//! |---|---|
//! | a server that keeps its files itself | [`Manager`], which decides on opens, leases and what waits; [`BreakTimers`] |
//! | a client's cache | [`client::Client`] |
//! | the bytes of create contexts and break messages | [`wire`] |
//! | a tester | [`server::Server`], which keeps files too, and [`world`]: runs of a server and clients, and verdicts on records |
//!
//! Nothing here reads a clock or a socket, and nothing calls back: each call gives what is to be done.
//!
//! ```
//! use smblease::manager::{Ask, ClientNo, CreateAsk, Decision, FileNo, Tag};
//! use smblease::{Access, LeaseKey, LeaseState, Manager, Rules, Share};
//!
//! # fn main() -> Result<(), smblease::OutOfMemory> {
//! let mut manager = Manager::new(Rules::by_key_whole());
//! manager.join(ClientNo(1))?;
//! manager.join(ClientNo(2))?;
//! let open = |lease| Ask::Create {
//!     file: FileNo(1),
//!     access: Access::ReadWrite,
//!     share: Share::ReadWrite,
//!     ask: CreateAsk { lease, durable: false, reconnect: None },
//! };
//! let wanted = (LeaseKey([7; 16]), LeaseState::from_wire(7));
//! let decisions = manager.ask(ClientNo(1), Tag(1), open(Some(wanted)))?;
//! assert!(matches!(decisions, [Decision::Opened { tag: Tag(1), .. }]));
//! // Another client opens the file: the first one's lease is broken, and the open waits for its acknowledgment.
//! let decisions = manager.ask(ClientNo(2), Tag(1), open(None))?;
//! assert!(matches!(decisions, [Decision::Breaks { client: ClientNo(1), .. }, Decision::Waits { client: ClientNo(2), .. }]));
//! let decisions = manager.acknowledge(ClientNo(1), wanted.0, LeaseState::from_wire(3))?;
//! assert!(matches!(decisions, [Decision::Acknowledged { .. }, Decision::Opened { client: ClientNo(2), .. }]));
//! # Ok(())
//! # }
//! ```
//!
//! # What is proved
//!
//! All that decides or reads is made from sources with contracts that a machine checked, by a generator that takes the contracts
//! off. The types here hide allocators, and pass calls on. That the generator keeps the meaning, and that collections and Rust's
//! compiler do as they should, is tested, not proved. Where MS-SMB2 leaves a choice the docs say `profile` or `own`: what was chosen
//! is in docs/PROFILE.md of the repository.
//!
//! # What isn't here
//!
//! Leases of version 2 (SMB 3), leases of folders, byte-range locks, and the rest of SMB2: sessions, signing, names, attributes. A
//! server whose files can be truncated, locked, overwritten, renamed or removed asks the manager for that by [`Manager::change`].
//!
//! # Memory, threads, Rust
//!
//! Where memory runs out a call gives an error, and never ends the process. All types are `Send` and `Sync`: a server of several
//! threads keeps a manager under one lock, and carries out its decisions under it, or in their order. Rust 1.95 is what the tests run
//! with. There are no features; `alloc` is needed, and `std` isn't.
#![no_std]
#![forbid(unsafe_code)]
#![warn(missing_docs)]

#[cfg(not(target_pointer_width = "64"))]
compile_error!("what is proved of this code is proved for a usize of 64 bits");

extern crate alloc;
extern crate smblease_std as std;

pub mod client;
pub mod manager;
#[doc(hidden)]
pub mod proved;
pub mod server;
mod timers;
mod values;
pub mod wire;
pub mod world;

pub use manager::Manager;
pub use proved::lease_state::{
    Access, Bytes, Content, ContentFault, FILE_LIMIT, FileId, LeaseKey, LeaseState, Order, Patch, Reply, Request, Rise, Rules,
    Share, Status,
};
pub use std::ports::bitflags::Flags;
pub use timers::{BreakNo, BreakTimers};

/// There was no memory, which is all that most calls can fail by.
pub type OutOfMemory = proved::lease_state::Memory;
