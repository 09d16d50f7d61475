// Made by tools/plain_rust from crates/lease_manager/src/lib.rt. Changes belong there.

//! A manager of SMB 2.1 leases and durable opens (MS-SMB2 3.3), for a file server that keeps its files itself: it is to leases
//! what a manager of locks is to locks. It has the opens, the leases and the requests that wait, and no bytes, names, sockets
//! or clocks. Its host numbers clients and files as it likes, asks under tags, and carries out the decisions of each call.
//! Contracts speak of the server of the rules in `lease_model` without the bytes of its files, as `manager_model` defines it.
//!
//! The order of decisions is an order of effects: a host carries out each one before it goes on to the next. A read or a write
//! that goes on is done at that place, before anything that comes after it, and the messages of a client are sent in this
//! order, whatever file they are about. Where a host carries out a later decision first, a client may cache bytes that the file
//! no longer has. A tag under which a request waits isn't used for another one.
//!
//! A call that finds no memory leaves a manager as a new one of its rules: its host lets go of all that is open, and answers
//! what waits.
//!
//! [`Manager::laws`] and [`Manager::law_of_breaks`] say what holds of every manager, whatever was asked of it: one writer, no
//! conflict, what is kept for a client that is away lasts, and a Break stands before the write that needed it.
//!
//! A host that restarts keeps what [`Manager::kept_opens`] and [`Manager::last_file_id`] give, and makes a manager of that by
//! [`Manager::restored`]: its clients connect their durable opens again.
//!
//! A host whose files can be truncated, overwritten or locked asks for a write there, and one that renames or removes a file asks
//! for an open that shares nothing, whose refusal doesn't matter.
//!
//! ```text
//! let mut manager = Manager::new(alloc, Rules::profile());
//! let mut decisions = Vec::new(alloc);
//! manager.join(ClientNo(1))?;
//! let lease = Some((LeaseKey([7; 16]), LeaseState::from_wire(7)));
//! let ask = CreateAsk { lease, durable: false, reconnect: None };
//! let (access, share) = (Access::ReadWrite, Share::ReadWrite);
//! let create = Ask::Create { file: FileNo(1), access, share, ask };
//! manager.ask(ClientNo(1), Tag(1), create, &mut decisions)?;
//! for decision in decisions.iter() {
//!     match decision {
//!         Decision::Opened { tag, file_id, answer, .. } => host.answer(*tag, *file_id, answer)?,
//!         Decision::GoesOn { tag, .. } => host.read_or_write(*tag)?,
//!         Decision::Breaks { client, notice } => host.send(*client, notice)?,
//!         Decision::Ended { file_id } => host.let_go(*file_id)?,
//!         _ => {}
//!     }
//! }
//! ```
mod calls;
mod ended;
mod keeping;
mod manager;
mod outs;
mod requests;
mod restoring;
mod tables;
mod told;
mod values;

pub use manager::Manager;
pub use values::decision::{BreakNotice, CreateAnswer, Decision};
pub use values::extent::Extent;
pub use values::kept::KeptOpen;
pub use values::key::LeaseName;
pub use values::lease::HeldLease;
pub use values::listed::{ListedLease, ListedRequest};
pub use values::number::{ClientNo, FileNo, Tag};
pub use values::open::ListedOpen;
pub use values::request::{Ask, CreateAsk};
pub use values::restore_error::RestoreError;
