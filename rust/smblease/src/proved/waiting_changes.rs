// Made by tools/plain_rust from crates/waiting_changes/src/lib.rt. Changes belong there.

//! Changes of a file that no open of a client asks for, for a host of a manager of leases: a truncation, a lock, a rename, a
//! deletion, what another program writes. Others give up what they hold, and the change goes on once none of them is in its
//! way (own).
//!
//! A host asks by `change`, under a tag, as it asks requests: where the change waits, `GoesOn` is told for its tag later. What
//! waits is tried again after each call of the manager but `join`: on the files that the call was about, which the host asks the
//! manager for before the call.
//!
//! ```text
//! let mut changes = WaitingChanges::new(alloc);
//! let change = Change { client: ClientNo(1), tag: Tag(7), key: None, file: FileNo(5), extent: Extent::All };
//! changes.change(&mut manager, change, &mut decisions)?;
//! // Later, as a client acknowledges a break:
//! let file = manager.leased_file(client, key);
//! manager.acknowledge(client, key, state, &mut decisions)?;
//! changes.try_again(&mut manager, None, file.as_slice(), &mut decisions)?;
//! ```
//!
//! So it is with the timer of a break. Of a close, or of the timer of a durable open, it is the file of the `open`; of a cut, or
//! of opens that are left, the client's `opened_files`; of `withdraw` and of `give_up`, the file that they name; of all else,
//! none. A close says which request it was.
mod change;
mod trying;
mod waiting;

pub use change::Change;
pub use waiting::WaitingChanges;
