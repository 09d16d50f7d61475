// Made by tools/plain_rust from crates/machines_c/src/lib.rt. Changes belong there.

//! The client machine, the server machine and the manager of leases for callers in C, and what leases of version 2
//! carry for each: `include/smblease_machines.h`, `smblease_manager.h`, `smblease_versions.h` and
//! `smblease_client_versions.h` declare each function and struct of this crate, and say what a caller has to keep to. A
//! handle is a struct of one pointer, null where it holds nothing. No function has a condition beyond those of its
//! types.
mod client;
mod handles;
mod manager;
mod server;
mod translation;
mod values;
mod versions;

pub use client::answer::ClientAnswer;
pub use client::commands::ClientOpen;
pub use client::handle::ClientHandle;
pub use client::note::ClientNote;
pub use client::request::ClientRequest;
pub use client::values::{BreakMessage, ClientGuid};
pub use manager::decision::ManagerDecision;
pub use manager::handle::ManagerHandle;
pub use manager::leases::LeaseFields;
pub use manager::listing::OpenFields;
pub use manager::managing::Managing;
pub use manager::values::{AckFields, CreateFields};
pub use server::files::{Files, FilesHandle};
pub use server::handle::{Hosted, ServerHandle};
pub use server::out::ServerOut;
pub use translation::handle::ClientVersionsHandle;
pub use translation::translating::Translating;
pub use values::{AckMessage, KeyBytes, MaybeKey};
pub use versions::creates::AskedFields;
pub use versions::following::Following;
pub use versions::handle::VersionsHandle;
pub use versions::messages::MessageFields;
