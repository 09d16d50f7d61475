// Made by tools/plain_rust from crates/machines_c/src/server.rt. Changes belong there.

//! The server machine of `share_server`. A handle holds a server together with what the last call of it gave out.

pub mod calls;
pub mod files;
pub mod handle;
pub mod out;
pub mod queries;
pub mod requests;
pub mod setting_up;
