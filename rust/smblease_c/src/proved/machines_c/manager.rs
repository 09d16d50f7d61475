// Made by tools/plain_rust from crates/machines_c/src/manager.rt. Changes belong there.

//! The manager of leases of `lease_manager`. A handle holds a manager together with the changes that wait, the
//! decisions of its last call, the timers of breaks, and what was listed since.

mod about;
pub mod calls;
pub mod changing;
pub mod coming;
pub mod decision;
pub mod giving_up;
pub mod handle;
pub mod leases;
pub mod leaving;
pub mod listed;
pub mod listed_leases;
pub mod listed_requests;
pub mod listing;
pub mod managing;
pub mod numbering;
pub mod queries;
pub mod requests;
pub mod restarting;
pub mod setting_up;
pub mod values;
