// Made by tools/plain_rust from crates/lease_manager/src/requests.rt. Changes belong there.

//! How a request goes from its arrival to its answer.

pub mod acknowledge;
pub mod answer;
pub mod arrival;
pub mod attempt;
pub mod finding;
pub mod giving_up;
pub mod grant;
pub mod passes;
pub mod question;
pub mod trial;
