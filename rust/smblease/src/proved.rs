//! The proved crates as modules, without their contracts.
//!
//! Made by tools/plain_rust.
#![allow(missing_docs, reason = "fields are told where their struct is")]
#![allow(
    clippy::assertions_on_constants,
    clippy::collapsible_if,
    clippy::collapsible_match,
    clippy::explicit_counter_loop,
    clippy::len_zero,
    clippy::manual_contains,
    clippy::manual_find,
    clippy::manual_is_multiple_of,
    clippy::manual_map,
    clippy::manual_ok_err,
    clippy::manual_range_contains,
    clippy::manual_range_patterns,
    clippy::manual_unwrap_or,
    clippy::manual_unwrap_or_default,
    clippy::match_like_matches_macro,
    clippy::needless_borrows_for_generic_args,
    clippy::needless_lifetimes,
    clippy::needless_range_loop,
    clippy::needless_return_with_question_mark,
    clippy::nonminimal_bool,
    clippy::question_mark,
    clippy::redundant_pattern_matching,
    clippy::should_implement_trait,
    clippy::single_match,
    clippy::too_many_arguments,
    clippy::type_complexity,
    clippy::write_with_newline,
    reason = "the form that the prover takes"
)]

pub mod break_timers;
pub mod capture_wire;
pub mod client_versions;
pub mod kept_opens;
pub mod lease_client;
pub mod lease_facts;
pub mod lease_manager;
pub mod lease_state;
pub mod lease_versions;
pub mod lease_wire;
pub mod lease_wire_v2;
pub mod lease_world;
pub mod share_server;
pub mod waiting_changes;
