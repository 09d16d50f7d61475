//! Worked examples of the machines: the server, the manager with its timers, the client's cache, and runs with their verdicts. Each runs
//! again with each allocation refused in turn.

use smblease_std::refusing::Refusing;

mod caching;
mod managing;
mod running;
mod serving;

#[global_allocator]
static REFUSING: Refusing = Refusing;
