use crate::OutOfMemory;
use crate::manager::{ClientNo, Decision};
use crate::proved::break_timers as proved;
use crate::proved::lease_manager::LeaseName;
use crate::proved::lease_state::LeaseKey;
use std::alloc::Global;

pub use crate::proved::break_timers::BreakNo;

/// The timers of breaks that run, by numbers: a server starts a timer of its own for each number that it is given, and asks here what
/// it was for when it runs out. A lease has one at most, that of its last break.
#[derive(Debug)]
pub struct BreakTimers {
    inner: proved::BreakTimers,
}

impl Default for BreakTimers {
    fn default() -> BreakTimers {
        BreakTimers::new()
    }
}

impl BreakTimers {
    /// Where none runs. Allocates nothing.
    pub fn new() -> BreakTimers {
        BreakTimers { inner: proved::BreakTimers::new(Global) }
    }

    /// What a decision of the manager does to timers: the number of the one that begins to run, for a break that has to be
    /// acknowledged. A break that is acknowledged has none any longer.
    ///
    /// # Errors
    ///
    /// Where a timer begins to run, and there is no memory for it, or all numbers have been given.
    pub fn note(&mut self, decision: &Decision) -> Result<Option<BreakNo>, OutOfMemory> {
        self.inner.note(decision)
    }

    /// The timer of this number has run out: the client and the key to call [`Manager::expire`](crate::Manager::expire) with, if it
    /// still ran.
    pub fn run_out(&mut self, number: BreakNo) -> Option<(ClientNo, LeaseKey)> {
        let LeaseName { client, bytes } = self.inner.run_out(number)?;
        Some((client, bytes))
    }

    /// No timer runs for a break of the client's lease of this key any longer.
    pub fn stop(&mut self, client: ClientNo, key: LeaseKey) {
        self.inner.stop(LeaseName { client, bytes: key });
    }
}
