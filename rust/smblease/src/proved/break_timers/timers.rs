// Made by tools/plain_rust from crates/break_timers/src/timers.rt. Changes belong there.

use crate::proved::lease_manager::{Decision, LeaseName};
use crate::proved::lease_state::Memory;
use std::alloc::Global;
use std::collections::BTreeMap;

/// The number of a break's timer, from 1 on. No two timers that the same [`BreakTimers`] starts share a number.
#[derive(Clone, Copy, Debug, PartialEq, Eq, PartialOrd, Ord, Hash)]
pub struct BreakNo(pub u64);

/// The timers of lease breaks that are running. Each lease has at most one, which is that of its latest break.
#[derive(Debug)]
pub struct BreakTimers {
    started: u64,
    by_number: BTreeMap<u64, LeaseName>,
    by_key: BTreeMap<LeaseName, u64>,
}

impl BreakTimers {
    /// Where none runs. Allocates nothing.
    pub fn new(alloc: Global) -> BreakTimers {
        BreakTimers { started: 0, by_number: BTreeMap::new(alloc), by_key: BTreeMap::new(alloc) }
    }

    /// What a decision of the manager does to timers: one begins to run for a break that has to be acknowledged, and its number
    /// is given; a break that is acknowledged has none any longer.
    ///
    /// # Errors
    ///
    /// `Memory` where a timer begins to run, and there is none left for it, or all numbers have been given.
    pub fn note(&mut self, decision: &Decision) -> Result<Option<BreakNo>, Memory> {
        match decision {
            Decision::Breaks { client, notice } if notice.ack_required => {
                let key = LeaseName { client: *client, bytes: notice.key };
                let number = self.start(key)?;
                Ok(Some(number))
            }
            Decision::Acknowledged { client, key, .. } => {
                self.stop(LeaseName { client: *client, bytes: *key });
                Ok(None)
            }
            _ => Ok(None),
        }
    }

    /// The timer of a break of the lease begins to run, in place of that of an earlier break of it.
    ///
    /// # Errors
    ///
    /// `Memory` where there is none left, or all numbers have been given.
    pub fn start(&mut self, key: LeaseName) -> Result<BreakNo, Memory> {
        self.stop(key);
        let Some(number) = self.started.checked_add(1) else {
            return Err(Memory);
        };
        self.started = number;
        self.by_key.insert(key, number)?;
        self.by_number.insert(number, key)?;
        Ok(BreakNo(number))
    }

    /// No timer runs for a break of the lease any longer. Its number isn't given again.
    pub fn stop(&mut self, key: LeaseName) {
        if let Some(number) = self.by_key.remove(&key) {
            self.by_number.remove(&number);
        }
    }

    /// The timer of this number has run out: the lease whose break it was, if it still ran.
    pub fn run_out(&mut self, number: BreakNo) -> Option<LeaseName> {
        let key = self.by_number.remove(&number.0)?;
        self.by_key.remove(&key);
        Some(key)
    }
}
