// Made by tools/plain_rust from crates/lease_wire_v2/src/fault.rt. Changes belong there.

use crate::proved::lease_wire::WireFault;
use std::fmt;

/// Why create contexts are refused. As text a fault is its number, its name and its place, as `8 Excluded at 56`.
#[derive(Clone, Copy, Debug, PartialEq, Eq)]
pub enum CreateFault {
    /// A fault that `lease_wire` has too: of the layout, of the length of data (`BadLength`), or a context that is known stands
    /// a second time (`Twice`), as do `RqLs` of both versions.
    Wire(WireFault),
    /// A durable context stands with an earlier one that excludes it (MS-SMB2 3.3.5.9.6, 3.3.5.9.7, 3.3.5.9.10, 3.3.5.9.12). The
    /// place is where the later one begins, in bytes.
    Excluded(usize),
}

impl CreateFault {
    /// Where the context with the fault begins, in bytes.
    pub fn place(self) -> usize {
        match self {
            CreateFault::Wire(fault) => fault.place(),
            CreateFault::Excluded(place) => place,
        }
    }
}

impl fmt::Display for CreateFault {
    fn fmt(&self, f: &mut fmt::Formatter<'_>) -> fmt::Result {
        match self {
            CreateFault::Wire(fault) => write!(f, "{fault}"),
            CreateFault::Excluded(place) => write!(f, "8 Excluded at {place}"),
        }
    }
}

impl std::error::Error for CreateFault {}
