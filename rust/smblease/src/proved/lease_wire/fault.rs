// Made by tools/plain_rust from crates/lease_wire/src/fault.rt. Changes belong there.

use std::fmt;

/// Why bytes are refused. Each fault has the place, counted in bytes from 0, where the create
/// context with the fault begins; in a break message that is 0. As text a fault is its number, its
/// name and its place, as `3 BadNext at 56`.
#[derive(Clone, Copy, Debug, PartialEq, Eq)]
pub enum WireFault {
    /// There are fewer bytes than the fixed part takes.
    Short(usize),
    /// StructureSize is not that of the message.
    WrongSize(usize),
    /// Next leads to no further context.
    BadNext(usize),
    /// The name is not within its context.
    BadName(usize),
    /// The data are not within their context.
    BadData(usize),
    /// The data of a context that is known have another length than its structure.
    BadLength(usize),
    /// A context that is known has the name of an earlier one (profile).
    Twice(usize),
}

impl WireFault {
    /// The number of the fault's kind, from 1 to 7.
    pub fn number(self) -> u8 {
        match self {
            WireFault::Short(_) => 1,
            WireFault::WrongSize(_) => 2,
            WireFault::BadNext(_) => 3,
            WireFault::BadName(_) => 4,
            WireFault::BadData(_) => 5,
            WireFault::BadLength(_) => 6,
            WireFault::Twice(_) => 7,
        }
    }

    /// The name of the fault's kind, as `BadNext`.
    pub fn name(self) -> &'static str {
        match self {
            WireFault::Short(_) => "Short",
            WireFault::WrongSize(_) => "WrongSize",
            WireFault::BadNext(_) => "BadNext",
            WireFault::BadName(_) => "BadName",
            WireFault::BadData(_) => "BadData",
            WireFault::BadLength(_) => "BadLength",
            WireFault::Twice(_) => "Twice",
        }
    }

    /// Where the context with the fault begins, in bytes.
    pub fn place(self) -> usize {
        match self {
            WireFault::Short(place)
            | WireFault::WrongSize(place)
            | WireFault::BadNext(place)
            | WireFault::BadName(place)
            | WireFault::BadData(place)
            | WireFault::BadLength(place)
            | WireFault::Twice(place) => place,
        }
    }

    /// The same fault at another place, for bytes that stand in others.
    pub fn at(self, place: usize) -> WireFault {
        match self {
            WireFault::Short(_) => WireFault::Short(place),
            WireFault::WrongSize(_) => WireFault::WrongSize(place),
            WireFault::BadNext(_) => WireFault::BadNext(place),
            WireFault::BadName(_) => WireFault::BadName(place),
            WireFault::BadData(_) => WireFault::BadData(place),
            WireFault::BadLength(_) => WireFault::BadLength(place),
            WireFault::Twice(_) => WireFault::Twice(place),
        }
    }
}

impl fmt::Display for WireFault {
    fn fmt(&self, f: &mut fmt::Formatter<'_>) -> fmt::Result {
        let (number, name, place) = (self.number(), self.name(), self.place());
        write!(f, "{number} {name} at {place}")
    }
}

impl std::error::Error for WireFault {}
