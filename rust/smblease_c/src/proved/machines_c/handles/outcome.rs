// Made by tools/plain_rust from crates/machines_c/src/handles/outcome.rt. Changes belong there.

/// What became of a call of a machine that a handle holds (profile).
#[derive(Clone, Copy, Debug, PartialEq, Eq)]
pub enum Outcome {
    /// It was done.
    Done,
    /// There was no memory left before the call began, and nothing changed.
    NoMemory,
    /// Memory ran out in the call. The machine is gone, and the handle holds none.
    Lost,
    /// The handle holds no machine.
    Nothing,
    /// A number stands for nothing, and nothing changed.
    NoSuch,
    /// Bytes hold no opens, and nothing changed.
    Damaged,
    /// Opens would break a law that holds of every manager, and nothing changed.
    Unlawful,
}

impl Outcome {
    /// The number that C is given.
    pub fn code(self) -> u32 {
        match self {
            Outcome::Done => 0,
            Outcome::NoMemory => 1,
            Outcome::Lost => 2,
            Outcome::Nothing => 3,
            Outcome::NoSuch => 4,
            Outcome::Damaged => 5,
            Outcome::Unlawful => 6,
        }
    }
}
