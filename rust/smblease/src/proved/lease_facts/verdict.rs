// Made by tools/plain_rust from crates/lease_facts/src/verdict.rt. Changes belong there.

/// What is promised of every run's record (profile).
// docs/DECISIONS.md: "Rules are an enum, and faults write their text themselves".
#[derive(Clone, Copy, Debug, PartialEq, Eq, Hash)]
pub enum Rule {
    /// Where a good client believes that it may cache writes of a file, no other good client believes that it may
    /// cache anything of it.
    OneWriteCache,
    /// A good client's cached read gives the file as it stood when the message that it took last was sent, with the
    /// client's unanswered writes.
    FreshCachedReads,
    /// Where a buffered write is accepted, no other client opened or changed the file since it was buffered.
    NoLateWrite,
    /// A write that is settled as done was accepted, on its file and with its patch.
    NoFalseDone,
}

impl Rule {
    /// The number of the rule, from 1.
    pub fn number(self) -> u8 {
        match self {
            Rule::OneWriteCache => 1,
            Rule::FreshCachedReads => 2,
            Rule::NoLateWrite => 3,
            Rule::NoFalseDone => 4,
        }
    }
}

/// What a record is (profile): safe, or where it first goes wrong. Places count facts from 1.
#[derive(Clone, Copy, Debug, PartialEq, Eq, Hash)]
pub enum Verdict {
    Safe,
    /// The fact at this place breaks this rule, and none of a lower number.
    Unsafe {
        place: u64,
        rule: Rule,
    },
    /// The fact at this place can't stand in a record: it names a file that wasn't started, starts one again, takes
    /// a message that wasn't sent, has a patch that ends past the limit of a file, or gives a number to a second write.
    Malformed {
        place: u64,
    },
}
