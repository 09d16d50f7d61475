// Made by tools/plain_rust from crates/lease_client/src/entry/handles.rt. Changes belong there.

use crate::proved::lease_client::entry::Asked;

/// How many handles applications have on an open, and the second create, if one is under way, that
/// asks for one more on other terms.
// docs/DECISIONS.md: "A handle count that can't run over".
#[derive(Clone, Copy, Debug)]
pub struct Handles {
    count: u32,
    asking: Option<Asked>,
}

impl Handles {
    /// So many, and none is asked for.
    pub fn of(count: u32) -> Handles {
        Handles { count, asking: None }
    }

    /// How many there are; with none the entry is parked.
    pub fn count(&self) -> u32 {
        self.count
    }

    /// The access and the share that are asked for.
    pub fn asking(&self) -> Option<Asked> {
        self.asking
    }

    /// One more.
    pub fn with_more(self) -> Handles {
        Handles { count: self.count + 1, asking: None }
    }

    /// One less, if there is one.
    pub fn with_less(self) -> Handles {
        Handles { count: self.count.saturating_sub(1), asking: self.asking }
    }

    /// One more is asked for.
    pub fn with_asked(self, asked: Asked) -> Handles {
        Handles { count: self.count, asking: Some(asked) }
    }

    /// What was asked for is refused.
    pub fn with_refused(self) -> Handles {
        Handles { count: self.count, asking: None }
    }

    /// The one that was asked for is there.
    pub fn with_granted(self) -> Handles {
        Handles { count: self.count + 1, asking: None }
    }
}
