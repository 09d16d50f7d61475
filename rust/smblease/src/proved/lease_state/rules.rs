// Made by tools/plain_rust from crates/lease_state/src/rules.rt. Changes belong there.

/// Which requests of a client on a file take turns (own). A request that comes while an earlier one waits for a lease break waits
/// until that one is answered, if the two take turns.
#[derive(Clone, Copy, Debug, PartialEq, Eq, Hash)]
pub enum Order {
    /// All requests of a client on a file take turns.
    ByClient,
    /// Requests under the same lease key take turns, and so do requests by the same FileId. A create without a key waits for no other request.
    ByKey,
}

/// How far a lease rises when a create under its key asks for more than it has (own). A lease that is breaking never rises.
#[derive(Clone, Copy, Debug, PartialEq, Eq, Hash)]
pub enum Rise {
    /// To what was asked, as far as other opens of the file allow.
    AsFree,
    /// To all that was asked, or not at all. The first create under a key is granted what is free.
    Whole,
}

/// The rules that a server may choose (own). All others are the profile's for every server.
///
/// Windows and Samba were seen to go by `ByKey` and `Whole`.
#[derive(Clone, Copy, Debug, PartialEq, Eq, Hash)]
pub struct Rules {
    pub order: Order,
    pub rise: Rise,
}

impl Order {
    /// The word for the order in command lines and lines of machines: `by-client` or `by-key`.
    pub fn word(self) -> &'static str {
        match self {
            Order::ByClient => "by-client",
            Order::ByKey => "by-key",
        }
    }
}

impl Rise {
    /// The word for it in command lines and lines of machines: `as-free` or `whole`.
    pub fn word(self) -> &'static str {
        match self {
            Rise::AsFree => "as-free",
            Rise::Whole => "whole",
        }
    }
}

impl Rules {
    /// The rules of the profile: by client, and as free. A server that is given no rules has these.
    pub fn profile() -> Rules {
        Rules { order: Order::ByClient, rise: Rise::AsFree }
    }
}

#[cfg(test)]
mod tests {
    use super::*;

    #[test]
    fn each_rule_has_its_word() {
        assert_eq!(Order::ByClient.word(), "by-client");
        assert_eq!(Order::ByKey.word(), "by-key");
        assert_eq!(Rise::AsFree.word(), "as-free");
        assert_eq!(Rise::Whole.word(), "whole");
    }

    #[test]
    fn the_profile_goes_by_client_and_as_free() {
        let Rules { order, rise } = Rules::profile();
        assert_eq!((order, rise), (Order::ByClient, Rise::AsFree));
    }
}
