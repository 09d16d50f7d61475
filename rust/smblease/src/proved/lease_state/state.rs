// Made by tools/plain_rust from crates/lease_state/src/state.rt. Changes belong there.

use std::hash::{Hash, Hasher};
use std::ports::bitflags::{Flag, Flags, bitflag_items};

/// A lease state (MS-SMB2 2.2.13.2): the set of what a client may cache of a file.
///
/// A value that was made with `from_bits_retain` may carry bits past the three that have a name.
/// The calls that are listed here (`from_wire` to `without_handle`), `==` and `Hash` pass over them, and
/// so does `contains` of a named bit. The other calls of the trait `Flags`, such as `bits` and
/// `is_empty`, see them: ask `is_none` and `is_within` in their place.
#[derive(Clone, Copy, Debug)]
pub struct LeaseState(u8);

bitflag_items! {
    impl LeaseState: u8 {
        const READ_CACHING = 1;
        const HANDLE_CACHING = 2;
        const WRITE_CACHING = 4;
    }
}

impl Flags for LeaseState {
    type Bits = u8;

    fn flags<'a>() -> &'a [Flag<LeaseState>] {
        LeaseState::FLAGS
    }

    fn bits(&self) -> u8 {
        self.0
    }

    fn from_bits_retain(bits: u8) -> LeaseState {
        LeaseState(bits)
    }
}

impl PartialEq for LeaseState {
    fn eq(&self, other: &LeaseState) -> bool {
        self.0 & 7 == other.0 & 7
    }
}

impl Eq for LeaseState {}

impl Hash for LeaseState {
    fn hash<H: Hasher>(&self, state: &mut H) {
        (self.0 & 7).hash(state);
    }
}

impl LeaseState {
    /// The state that caches nothing.
    pub const NONE: LeaseState = LeaseState(0);

    /// The state that the wire's 4-byte field names (2.2.13.2). Bits past 7 are dropped.
    pub fn from_wire(bits: u32) -> LeaseState {
        LeaseState((bits & 7) as u8)
    }

    /// The wire's 4-byte field for the state: bits of 7 alone.
    pub fn to_wire(self) -> u32 {
        u32::from(self.0 & 7)
    }

    /// The state as a server grants it: itself, or the empty state where it lacks `READ_CACHING`
    /// (profile).
    pub fn granted_form(self) -> LeaseState {
        if self.caches_reads() { self } else { LeaseState::NONE }
    }

    /// Whether reads may be cached.
    pub fn caches_reads(self) -> bool {
        self.contains(LeaseState::READ_CACHING)
    }

    /// Whether writes may be cached.
    pub fn caches_writes(self) -> bool {
        self.contains(LeaseState::WRITE_CACHING)
    }

    /// Whether handles may be cached.
    pub fn caches_handles(self) -> bool {
        self.contains(LeaseState::HANDLE_CACHING)
    }

    /// Whether nothing may be cached.
    pub fn is_none(self) -> bool {
        !self.holds_any()
    }

    /// Whether all that the state caches is cached in `other` too.
    pub fn is_within(self, other: LeaseState) -> bool {
        (!self.caches_reads() || other.caches_reads())
            && (!self.caches_writes() || other.caches_writes())
            && (!self.caches_handles() || other.caches_handles())
    }

    /// Whether a break of the state is to be acknowledged (3.3.4.7): true exactly where it holds
    /// more than `READ_CACHING`.
    pub fn needs_ack(self) -> bool {
        self.caches_writes() || self.caches_handles()
    }

    /// Whether the state caches something.
    pub fn holds_any(self) -> bool {
        self.caches_reads() || self.caches_writes() || self.caches_handles()
    }

    /// What both cache.
    pub fn meet(self, other: LeaseState) -> LeaseState {
        of_rights(
            self.caches_reads() && other.caches_reads(),
            self.caches_writes() && other.caches_writes(),
            self.caches_handles() && other.caches_handles(),
        )
    }

    /// The state without `WRITE_CACHING`.
    pub fn without_write(self) -> LeaseState {
        of_rights(self.caches_reads(), false, self.caches_handles())
    }

    /// The state without `HANDLE_CACHING`.
    pub fn without_handle(self) -> LeaseState {
        of_rights(self.caches_reads(), self.caches_writes(), false)
    }
}

// The state of these rights.
fn of_rights(reads: bool, writes: bool, handles: bool) -> LeaseState {
    LeaseState(u8::from(reads) + 2 * u8::from(handles) + 4 * u8::from(writes))
}

#[cfg(test)]
mod tests {
    use super::*;
    use std::hash::DefaultHasher;

    #[test]
    fn reads_and_writes_the_wire_field() {
        for bits in 0..8 {
            assert_eq!(LeaseState::from_wire(bits).to_wire(), bits);
        }
        assert_eq!(LeaseState::from_wire(0xFFFF_FFFF).to_wire(), 7);
        assert_eq!(LeaseState::from_wire(0x0000_000B).to_wire(), 3);
    }

    #[test]
    fn grants_nothing_without_reads() {
        for (want, granted) in [(0, 0), (1, 1), (2, 0), (3, 3), (4, 0), (5, 5), (6, 0), (7, 7)] {
            let state = LeaseState::from_wire(want).granted_form();
            assert_eq!(state.to_wire(), granted, "of {want}");
        }
    }

    #[test]
    fn acknowledges_more_than_reads() {
        for (state, needs) in [(0, false), (1, false), (3, true), (5, true), (7, true)] {
            assert_eq!(LeaseState::from_wire(state).needs_ack(), needs, "of {state}");
        }
    }

    #[test]
    fn passes_over_other_bits() {
        let state = LeaseState::from_bits_retain(0xF9);
        assert_eq!(state, LeaseState::READ_CACHING);
        assert_eq!(state.to_wire(), 1);
        assert!(!state.needs_ack());
        assert_eq!(state.granted_form(), LeaseState::READ_CACHING);
        assert_ne!(state, LeaseState::from_wire(3));
        assert!(state.is_within(LeaseState::READ_CACHING));
        let high = LeaseState::from_bits_retain(0xF8);
        assert!(high.is_none() && !high.is_empty());
        assert_eq!(high, LeaseState::NONE);
        assert_eq!(hash_of(&high), hash_of(&LeaseState::NONE));
        assert_ne!(hash_of(&high), hash_of(&state));
    }

    fn hash_of(state: &LeaseState) -> u64 {
        let mut hasher = DefaultHasher::new();
        state.hash(&mut hasher);
        hasher.finish()
    }

    #[test]
    fn rights_are_shared_and_taken_away() {
        let (all, none) = (LeaseState::from_wire(7), LeaseState::NONE);
        let cases: [(u32, u32, u32, u32); 4] = [(7, 3, 5, 3), (5, 1, 5, 1), (6, 2, 4, 2), (2, 2, 0, 2)];
        for (state, without_write, without_handle, with_reads_and_handles) in cases {
            let state = LeaseState::from_wire(state);
            assert!(state.holds_any());
            assert_eq!(state.without_write(), LeaseState::from_wire(without_write));
            assert_eq!(state.without_handle(), LeaseState::from_wire(without_handle));
            let met = state.meet(LeaseState::from_wire(3));
            assert_eq!(met, LeaseState::from_wire(with_reads_and_handles));
            assert_eq!(state.meet(all), state);
            assert_eq!(state.meet(none), none);
        }
        assert!(!none.holds_any());
    }

    #[test]
    fn states_lie_within_others() {
        for (one, other, within) in
            [(0, 0, true), (0, 7, true), (3, 7, true), (3, 3, true), (3, 5, false), (7, 3, false), (4, 2, false), (1, 0, false)]
        {
            let (one, other) = (LeaseState::from_wire(one), LeaseState::from_wire(other));
            assert_eq!(one.is_within(other), within, "{one:?} in {other:?}");
        }
        let all = LeaseState::from_wire(7);
        assert!(all.caches_reads() && all.caches_writes() && all.caches_handles());
        assert!(!all.is_none() && LeaseState::NONE.is_none());
    }
}
