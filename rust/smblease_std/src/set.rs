use crate::alloc::{AllocFailed, Global};
use crate::map::{BTreeMap, Keys};
use core::fmt;

/// An ordered set.
#[derive(PartialEq, Eq)]
pub struct BTreeSet<K>(BTreeMap<K, ()>);

/// A set that nobody asks for an order. Rust's own needs its `std`; this one is ordered.
pub type HashSet<K> = BTreeSet<K>;

impl<K> BTreeSet<K> {
    /// No keys, and no memory.
    pub const fn new(alloc: Global) -> BTreeSet<K> {
        BTreeSet(BTreeMap::new(alloc))
    }

    /// The allocator.
    pub fn allocator(&self) -> &Global {
        &Global
    }

    /// How many keys there are.
    pub fn len(&self) -> usize {
        self.0.len()
    }

    /// Whether there are none.
    pub fn is_empty(&self) -> bool {
        self.0.is_empty()
    }

    /// Leaves no key.
    pub fn clear(&mut self) {
        self.0.clear();
    }

    /// The keys in order.
    pub fn iter(&self) -> Keys<'_, K, ()> {
        self.0.keys()
    }

    /// The lowest key.
    pub fn first(&self) -> Option<&K> {
        self.0.first_key_value().map(|(key, ())| key)
    }

    /// The highest key.
    pub fn last(&self) -> Option<&K> {
        self.0.last_key_value().map(|(key, ())| key)
    }
}

impl<K: Ord> BTreeSet<K> {
    /// Puts a key in, and says whether it wasn't there. It comes back where there is no memory, and the set has the keys that it had.
    pub fn insert(&mut self, key: K) -> Result<bool, AllocFailed<K>> {
        match self.0.insert(key, ()) {
            Ok(held) => Ok(held.is_none()),
            Err(AllocFailed { value: (value, ()) }) => Err(AllocFailed { value }),
        }
    }

    /// Whether the key is there.
    pub fn contains(&self, key: &K) -> bool {
        self.0.contains_key(key)
    }

    /// Takes a key out, and says whether it was there.
    pub fn remove(&mut self, key: &K) -> bool {
        self.0.remove(key).is_some()
    }

    /// Leaves the keys of which this holds.
    pub fn retain<F: FnMut(&K) -> bool>(&mut self, mut holds: F)
    where
        K: Copy,
    {
        self.0.retain(|key, ()| holds(key));
    }
}

impl<K: fmt::Debug> fmt::Debug for BTreeSet<K> {
    fn fmt(&self, f: &mut fmt::Formatter<'_>) -> fmt::Result {
        f.debug_set().entries(self.iter()).finish()
    }
}

impl<'a, K> IntoIterator for &'a BTreeSet<K> {
    type Item = &'a K;
    type IntoIter = Keys<'a, K, ()>;

    fn into_iter(self) -> Keys<'a, K, ()> {
        self.iter()
    }
}
