// Made by tools/plain_rust from crates/lease_manager/src/tables/multimap.rt. Changes belong there.

use std::prelude::Vec;

use crate::proved::lease_manager::tables::sets::Sets;
use crate::proved::lease_state::Memory;
use std::alloc::Global;
use std::cmp::Ordering;
use std::collections::BTreeMap;

/// Rising values under each key, of which most have one: such as the FileIds of each lease's opens. A key's first value stands
/// by itself, so that a set is made where there is a second one.
#[derive(Debug)]
pub struct Multimap<K: Ord, V: Ord> {
    /// Of the keys that have values.
    firsts: BTreeMap<K, V>,
    /// Of the keys that have more than one.
    others: Sets<K, V>,
}

impl<K: Ord + Copy, V: Ord + Copy> Multimap<K, V> {
    /// No key has values. Allocates nothing.
    pub fn new(alloc: Global) -> Multimap<K, V> {
        Multimap { firsts: BTreeMap::new(alloc), others: Sets::new(alloc) }
    }

    /// The values of the key, rising.
    ///
    /// # Errors
    ///
    /// `Memory` where there is none left for the list.
    pub fn listed(&self, alloc: Global, key: K) -> Result<Vec<V>, Memory> {
        match self.firsts.get(&key) {
            Some(first) => {
                let mut list = self.others.listed(alloc, key)?;
                list.insert(0, *first)?;
                Ok(list)
            }
            None => Ok(Vec::new(alloc)),
        }
    }

    /// The key has one value more, which is above its first.
    ///
    /// # Errors
    ///
    /// `Memory` where there is none left for it.
    pub fn insert(&mut self, alloc: Global, key: K, value: V) -> Result<(), Memory> {
        match self.firsts.get(&key) {
            Some(_) => self.others.insert(alloc, key, value),
            None => {
                self.others.clear(key);
                self.firsts.insert(key, value)?;
                Ok(())
            }
        }
    }

    /// The key no longer has the value.
    pub fn remove(&mut self, key: K, value: V) {
        match self.firsts.get_mut(&key) {
            Some(first) => match value.cmp(first) {
                Ordering::Equal => match self.others.take_first(key) {
                    Some(next) => *first = next,
                    None => {
                        self.firsts.remove(&key);
                    }
                },
                _ => self.others.remove(key, value),
            },
            None => {}
        }
    }
}
