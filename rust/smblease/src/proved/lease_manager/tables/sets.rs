// Made by tools/plain_rust from crates/lease_manager/src/tables/sets.rt. Changes belong there.

use std::prelude::Vec;

use crate::proved::lease_state::Memory;
use std::alloc::Global;
use std::collections::{BTreeMap, BTreeSet};

/// A set under each key, such as the FileIds of each client's opens.
#[derive(Debug)]
pub struct Sets<K: Ord, V: Ord> {
    /// Of the keys that have values.
    by_key: BTreeMap<K, BTreeSet<V>>,
}

impl<K: Ord + Copy, V: Ord + Copy> Sets<K, V> {
    /// No key has values. Allocates nothing.
    pub fn new(alloc: Global) -> Sets<K, V> {
        Sets { by_key: BTreeMap::new(alloc) }
    }

    /// The values of the key, if it has any.
    pub fn at(&self, key: K) -> Option<&BTreeSet<V>> {
        self.by_key.get(&key)
    }

    /// The values of the key, rising.
    ///
    /// # Errors
    ///
    /// `Memory` where there is none left for the list.
    pub fn listed(&self, alloc: Global, key: K) -> Result<Vec<V>, Memory> {
        match self.at(key) {
            Some(values) => listed(alloc, values),
            None => Ok(Vec::new(alloc)),
        }
    }

    /// The key has one value more.
    ///
    /// # Errors
    ///
    /// `Memory` where there is none left for it; nothing has changed then.
    pub fn insert(&mut self, alloc: Global, key: K, value: V) -> Result<(), Memory> {
        match self.by_key.get_mut(&key) {
            Some(values) => match values.insert(value) {
                Ok(_) => Ok(()),
                Err(_) => Err(Memory),
            },
            None => {
                let mut values = BTreeSet::new(alloc);
                values.insert(value)?;
                self.by_key.insert(key, values)?;
                Ok(())
            }
        }
    }

    /// The key no longer has the value.
    pub fn remove(&mut self, key: K, value: V) {
        match self.by_key.get_mut(&key) {
            Some(values) => {
                values.remove(&value);
                if values.is_empty() {
                    self.by_key.remove(&key);
                }
            }
            None => {}
        }
    }

    /// The key no longer has its first value, if it had one.
    pub fn take_first(&mut self, key: K) -> Option<V> {
        match self.by_key.get_mut(&key) {
            Some(values) => {
                let first = taken_first(values);
                if values.is_empty() {
                    self.by_key.remove(&key);
                }
                first
            }
            None => None,
        }
    }

    /// The key no longer has values.
    pub fn clear(&mut self, key: K) {
        self.by_key.remove(&key);
    }
}

// The first value, which goes.
fn taken_first<V: Ord + Copy>(values: &mut BTreeSet<V>) -> Option<V> {
    let first = *values.first()?;
    values.remove(&first);
    Some(first)
}

/// The values, rising.
///
/// # Errors
///
/// `Memory` where there is none left for the list.
pub fn listed<V: Ord + Copy>(alloc: Global, values: &BTreeSet<V>) -> Result<Vec<V>, Memory> {
    let mut list = Vec::new(alloc);
    for value in values {
        list.push(*value)?;
    }
    Ok(list)
}
