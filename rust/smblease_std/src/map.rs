//! Ordered maps as B-trees whose insertions say so where memory runs out, and leave the map as it was then. Rust's own map can't
//! refuse. All of it is safe code.
use crate::alloc::{AllocFailed, Global};
use crate::boxed::Box;
use arrayvec::ArrayVec;
use core::borrow::Borrow;
use core::cmp::Ordering;
use core::{fmt, mem};

// A node but the root has at least HALF entries, and none has more than FULL.
const FULL: usize = 11;
const HALF: usize = 5;
// More levels than memory can have: a branch but the root has six children.
const LEVELS: usize = 24;

type Children<K, V> = ArrayVec<Box<Node<K, V>>, { FULL + 1 }>;

// Keys in order, the value of each, and the children between them; a leaf has none.
struct Node<K, V> {
    keys: ArrayVec<K, FULL>,
    children: Children<K, V>,
    values: ArrayVec<V, FULL>,
}

impl<K, V> Node<K, V> {
    fn empty() -> Option<Box<Node<K, V>>> {
        Box::new(Global, Node { keys: ArrayVec::new(), children: ArrayVec::new(), values: ArrayVec::new() }).ok()
    }

    fn is_leaf(&self) -> bool {
        self.children.is_empty()
    }

    fn is_full(&self) -> bool {
        self.keys.is_full()
    }

    fn child(&self, at: usize) -> Option<&Node<K, V>> {
        self.children.get(at).map(|child| &**child)
    }

    fn child_mut(&mut self, at: usize) -> Option<&mut Node<K, V>> {
        self.children.get_mut(at).map(|child| &mut **child)
    }

    fn insert(&mut self, at: usize, key: K, value: V) {
        self.keys.insert(at, key);
        self.values.insert(at, value);
    }

    fn remove(&mut self, at: usize) -> (K, V) {
        (self.keys.remove(at), self.values.remove(at))
    }

    fn replace(&mut self, at: usize, (key, value): (K, V)) -> (K, V) {
        (mem::replace(&mut self.keys[at], key), mem::replace(&mut self.values[at], value))
    }

    // Whether the child at this place can lose an entry.
    fn has_more_than_half(&self, at: usize) -> bool {
        self.child(at).is_some_and(|child| child.keys.len() > HALF)
    }

    // The entries behind the middle, with their children, move to a node of their own.
    fn split_off(&mut self) -> Option<Box<Node<K, V>>> {
        let mut right = Node::empty()?;
        right.keys.extend(self.keys.drain(HALF + 1..));
        right.values.extend(self.values.drain(HALF + 1..));
        if !self.is_leaf() {
            right.children.extend(self.children.drain(HALF + 1..));
        }
        Some(right)
    }

    // The full child at this place becomes two. Its middle entry comes here, where there is room for it.
    fn halve(&mut self, at: usize) -> Option<()> {
        let full = &mut self.children[at];
        let right = full.split_off()?;
        let middle = (full.keys.pop()?, full.values.pop()?);
        self.children.insert(at + 1, right);
        self.insert(at, middle.0, middle.1);
        Some(())
    }

    // The entry at this place and the child behind it go to the child before it.
    fn join(&mut self, at: usize) {
        let (key, value) = self.remove(at);
        let mut right = self.children.remove(at + 1);
        let left = &mut self.children[at];
        left.keys.push(key);
        left.values.push(value);
        left.keys.extend(right.keys.drain(..));
        left.values.extend(right.values.drain(..));
        left.children.extend(right.children.drain(..));
    }

    // The last entry of the child before this one comes here, and the one that parts them goes to the front of the child.
    fn borrow_before(&mut self, at: usize) -> Option<()> {
        let left = self.child_mut(at - 1)?;
        let entry = (left.keys.pop()?, left.values.pop()?);
        let moved = left.children.pop();
        let (key, value) = self.replace(at - 1, entry);
        let weak = self.child_mut(at)?;
        weak.insert(0, key, value);
        if let Some(moved) = moved {
            weak.children.insert(0, moved);
        }
        Some(())
    }

    // The first entry of the child behind this one comes here, and the one that parts them goes to the end of the child.
    fn borrow_behind(&mut self, at: usize) -> Option<()> {
        let right = self.child_mut(at + 1)?;
        let entry = right.remove(0);
        let moved = right.children.pop_at(0);
        let (key, value) = self.replace(at, entry);
        let weak = self.child_mut(at)?;
        let end = weak.keys.len();
        weak.insert(end, key, value);
        weak.children.extend(moved);
        Some(())
    }

    // Sees to it that the child at this place can lose an entry, and gives where it is then.
    fn strengthen(&mut self, at: usize) -> usize {
        if self.has_more_than_half(at) {
            return at;
        }
        if at > 0 && self.has_more_than_half(at - 1) {
            self.borrow_before(at);
            return at;
        }
        if self.has_more_than_half(at + 1) {
            self.borrow_behind(at);
            return at;
        }
        let left = if at == self.keys.len() { at - 1 } else { at };
        self.join(left);
        left
    }

    // Takes the last entry out. This node can lose one.
    fn take_last(&mut self) -> Option<(K, V)> {
        let mut node = self;
        while !node.is_leaf() {
            let at = node.strengthen(node.keys.len());
            node = node.child_mut(at)?;
        }
        Some((node.keys.pop()?, node.values.pop()?))
    }

    // Takes the first entry out. This node can lose one.
    fn take_first(&mut self) -> Option<(K, V)> {
        let mut node = self;
        while !node.is_leaf() {
            let at = node.strengthen(0);
            node = node.child_mut(at)?;
        }
        (!node.keys.is_empty()).then(|| node.remove(0))
    }
}

impl<K: Ord, V> Node<K, V> {
    // Where the key is, or where it would be.
    #[inline]
    fn place_of<Q: Ord + ?Sized>(&self, key: &Q) -> Result<usize, usize>
    where
        K: Borrow<Q>,
    {
        for (at, one) in self.keys.iter().enumerate() {
            match key.cmp(one.borrow()) {
                Ordering::Less => return Err(at),
                Ordering::Equal => return Ok(at),
                Ordering::Greater => (),
            }
        }
        Err(self.keys.len())
    }

    // Takes an entry out. This node can lose one, or is the root.
    fn take(&mut self, key: &K) -> Option<(K, V)> {
        let mut node = self;
        loop {
            let found = node.place_of(key);
            if node.is_leaf() {
                return found.ok().map(|at| node.remove(at));
            }
            let at = match found {
                Ok(at) if node.has_more_than_half(at) => {
                    let entry = node.child_mut(at)?.take_last()?;
                    return Some(node.replace(at, entry));
                }
                Ok(at) if node.has_more_than_half(at + 1) => {
                    let entry = node.child_mut(at + 1)?.take_first()?;
                    return Some(node.replace(at, entry));
                }
                Ok(at) => {
                    node.join(at);
                    at
                }
                Err(at) => node.strengthen(at),
            };
            node = node.child_mut(at)?;
        }
    }
}

/// An ordered map.
pub struct BTreeMap<K, V> {
    root: Option<Box<Node<K, V>>>,
    count: usize,
}

impl<K, V> BTreeMap<K, V> {
    /// No entries, and no memory.
    pub const fn new(_alloc: Global) -> BTreeMap<K, V> {
        BTreeMap { root: None, count: 0 }
    }

    /// The allocator.
    pub fn allocator(&self) -> &Global {
        &Global
    }

    /// How many entries there are.
    pub fn len(&self) -> usize {
        self.count
    }

    /// Whether there are none.
    pub fn is_empty(&self) -> bool {
        self.count == 0
    }

    /// Leaves no entry.
    pub fn clear(&mut self) {
        *self = BTreeMap::new(Global);
    }

    /// The entries in the order of their keys.
    pub fn iter(&self) -> Iter<'_, K, V> {
        let mut iter = Iter { path: ArrayVec::new() };
        iter.descend(self.root.as_deref());
        iter
    }

    /// The keys in order.
    pub fn keys(&self) -> Keys<'_, K, V> {
        Keys(self.iter())
    }

    /// The values in the order of their keys.
    pub fn values(&self) -> Values<'_, K, V> {
        Values(self.iter())
    }

    /// The entry with the lowest key.
    pub fn first_key_value(&self) -> Option<(&K, &V)> {
        let mut node = self.root.as_deref()?;
        while let Some(child) = node.child(0) {
            node = child;
        }
        Some((node.keys.first()?, node.values.first()?))
    }

    /// The entry with the highest key.
    pub fn last_key_value(&self) -> Option<(&K, &V)> {
        let mut node = self.root.as_deref()?;
        while let Some(child) = node.child(node.keys.len()) {
            node = child;
        }
        Some((node.keys.last()?, node.values.last()?))
    }
}

impl<K: Ord, V> BTreeMap<K, V> {
    /// The key's value.
    pub fn get<Q: Ord + ?Sized>(&self, key: &Q) -> Option<&V>
    where
        K: Borrow<Q>,
    {
        let mut node = self.root.as_deref()?;
        loop {
            match node.place_of(key) {
                Ok(at) => return node.values.get(at),
                Err(at) => node = node.child(at)?,
            }
        }
    }

    /// The key's value, to be changed.
    pub fn get_mut<Q: Ord + ?Sized>(&mut self, key: &Q) -> Option<&mut V>
    where
        K: Borrow<Q>,
    {
        let mut node = self.root.as_deref_mut()?;
        loop {
            match node.place_of(key) {
                Ok(at) => return node.values.get_mut(at),
                Err(at) => node = node.child_mut(at)?,
            }
        }
    }

    /// Whether the key has a value.
    pub fn contains_key(&self, key: &K) -> bool {
        self.get(key).is_some()
    }

    // The leaf where the key would be, and its place there; nodes on the way to it that are full are halved, so that there is room.
    fn room_for(&mut self, key: &K) -> Option<(&mut Node<K, V>, usize)> {
        if self.root.is_none() {
            self.root = Some(Node::empty()?);
        }
        if self.root.as_ref().is_some_and(|root| root.is_full()) {
            self.grow()?;
        }
        let mut node = self.root.as_deref_mut()?;
        loop {
            let (Ok(mut at) | Err(mut at)) = node.place_of(key);
            if node.is_leaf() {
                return Some((node, at));
            }
            if node.child(at)?.is_full() {
                node.halve(at)?;
                at += usize::from(*key > node.keys[at]);
            }
            node = node.child_mut(at)?;
        }
    }

    // The root, which is full, gets two halves as children of a new one.
    fn grow(&mut self) -> Option<()> {
        let mut root = Node::empty()?;
        let right = self.root.as_deref_mut()?.split_off()?;
        let mut left = self.root.take()?;
        let (key, value) = (left.keys.pop()?, left.values.pop()?);
        root.insert(0, key, value);
        root.children.push(left);
        root.children.push(right);
        self.root = Some(root);
        Some(())
    }

    /// Puts a value under a key, and gives the one that was there. Where there is no memory both come back, and the map has the
    /// entries that it had.
    pub fn insert(&mut self, key: K, value: V) -> Result<Option<V>, AllocFailed<(K, V)>> {
        if let Some(held) = self.get_mut(&key) {
            return Ok(Some(mem::replace(held, value)));
        }
        let Some((leaf, at)) = self.room_for(&key) else {
            return Err(AllocFailed { value: (key, value) });
        };
        leaf.insert(at, key, value);
        self.count += 1;
        Ok(None)
    }

    /// Takes the key's value out.
    pub fn remove(&mut self, key: &K) -> Option<V> {
        let root = self.root.as_deref_mut()?;
        let taken = root.take(key);
        if root.keys.is_empty() {
            let child = root.children.pop();
            self.root = child;
        }
        let (_, value) = taken?;
        self.count -= 1;
        Some(value)
    }

    // The first entry, or the first one whose key is above this one.
    fn following(&mut self, key: Option<&K>) -> Option<(&K, &mut V)> {
        let mut node = self.root.as_deref_mut()?;
        let mut best = None;
        loop {
            let at = key.map_or(0, |key| node.keys.partition_point(|one| one <= key));
            let Node { keys, children, values } = node;
            if let (Some(one), Some(value)) = (keys.get(at), values.get_mut(at)) {
                best = Some((one, value));
            }
            match children.get_mut(at) {
                Some(child) => node = child,
                None => return best,
            }
        }
    }

    /// Leaves the entries of which this holds, asked in the order of their keys.
    pub fn retain<F: FnMut(&K, &mut V) -> bool>(&mut self, mut holds: F)
    where
        K: Copy,
    {
        let mut last: Option<K> = None;
        while let Some((key, value)) = self.following(last.as_ref()) {
            let key = *key;
            if !holds(&key, value) {
                self.remove(&key);
            }
            last = Some(key);
        }
    }
}

impl<K: fmt::Debug, V: fmt::Debug> fmt::Debug for BTreeMap<K, V> {
    fn fmt(&self, f: &mut fmt::Formatter<'_>) -> fmt::Result {
        f.debug_map().entries(self.iter()).finish()
    }
}

impl<K: PartialEq, V: PartialEq> PartialEq for BTreeMap<K, V> {
    fn eq(&self, other: &BTreeMap<K, V>) -> bool {
        self.count == other.count && self.iter().eq(other.iter())
    }
}

impl<K: Eq, V: Eq> Eq for BTreeMap<K, V> {}

impl<'a, K, V> IntoIterator for &'a BTreeMap<K, V> {
    type Item = (&'a K, &'a V);
    type IntoIter = Iter<'a, K, V>;

    fn into_iter(self) -> Iter<'a, K, V> {
        self.iter()
    }
}

/// The entries in the order of their keys.
pub struct Iter<'a, K, V> {
    // Each node on the way, and the place of its next entry.
    path: ArrayVec<(&'a Node<K, V>, usize), LEVELS>,
}

impl<'a, K, V> Iter<'a, K, V> {
    fn descend(&mut self, from: Option<&'a Node<K, V>>) {
        let mut next = from;
        while let Some(node) = next {
            self.path.push((node, 0));
            next = node.child(0);
        }
    }
}

impl<'a, K, V> Iterator for Iter<'a, K, V> {
    type Item = (&'a K, &'a V);

    fn next(&mut self) -> Option<(&'a K, &'a V)> {
        while let Some((node, at)) = self.path.last_mut() {
            let (node, here): (&'a Node<K, V>, usize) = (node, *at);
            if let (Some(key), Some(value)) = (node.keys.get(here), node.values.get(here)) {
                *at += 1;
                self.descend(node.child(here + 1));
                return Some((key, value));
            }
            self.path.pop();
        }
        None
    }
}

/// The keys in order.
pub struct Keys<'a, K, V>(Iter<'a, K, V>);

impl<'a, K, V> Iterator for Keys<'a, K, V> {
    type Item = &'a K;

    fn next(&mut self) -> Option<&'a K> {
        self.0.next().map(|(key, _)| key)
    }
}

/// The values in the order of their keys.
pub struct Values<'a, K, V>(Iter<'a, K, V>);

impl<'a, K, V> Iterator for Values<'a, K, V> {
    type Item = &'a V;

    fn next(&mut self) -> Option<&'a V> {
        self.0.next().map(|(_, value)| value)
    }
}

#[cfg(test)]
impl<K: Ord, V> BTreeMap<K, V> {
    // Whether every node but the root is half full at least, all leaves are equally deep, and each branch has its children.
    pub(crate) fn is_sound(&self) -> bool {
        self.root.as_ref().is_none_or(|root| !root.keys.is_empty() && root.depth().is_some())
    }
}

#[cfg(test)]
impl<K: Ord, V> Node<K, V> {
    fn depth(&self) -> Option<usize> {
        if !self.keys.is_sorted() || self.keys.len() != self.values.len() {
            return None;
        }
        if self.is_leaf() {
            return Some(0);
        }
        let depths: rust_std::vec::Vec<_> = self.children.iter().map(|child| child.depth()).collect();
        let halves = self.children.iter().all(|child| child.keys.len() >= HALF);
        let is_whole = self.children.len() == self.keys.len() + 1 && halves && depths.windows(2).all(|two| two[0] == two[1]);
        if is_whole { depths[0].map(|depth| depth + 1) } else { None }
    }
}

#[cfg(test)]
mod tests {
    use super::{BTreeMap, Global};
    use rust_std::collections::BTreeMap as Rusts;

    // A number below the limit, another one each time.
    fn drawn(state: &mut u64, limit: u64) -> u64 {
        *state = state.wrapping_mul(6_364_136_223_846_793_005).wrapping_add(1_442_695_040_888_963_407);
        (*state >> 33) % limit
    }

    fn compare(map: &BTreeMap<u64, u64>, rusts: &Rusts<u64, u64>) {
        assert!(map.is_sound());
        assert!(map.iter().eq(rusts.iter()) && map.keys().eq(rusts.keys()) && map.values().eq(rusts.values()));
        assert_eq!((map.len(), map.is_empty()), (rusts.len(), rusts.is_empty()));
        assert_eq!((map.first_key_value(), map.last_key_value()), (rusts.first_key_value(), rusts.last_key_value()));
    }

    fn step(map: &mut BTreeMap<u64, u64>, rusts: &mut Rusts<u64, u64>, state: &mut u64, keys: u64, removes: u64) {
        let (key, value) = (drawn(state, keys), drawn(state, 1_000));
        if drawn(state, 10) < removes {
            assert_eq!(map.remove(&key), rusts.remove(&key));
        } else {
            assert_eq!(map.insert(key, value).ok(), Some(rusts.insert(key, value)));
        }
        let other = drawn(state, keys);
        assert_eq!(map.get(&other), rusts.get(&other));
        assert_eq!(map.get_mut(&other), rusts.get_mut(&other));
        assert_eq!(map.contains_key(&other), rusts.contains_key(&other));
    }

    // Maps that grow and shrink, of few keys and of many.
    #[test]
    fn does_what_rusts_own_does() {
        for seed in 0..60 {
            let (mut map, mut rusts, mut state) = (BTreeMap::new(Global), Rusts::new(), seed);
            let keys = [8, 40, 300, 5_000][seed as usize % 4];
            for count in 0..2_000 {
                let removes = if count % 1_000 < 500 { 2 } else { 8 };
                step(&mut map, &mut rusts, &mut state, keys, removes);
                if count % 50 == 0 {
                    compare(&map, &rusts);
                }
            }
            compare(&map, &rusts);
        }
    }

    #[test]
    fn keeps_what_it_is_asked_to() {
        for seed in 0..40 {
            let (mut map, mut rusts, mut state) = (BTreeMap::new(Global), Rusts::new(), seed);
            for _ in 0..drawn(&mut state, 400) {
                step(&mut map, &mut rusts, &mut state, 500, 1);
            }
            let kept = 1 + drawn(&mut state, 5);
            let holds = |key: &u64, value: &mut u64| {
                *value += 1;
                (*key).is_multiple_of(kept)
            };
            map.retain(holds);
            rusts.retain(holds);
            compare(&map, &rusts);
            map.clear();
            compare(&map, &Rusts::new());
        }
    }

    // Keys that rise and fall, which halve and join at the ends alone.
    #[test]
    fn takes_keys_in_order() {
        let (mut map, mut rusts) = (BTreeMap::new(Global), Rusts::new());
        for key in (0..3_000).chain((3_000..6_000).rev()) {
            assert_eq!(map.insert(key, key).ok(), Some(rusts.insert(key, key)));
        }
        compare(&map, &rusts);
        for key in (0..1_500).chain((1_500..6_000).rev()) {
            assert_eq!(map.remove(&key), rusts.remove(&key));
            if key % 100 == 0 {
                compare(&map, &rusts);
            }
        }
        compare(&map, &rusts);
    }
}
