use crate::alloc::{AllocError, AllocFailed, Global};
use core::fmt;
use core::ops::{Index, IndexMut};
use rust_alloc::collections::vec_deque::{IntoIter, Iter, IterMut, VecDeque as Inner};

/// A queue with two ends, whose calls say so where memory runs out.
#[derive(PartialEq, Eq)]
pub struct VecDeque<T>(Inner<T>);

impl<T> VecDeque<T> {
    /// No items, and no memory.
    pub const fn new(_alloc: Global) -> VecDeque<T> {
        VecDeque(Inner::new())
    }

    /// The allocator.
    pub fn allocator(&self) -> &Global {
        &Global
    }

    /// Adds an item at the end. It comes back where there is no memory.
    pub fn push_back(&mut self, value: T) -> Result<(), AllocFailed<T>> {
        if self.0.try_reserve(1).is_err() {
            return Err(AllocFailed { value });
        }
        self.0.push_back(value);
        Ok(())
    }

    /// Adds an item at the front. It comes back where there is no memory.
    pub fn push_front(&mut self, value: T) -> Result<(), AllocFailed<T>> {
        if self.0.try_reserve(1).is_err() {
            return Err(AllocFailed { value });
        }
        self.0.push_front(value);
        Ok(())
    }

    /// Takes the first item out.
    pub fn pop_front(&mut self) -> Option<T> {
        self.0.pop_front()
    }

    /// Takes the last item out.
    pub fn pop_back(&mut self) -> Option<T> {
        self.0.pop_back()
    }

    /// The first item.
    pub fn front(&self) -> Option<&T> {
        self.0.front()
    }

    /// The last item.
    pub fn back(&self) -> Option<&T> {
        self.0.back()
    }

    /// The last item, to be changed.
    pub fn back_mut(&mut self) -> Option<&mut T> {
        self.0.back_mut()
    }

    /// The item at a place.
    pub fn get(&self, index: usize) -> Option<&T> {
        self.0.get(index)
    }

    /// The item at a place, to be changed.
    pub fn get_mut(&mut self, index: usize) -> Option<&mut T> {
        self.0.get_mut(index)
    }

    /// How many items there are.
    pub fn len(&self) -> usize {
        self.0.len()
    }

    /// Whether there are none.
    pub fn is_empty(&self) -> bool {
        self.0.is_empty()
    }

    /// Takes the item at a place out.
    pub fn remove(&mut self, index: usize) -> Option<T> {
        self.0.remove(index)
    }

    /// Leaves so many items at most.
    pub fn truncate(&mut self, count: usize) {
        self.0.truncate(count);
    }

    /// Leaves no item. The room stays.
    pub fn clear(&mut self) {
        self.0.clear();
    }

    /// Leaves the items of which this holds.
    pub fn retain<F: FnMut(&T) -> bool>(&mut self, holds: F) {
        self.0.retain(holds);
    }

    /// Moves all items of another queue to the end. Nothing is moved where there is no memory.
    pub fn append(&mut self, other: &mut VecDeque<T>) -> Result<(), AllocError> {
        self.0.try_reserve(other.len()).map_err(|_| AllocError)?;
        self.0.append(&mut other.0);
        Ok(())
    }

    /// The items as two slices, the one behind the other.
    pub fn as_slices(&self) -> (&[T], &[T]) {
        self.0.as_slices()
    }

    /// Where the first item is of which this doesn't hold; it holds of all before it, and of none behind it.
    pub fn partition_point<F: FnMut(&T) -> bool>(&self, holds: F) -> usize {
        self.0.partition_point(holds)
    }

    /// The items in order.
    pub fn iter(&self) -> Iter<'_, T> {
        self.0.iter()
    }

    /// The items in order, to be changed.
    pub fn iter_mut(&mut self) -> IterMut<'_, T> {
        self.0.iter_mut()
    }
}

impl<T> Index<usize> for VecDeque<T> {
    type Output = T;

    fn index(&self, index: usize) -> &T {
        &self.0[index]
    }
}

impl<T> IndexMut<usize> for VecDeque<T> {
    fn index_mut(&mut self, index: usize) -> &mut T {
        &mut self.0[index]
    }
}

impl<T: fmt::Debug> fmt::Debug for VecDeque<T> {
    fn fmt(&self, f: &mut fmt::Formatter<'_>) -> fmt::Result {
        self.0.fmt(f)
    }
}

impl<T> IntoIterator for VecDeque<T> {
    type Item = T;
    type IntoIter = IntoIter<T>;

    fn into_iter(self) -> IntoIter<T> {
        self.0.into_iter()
    }
}

impl<'a, T> IntoIterator for &'a VecDeque<T> {
    type Item = &'a T;
    type IntoIter = Iter<'a, T>;

    fn into_iter(self) -> Iter<'a, T> {
        self.0.iter()
    }
}
