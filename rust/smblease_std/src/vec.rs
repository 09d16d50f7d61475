use crate::alloc::{AllocError, AllocFailed, Global};
use crate::sorting;
use core::alloc::Layout;
use core::borrow::Borrow;
use core::fmt;
use core::ops::{Deref, DerefMut, RangeBounds};
use rust_alloc::vec::{Drain, IntoIter, Vec as Inner};

/// A vector whose calls say so where memory runs out.
#[derive(PartialEq, Eq, PartialOrd, Ord, Hash)]
pub struct Vec<T>(Inner<T>);

impl<T> Vec<T> {
    /// No items, and no memory.
    #[inline]
    pub const fn new(_alloc: Global) -> Vec<T> {
        Vec(Inner::new())
    }

    /// No items, and room for so many.
    pub fn with_capacity(_alloc: Global, count: usize) -> Result<Vec<T>, AllocError> {
        let layout = Layout::array::<T>(count).map_err(|_| AllocError)?;
        if layout.size() == 0 {
            return Ok(Vec(Inner::new()));
        }
        // SAFETY: the layout has a size. (Reserving in an empty vector does the same in three times as many instructions.)
        let at = unsafe { rust_alloc::alloc::alloc(layout) }.cast::<T>();
        if at.is_null() {
            return Err(AllocError);
        }
        // SAFETY: the memory is the global allocator's, for an array of so many items, of which none is there.
        Ok(Vec(unsafe { Inner::from_raw_parts(at, 0, count) }))
    }

    /// The items of an array.
    pub fn from_array<const N: usize>(alloc: Global, items: [T; N]) -> Result<Vec<T>, AllocError> {
        let mut made = Vec::with_capacity(alloc, N)?;
        made.0.extend(items);
        Ok(made)
    }

    /// The allocator.
    #[inline]
    pub fn allocator(&self) -> &Global {
        &Global
    }

    /// Rust's own vector; nothing is allocated.
    pub fn into_inner(self) -> Inner<T> {
        self.0
    }

    /// Finds room for so many items more.
    #[inline]
    pub fn try_reserve(&mut self, more: usize) -> Result<(), AllocError> {
        self.0.try_reserve(more).map_err(|_| AllocError)
    }

    /// Adds an item at the end. It comes back where there is no memory.
    #[inline]
    pub fn push(&mut self, value: T) -> Result<(), AllocFailed<T>> {
        if self.0.len() == self.0.capacity() && self.0.try_reserve(1).is_err() {
            return Err(AllocFailed { value });
        }
        self.0.push(value);
        Ok(())
    }

    /// Adds an item at a place. It comes back where there is no memory.
    pub fn insert(&mut self, index: usize, value: T) -> Result<(), AllocFailed<T>> {
        if self.0.try_reserve(1).is_err() {
            return Err(AllocFailed { value });
        }
        self.0.insert(index, value);
        Ok(())
    }

    /// Moves all items of another vector to the end. Nothing is moved where there is no memory.
    pub fn append(&mut self, other: &mut Vec<T>) -> Result<(), AllocError> {
        self.try_reserve(other.len())?;
        self.0.append(&mut other.0);
        Ok(())
    }

    /// All items.
    #[inline]
    pub fn as_slice(&self) -> &[T] {
        &self.0
    }

    /// All items, to be changed.
    #[inline]
    pub fn as_mut_slice(&mut self) -> &mut [T] {
        &mut self.0
    }

    /// Takes the last item out.
    #[inline]
    pub fn pop(&mut self) -> Option<T> {
        self.0.pop()
    }

    /// Takes the item at a place out; those behind it move.
    pub fn remove(&mut self, index: usize) -> T {
        self.0.remove(index)
    }

    /// Takes the item at a place out; the last one moves there.
    pub fn swap_remove(&mut self, index: usize) -> T {
        self.0.swap_remove(index)
    }

    /// Leaves so many items at most.
    pub fn truncate(&mut self, count: usize) {
        self.0.truncate(count);
    }

    /// Leaves no item. The room stays.
    pub fn clear(&mut self) {
        self.0.clear();
    }

    /// For how many items there is room.
    pub fn capacity(&self) -> usize {
        self.0.capacity()
    }

    /// Leaves the items of which this holds.
    pub fn retain<F: FnMut(&T) -> bool>(&mut self, holds: F) {
        self.0.retain(holds);
    }

    /// Leaves one of equal items that stand side by side.
    pub fn dedup(&mut self)
    where
        T: PartialEq,
    {
        self.0.dedup();
    }

    /// Takes the items of a range out.
    pub fn drain<R: RangeBounds<usize>>(&mut self, range: R) -> Drain<'_, T> {
        self.0.drain(range)
    }

    /// Sorts the items; equal ones keep their order. They are as they were where there is no memory.
    pub fn sort(&mut self) -> Result<(), AllocError>
    where
        T: Ord,
    {
        sorting::sort_by(&mut self.0, T::cmp)
    }

    /// Sorts the items by a key; those of one key keep their order. They are as they were where there is no memory.
    pub fn sort_by_key<K: Ord, F: Fn(&T) -> K>(&mut self, key: F) -> Result<(), AllocError> {
        sorting::sort_by(&mut self.0, |one, other| key(one).cmp(&key(other)))
    }
}

impl<T: Copy> Vec<T> {
    /// The items of a slice.
    pub fn from_slice(alloc: Global, items: &[T]) -> Result<Vec<T>, AllocError> {
        let mut made = Vec::with_capacity(alloc, items.len())?;
        made.0.extend_from_slice(items);
        Ok(made)
    }

    /// So many times this item.
    pub fn from_elem(alloc: Global, item: T, count: usize) -> Result<Vec<T>, AllocError> {
        let mut made = Vec::with_capacity(alloc, count)?;
        made.0.resize(count, item);
        Ok(made)
    }

    /// Adds the items of a slice at the end; none where there is no memory.
    #[inline]
    pub fn extend_from_slice(&mut self, items: &[T]) -> Result<(), AllocError> {
        self.try_reserve(items.len())?;
        self.0.extend_from_slice(items);
        Ok(())
    }

    /// Leaves so many items, with this one at the end where there were fewer.
    pub fn resize(&mut self, count: usize, item: T) -> Result<(), AllocError> {
        self.try_reserve(count.saturating_sub(self.0.len()))?;
        self.0.resize(count, item);
        Ok(())
    }

    /// The same items in memory of their own.
    #[allow(clippy::should_implement_trait, reason = "Rust's clone can't say that there is no memory")]
    pub fn clone(&self) -> Result<Vec<T>, AllocError> {
        Vec::from_slice(Global, self)
    }
}

impl<T> From<Inner<T>> for Vec<T> {
    fn from(items: Inner<T>) -> Vec<T> {
        Vec(items)
    }
}

impl<T> Deref for Vec<T> {
    type Target = [T];

    #[inline]
    fn deref(&self) -> &[T] {
        &self.0
    }
}

impl<T> DerefMut for Vec<T> {
    #[inline]
    fn deref_mut(&mut self) -> &mut [T] {
        &mut self.0
    }
}

impl<T: fmt::Debug> fmt::Debug for Vec<T> {
    fn fmt(&self, f: &mut fmt::Formatter<'_>) -> fmt::Result {
        self.0.fmt(f)
    }
}

impl<T> IntoIterator for Vec<T> {
    type Item = T;
    type IntoIter = IntoIter<T>;

    fn into_iter(self) -> IntoIter<T> {
        self.0.into_iter()
    }
}

impl<'a, T> IntoIterator for &'a Vec<T> {
    type Item = &'a T;
    type IntoIter = core::slice::Iter<'a, T>;

    fn into_iter(self) -> core::slice::Iter<'a, T> {
        self.0.iter()
    }
}

impl<'a, T> IntoIterator for &'a mut Vec<T> {
    type Item = &'a mut T;
    type IntoIter = core::slice::IterMut<'a, T>;

    fn into_iter(self) -> core::slice::IterMut<'a, T> {
        self.0.iter_mut()
    }
}

impl<T> Borrow<[T]> for Vec<T> {
    fn borrow(&self) -> &[T] {
        &self.0
    }
}

impl<T> AsRef<[T]> for Vec<T> {
    fn as_ref(&self) -> &[T] {
        &self.0
    }
}
