use crate::string::String;
use crate::vec::Vec;

/// What can be seen as text.
pub trait AsStr {
    /// The text.
    fn as_str(&self) -> &str;
}

impl AsStr for str {
    fn as_str(&self) -> &str {
        self
    }
}

impl AsStr for String {
    fn as_str(&self) -> &str {
        self
    }
}

impl<S: AsStr + ?Sized> AsStr for &S {
    fn as_str(&self) -> &str {
        (**self).as_str()
    }
}

/// What can be seen as a slice.
pub trait AsSlice<T> {
    /// The slice.
    fn as_slice(&self) -> &[T];
}

impl<T> AsSlice<T> for [T] {
    fn as_slice(&self) -> &[T] {
        self
    }
}

impl<T, const N: usize> AsSlice<T> for [T; N] {
    fn as_slice(&self) -> &[T] {
        self
    }
}

impl<T> AsSlice<T> for Vec<T> {
    fn as_slice(&self) -> &[T] {
        self
    }
}

impl AsSlice<u8> for str {
    fn as_slice(&self) -> &[u8] {
        self.as_bytes()
    }
}

impl<T, S: AsSlice<T> + ?Sized> AsSlice<T> for &S {
    fn as_slice(&self) -> &[T] {
        (**self).as_slice()
    }
}
