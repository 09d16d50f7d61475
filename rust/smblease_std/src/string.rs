use crate::alloc::{AllocError, Global};
use crate::vec::Vec;
use core::fmt;
use core::ops::Deref;
use rust_alloc::string::String as Inner;

/// A text whose calls say so where memory runs out.
#[derive(PartialEq, Eq, PartialOrd, Ord, Hash)]
pub struct String(Inner);

impl String {
    /// No letters, and no memory.
    pub const fn new(_alloc: Global) -> String {
        String(Inner::new())
    }

    /// The letters of a text.
    #[allow(clippy::should_implement_trait, reason = "Rust's own is passed no allocator")]
    pub fn from_str(alloc: Global, text: &str) -> Result<String, AllocError> {
        let mut made = String::new(alloc);
        made.push_str(text)?;
        Ok(made)
    }

    /// Rust's own text; nothing is allocated.
    pub fn into_inner(self) -> Inner {
        self.0
    }

    /// The allocator.
    #[inline]
    pub fn allocator(&self) -> &Global {
        &Global
    }

    /// Adds a text at the end; nothing where there is no memory.
    #[inline]
    pub fn push_str(&mut self, text: &str) -> Result<(), AllocError> {
        self.0.try_reserve(text.len()).map_err(|_| AllocError)?;
        self.0.push_str(text);
        Ok(())
    }

    /// Adds a letter at the end; nothing where there is no memory.
    #[inline]
    pub fn push(&mut self, letter: char) -> Result<(), AllocError> {
        self.0.try_reserve(letter.len_utf8()).map_err(|_| AllocError)?;
        self.0.push(letter);
        Ok(())
    }

    /// What `write!` calls.
    pub fn write_fmt(&mut self, told: fmt::Arguments<'_>) -> Result<(), AllocError> {
        fmt::Write::write_fmt(self, told).map_err(|_| AllocError)
    }

    /// The text.
    #[inline]
    pub fn as_str(&self) -> &str {
        &self.0
    }

    /// Leaves no letter. The room stays.
    pub fn clear(&mut self) {
        self.0.clear();
    }

    /// The bytes; nothing is allocated.
    pub fn into_bytes(self) -> Vec<u8> {
        Vec::from(self.0.into_bytes())
    }
}

impl fmt::Write for String {
    fn write_str(&mut self, text: &str) -> fmt::Result {
        self.push_str(text).map_err(|_| fmt::Error)
    }
}

impl Deref for String {
    type Target = str;

    #[inline]
    fn deref(&self) -> &str {
        &self.0
    }
}

impl fmt::Debug for String {
    fn fmt(&self, f: &mut fmt::Formatter<'_>) -> fmt::Result {
        fmt::Debug::fmt(&self.0, f)
    }
}

impl fmt::Display for String {
    fn fmt(&self, f: &mut fmt::Formatter<'_>) -> fmt::Result {
        fmt::Display::fmt(&self.0, f)
    }
}
