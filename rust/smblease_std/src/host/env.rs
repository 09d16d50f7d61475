//! The words of the command line. On Unix they are taken from what C's `main` is passed: Rust's own end the process for want of
//! memory.
use super::io::{Error, ErrorKind, Result};
use crate::alloc::{AllocError, Global};
use crate::rt::Env;
use crate::string::String;
use crate::vec::Vec;
#[cfg(unix)]
use core::ffi::{CStr, c_char};
#[cfg(unix)]
use core::sync::atomic::{AtomicPtr, Ordering};

/// The words of the command line, in order.
pub struct Args(rust_alloc::vec::IntoIter<String>);

impl Args {
    /// Those behind the first ones.
    pub fn skip(mut self, count: usize) -> Args {
        self.0.by_ref().take(count).for_each(drop);
        self
    }

    /// All of them.
    pub fn collect(self, alloc: Global) -> core::result::Result<Vec<String>, AllocError> {
        let mut all = Vec::new(alloc);
        for word in self.0 {
            all.push(word)?;
        }
        Ok(all)
    }
}

fn add(words: &mut Vec<String>, text: Option<&str>) -> Result<()> {
    let text = text.ok_or(Error::from(ErrorKind::InvalidData))?;
    words.push(String::from_str(Global, text)?).map_err(AllocError::from)?;
    Ok(())
}

#[cfg(unix)]
static GIVEN: AtomicPtr<*const c_char> = AtomicPtr::new(core::ptr::null_mut());

/// Takes what C's `main` was passed.
///
/// # Safety
///
/// It is C's `argv`: pointers to texts that stay, behind them a null pointer.
#[cfg(unix)]
pub unsafe fn give(words: *const *const c_char) {
    GIVEN.store(words.cast_mut(), Ordering::Release);
}

/// The words, the program's name first. An error where one is no text, or there is no memory.
#[cfg(unix)]
pub fn args<R: Env>(_rt: &R) -> Result<Args> {
    let given = GIVEN.load(Ordering::Acquire);
    let mut words = Vec::new(Global);
    // SAFETY: by the word of `give` there is a pointer behind each text's, null behind the last one's.
    while !given.is_null() && !unsafe { *given.add(words.len()) }.is_null() {
        // SAFETY: it isn't null, and so is a text's that stays.
        let text = unsafe { CStr::from_ptr(*given.add(words.len())) };
        add(&mut words, text.to_str().ok())?;
    }
    Ok(Args(words.into_iter()))
}

/// The words, the program's name first. An error where one is no text, or there is no memory.
#[cfg(not(unix))]
pub fn args<R: Env>(_rt: &R) -> Result<Args> {
    let mut words = Vec::new(Global);
    for word in rust_std::env::args_os() {
        add(&mut words, word.to_str())?;
    }
    Ok(Args(words.into_iter()))
}
