// Made by tools/plain_rust from crates/leasecheck/src/remarks/files.rt. Changes belong there.

use crate::proved::lease_texts::push_all_escaped;
use crate::proved::leasecheck::file_fault::FileFault;
use std::alloc::{AllocError, Global};
use std::prelude::String;

/// What is said of a file that can't be opened or read: its whole name, and why that is.
pub(crate) fn unread_line(alloc: Global, path: &str, fault: FileFault) -> Result<String, AllocError> {
    let mut text = String::new(alloc);
    text.push_str("FILE, \"")?;
    push_all_escaped(alloc, &mut text, path.as_bytes())?;
    text.push_str("\": ")?;
    text.push_str(fault.words())?;
    text.push_str("\n")?;
    Ok(text)
}
