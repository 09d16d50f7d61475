//! Docs.
use std::prelude::{Vec, vec};
pub fn one(alloc: Global) -> Result<Vec<u8>, Memory> {
    Ok(vec![in alloc; 7; 3]?)
}
mod two {
    use std::prelude::Box;
    fn three(text: std::string::String) -> Box<u8> {
        todo(text)
    }
}
