// Made by tools/plain_rust from crates/lease_world/src/world/messages.rt. Changes belong there.

use std::prelude::Vec;

use crate::proved::lease_state::{Memory, Reply};
use crate::proved::lease_world::copies::copy_reply;
use std::alloc::Global;

/// The messages that a record speaks of, where they are kept.
#[derive(Debug)]
pub struct Messages {
    kept: Option<Vec<Reply>>,
}

impl Messages {
    /// None yet, and they are kept.
    pub fn new(alloc: Global) -> Messages {
        Messages { kept: Some(Vec::new(alloc)) }
    }

    /// None are kept.
    pub fn unkept() -> Messages {
        Messages { kept: None }
    }

    /// Keeps an equal message after those that were, where messages are kept.
    ///
    /// # Errors
    ///
    /// `Memory` where there is none left for it.
    pub fn push(&mut self, message: &Reply) -> Result<(), Memory> {
        if let Some(kept) = &mut self.kept {
            kept.push(copy_reply(message)?)?;
        }
        Ok(())
    }

    /// What was kept; nothing where none were.
    pub fn into_list(self, alloc: Global) -> Vec<Reply> {
        let Messages { kept } = self;
        match kept {
            Some(kept) => kept,
            None => Vec::new(alloc),
        }
    }
}
