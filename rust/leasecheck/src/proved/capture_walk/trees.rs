// Made by tools/plain_rust from crates/capture_walk/src/trees.rt. Changes belong there.

use std::prelude::Vec;

use crate::proved::capture_walk::note::Seen;
use smblease::proved::lease_state::{Bytes, Memory};
use std::alloc::Global;
use std::collections::BTreeMap;

// A TREE_CONNECT request, by its MessageId.
#[derive(Clone, Copy, Debug, PartialEq, Eq, PartialOrd, Ord)]
pub(crate) struct Asked {
    connection: u64,
    id: u64,
}

// A tree connect.
#[derive(Clone, Copy, Debug, PartialEq, Eq, PartialOrd, Ord)]
pub(crate) struct Tree {
    server: u64,
    session: u64,
    tree: u32,
}

/// The paths of tree connects.
#[derive(Debug)]
pub(crate) struct Trees {
    alloc: Global,
    // Those that requests ask for.
    asked: BTreeMap<Asked, Bytes>,
    // Where the request was seen.
    trees: BTreeMap<Tree, Option<Bytes>>,
}

// Equal bytes in memory of their own.
fn copy_of(alloc: Global, bytes: Option<&[u8]>) -> Result<Option<Bytes>, Memory> {
    match bytes {
        Some(bytes) => Ok(Some(Bytes::new(Vec::from_slice(alloc, bytes)?))),
        None => Ok(None),
    }
}

impl Trees {
    /// Of no tree connect. Allocates nothing.
    pub(crate) fn new(alloc: Global) -> Trees {
        Trees { alloc, asked: BTreeMap::new(alloc), trees: BTreeMap::new(alloc) }
    }

    // The path that a request asks for.
    fn asked(&self, connection: u64, id: u64) -> Option<&[u8]> {
        match self.asked.get(&Asked { connection, id }) {
            Some(path) => Some(path.as_slice()),
            None => None,
        }
    }

    /// The path of a session's tree connect, where it is known.
    pub(crate) fn path_of(&self, server: u64, session: u64, tree: u32) -> Option<&[u8]> {
        let tree = Tree { server, session, tree };
        match self.trees.get(&tree) {
            Some(Some(path)) => Some(path.as_slice()),
            _ => None,
        }
    }

    fn note_asked(&mut self, seen: &Seen<'_>) -> Result<(), Memory> {
        let Some(asked) = seen.note.tree_asked() else {
            return Ok(());
        };
        let path = Bytes::new(Vec::from_slice(self.alloc, asked.path)?);
        let (connection, id) = (seen.connection, asked.id);
        self.asked.insert(Asked { connection, id }, path)?;
        Ok(())
    }

    /// Takes note of the next message.
    pub(crate) fn note(&mut self, seen: &Seen<'_>) -> Result<(), Memory> {
        let Some(given) = seen.note.tree_given() else {
            return self.note_asked(seen);
        };
        let path = copy_of(self.alloc, self.asked(seen.connection, given.id))?;
        let tree = Tree { server: seen.server, session: given.session, tree: given.tree };
        self.trees.insert(tree, path)?;
        Ok(())
    }
}
