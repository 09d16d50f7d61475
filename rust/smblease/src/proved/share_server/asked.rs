// Made by tools/plain_rust from crates/share_server/src/asked.rt. Changes belong there.

use crate::proved::lease_state::{FileId, Memory};
use crate::proved::share_server::values::request::FileRequest;
use std::alloc::Global;
use std::collections::BTreeMap;

/// The requests that weren't answered yet, by the tags under which the manager was asked.
#[derive(Debug)]
pub struct Asked {
    /// The one asked last, until another one is: most are answered before that, and never come into the map.
    last: Option<(u64, FileRequest)>,
    by_tag: BTreeMap<u64, FileRequest>,
}

impl Asked {
    /// None. Allocates nothing.
    pub fn new(alloc: Global) -> Asked {
        Asked { last: None, by_tag: BTreeMap::new(alloc) }
    }

    /// The request was asked under the tag.
    ///
    /// # Errors
    ///
    /// `Memory` where there is none left for it.
    pub fn put(&mut self, tag: u64, request: FileRequest) -> Result<(), Memory> {
        let last = self.last.take();
        file_away(&mut self.by_tag, last)?;
        self.last = Some((tag, request));
        Ok(())
    }

    /// Takes out what was asked under the tag. Where nothing was, that is to close no open.
    pub fn take(&mut self, tag: u64) -> FileRequest {
        let found = taken_from(&mut self.by_tag, tag);
        match self.last.take() {
            Some((last, request)) => {
                if last == tag {
                    return request;
                }
                self.last = Some((last, request));
                found
            }
            None => found,
        }
    }
}

// The request comes into the map.
fn file_away(by_tag: &mut BTreeMap<u64, FileRequest>, last: Option<(u64, FileRequest)>) -> Result<(), Memory> {
    match last {
        Some((tag, request)) => {
            by_tag.insert(tag, request)?;
            Ok(())
        }
        None => Ok(()),
    }
}

// What is taken out of the map; to close no open where nothing is there.
fn taken_from(by_tag: &mut BTreeMap<u64, FileRequest>, tag: u64) -> FileRequest {
    if let Some(request) = by_tag.remove(&tag) {
        return request;
    }
    FileRequest::Close { fid: FileId(0) }
}
