// Made by tools/plain_rust from crates/lease_state/src/content.rt. Changes belong there.

use std::prelude::Vec;

use crate::proved::lease_state::{Memory, Patch};
use std::alloc::AllocError;

/// The most bytes that a file holds (profile).
pub const FILE_LIMIT: usize = 1_048_576;

/// Why bytes didn't become a content, or a content took no patch (profile).
#[derive(Clone, Copy, Debug, PartialEq, Eq, Hash)]
pub enum ContentFault {
    /// There are, or would be, more than `FILE_LIMIT` bytes.
    TooLong,
    /// There is no memory left for the patched content.
    Memory,
}

impl std::fmt::Display for ContentFault {
    fn fmt(&self, f: &mut std::fmt::Formatter<'_>) -> std::fmt::Result {
        f.write_str(match self {
            ContentFault::TooLong => "1 TooLong",
            ContentFault::Memory => "2 Memory",
        })
    }
}

impl std::error::Error for ContentFault {}

impl From<AllocError> for ContentFault {
    fn from(_refused: AllocError) -> ContentFault {
        ContentFault::Memory
    }
}

/// The bytes of a file (profile), `FILE_LIMIT` at most. To contracts they are a list.
#[derive(Debug)]
pub struct Content {
    bytes: Vec<u8>,
}

impl Content {
    /// The content of these bytes, which stay where they are. Allocates nothing.
    ///
    /// # Errors
    ///
    /// `TooLong` where there are more than `FILE_LIMIT`, and never `Memory`.
    pub fn new(bytes: Vec<u8>) -> Result<Content, ContentFault> {
        if bytes.len() > FILE_LIMIT {
            return Err(ContentFault::TooLong);
        }
        Ok(Content { bytes })
    }

    /// The bytes of the file, from its start.
    pub fn bytes(&self) -> &[u8] {
        self.bytes.as_slice()
    }

    /// Puts the patch's bytes at its offset, and zeros into a gap before them; an empty patch
    /// changes nothing.
    ///
    /// # Errors
    ///
    /// `TooLong` where the patch ends past `FILE_LIMIT`, even an empty one; `Memory` only where the
    /// content has to grow and there is none left. After either the content is as it was.
    pub fn apply(&mut self, change: &Patch) -> Result<(), ContentFault> {
        let Content { bytes } = self;
        if !change.is_within_limit() {
            return Err(ContentFault::TooLong);
        }
        match change.apply(bytes) {
            Ok(()) => Ok(()),
            Err(Memory) => Err(ContentFault::Memory),
        }
    }

    /// An equal content in memory of its own, from the allocator of this one.
    ///
    /// # Errors
    ///
    /// `Memory` where there is none left.
    pub fn try_copy(&self) -> Result<Content, Memory> {
        let bytes = Vec::from_slice(*self.bytes.allocator(), self.bytes.as_slice())?;
        Ok(Content { bytes })
    }
}

#[cfg(test)]
mod tests {
    use std::prelude::{HostRuntime, Vec, format, vec};

    use super::*;
    use crate::proved::lease_state::Bytes;
    use std::alloc::Global;
    use std::test::Fail;

    fn content(alloc: Global, bytes: &[u8]) -> Result<Content, Fail> {
        Ok(Content::new(Vec::from_slice(alloc, bytes)?)?)
    }

    fn patch(alloc: Global, offset: u32, bytes: &[u8]) -> Result<Patch, Fail> {
        Ok(Patch { offset, bytes: Bytes::new(Vec::from_slice(alloc, bytes)?) })
    }

    fn sevens(alloc: Global, count: usize) -> Result<Vec<u8>, Fail> {
        Ok(vec![in alloc; 7; count]?)
    }

    #[test]
    fn patches_a_content() {
        std::test::passes(|| -> Result<(), Fail> {
            let rt = HostRuntime::host();
            let alloc = rt.alloc();
            let cases: [(u32, &[u8], Result<(), ContentFault>, &[u8]); 10] = [
                (4, b"Y", Ok(()), b"abc\0Y"),
                (65_537, b"", Ok(()), b"abc"),
                (1_048_576, b"", Ok(()), b"abc"),
                (1_048_577, b"", Err(ContentFault::TooLong), b"abc"),
                (4_294_967_295, b"Y", Err(ContentFault::TooLong), b"abc"),
                (0, b"", Ok(()), b"abc"),
                (0, b"X", Ok(()), b"Xbc"),
                (1, b"XY", Ok(()), b"aXY"),
                (2, b"XY", Ok(()), b"abXY"),
                (3, b"X", Ok(()), b"abcX"),
            ];
            for (offset, bytes, answer, after) in cases {
                let mut abc = content(alloc, b"abc")?;
                assert_eq!(abc.apply(&patch(alloc, offset, bytes)?), answer, "at {offset}");
                assert_eq!(abc.bytes(), after, "at {offset}");
            }
            Ok(())
        })
    }

    #[test]
    fn fills_a_content_to_the_limit() {
        std::test::passes(|| -> Result<(), Fail> {
            let rt = HostRuntime::host();
            let alloc = rt.alloc();
            let mut empty = content(alloc, b"")?;
            assert_eq!(empty.apply(&patch(alloc, 1_048_576, b"X")?), Err(ContentFault::TooLong));
            assert_eq!(empty.bytes().len(), 0);
            assert_eq!(empty.apply(&patch(alloc, 1_048_575, b"X")?), Ok(()));
            assert_eq!(empty.bytes().len(), 1_048_576);
            assert_eq!(empty.bytes().first(), Some(&0));
            assert_eq!(empty.bytes().last(), Some(&b'X'));
            Ok(())
        })
    }

    #[test]
    fn keeps_a_long_content_as_it_grows() {
        std::test::passes(|| -> Result<(), Fail> {
            let rt = HostRuntime::host();
            let alloc = rt.alloc();
            let mut long = Content::new(sevens(alloc, 70_000)?)?;
            assert_eq!(long.apply(&patch(alloc, 70_001, b"XY")?), Ok(()));
            assert_eq!(long.bytes().len(), 70_003);
            assert!(long.bytes().iter().take(70_000).all(|byte| *byte == 7));
            assert!(long.bytes().ends_with(b"\0XY"));
            Ok(())
        })
    }

    #[test]
    fn takes_no_longer_content() {
        std::test::passes(|| -> Result<(), Fail> {
            let rt = HostRuntime::host();
            let alloc = rt.alloc();
            let most = Content::new(sevens(alloc, 1_048_576)?)?;
            assert_eq!(most.try_copy()?.bytes(), most.bytes());
            let more = Content::new(sevens(alloc, 1_048_577)?);
            assert_eq!(more.map(|_| ()), Err(ContentFault::TooLong));
            Ok(())
        })
    }

    // Where a patch is refused memory, the content is as it was. `tests/refused_growths` runs this
    // with each allocation refused.
    #[test]
    fn a_refused_patch_leaves_the_content() {
        std::test::passes(|| -> Result<(), Fail> {
            let rt = HostRuntime::host();
            let alloc = rt.alloc();
            let mut abc = content(alloc, b"abc")?;
            let longer = patch(alloc, 70_000, b"XY")?;
            match abc.apply(&longer) {
                Ok(()) => assert_eq!(abc.bytes().len(), 70_002),
                Err(fault) => {
                    assert_eq!(fault, ContentFault::Memory);
                    assert_eq!(abc.bytes(), b"abc".as_slice());
                }
            }
            // What ends within the content allocates nothing.
            let within = patch(alloc, 1, b"Z")?;
            assert!(abc.apply(&within).is_ok());
            assert!(abc.bytes().starts_with(b"aZc"));
            Ok(())
        })
    }

    #[test]
    fn faults_have_numbers() {
        std::test::passes(|| -> Result<(), Fail> {
            let rt = HostRuntime::host();
            let alloc = rt.alloc();
            assert_eq!(format!(in alloc; "{}", ContentFault::TooLong)?.as_str(), "1 TooLong");
            assert_eq!(format!(in alloc; "{}", ContentFault::Memory)?.as_str(), "2 Memory");
            assert_eq!(ContentFault::from(AllocError), ContentFault::Memory);
            Ok(())
        })
    }
}
