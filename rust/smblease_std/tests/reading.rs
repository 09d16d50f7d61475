//! Readers that give few bytes at a time, are interrupted and fail; writers that take few.
#![cfg(feature = "host")]
use smblease_std::alloc::Global;
use smblease_std::io::{BufRead, BufReader, Error, ErrorKind, Read, Result, Write};
use smblease_std::prelude::Vec;

// Gives so many bytes at a time at most, and is interrupted before each of them; at the end it fails, if it is to.
struct Slow {
    bytes: std::vec::Vec<u8>,
    at_a_time: usize,
    is_interrupted: bool,
    fails: bool,
}

fn slow(bytes: &[u8], at_a_time: usize, fails: bool) -> Slow {
    Slow { bytes: bytes.to_vec(), at_a_time, is_interrupted: false, fails }
}

impl Read for Slow {
    fn read(&mut self, room: &mut [u8]) -> Result<usize> {
        self.is_interrupted = !self.is_interrupted;
        if self.is_interrupted {
            return Err(Error::from(ErrorKind::Interrupted));
        }
        if self.bytes.is_empty() && self.fails {
            return Err(Error::from(ErrorKind::Other));
        }
        let count = self.bytes.len().min(self.at_a_time).min(room.len());
        room[..count].copy_from_slice(&self.bytes[..count]);
        self.bytes.drain(..count);
        Ok(count)
    }
}

#[test]
fn reads_to_the_end() -> Result<()> {
    let whole: std::vec::Vec<u8> = (0..200_000_u32).map(|place| (place % 251) as u8).collect();
    for at_a_time in [1, 7, 65_536, 1 << 20] {
        let mut bytes = Vec::from_slice(Global, b"before")?;
        assert_eq!(slow(&whole, at_a_time, false).read_to_end(&mut bytes)?, whole.len());
        assert_eq!(bytes.as_slice(), [b"before", whole.as_slice()].concat());
    }
    let mut bytes = Vec::new(Global);
    assert_eq!(slow(b"abc", 2, true).read_to_end(&mut bytes), Err(Error::from(ErrorKind::Other)));
    assert_eq!(bytes.as_slice(), b"abc");
    Ok(())
}

#[test]
fn reads_lines() -> Result<()> {
    let text = ["a line", "", "another", &"long ".repeat(4_000), "the last one, without an end"].join("\n");
    for at_a_time in [1, 5, 8_192, 1 << 20] {
        let mut reader = BufReader::new(Global, slow(text.as_bytes(), at_a_time, false))?;
        let mut bytes = Vec::new(Global);
        for line in text.split_inclusive('\n') {
            let before = bytes.len();
            assert_eq!(reader.read_until(b'\n', &mut bytes)?, line.len());
            assert_eq!(&bytes[before..], line.as_bytes());
        }
        assert_eq!(reader.read_until(b'\n', &mut bytes)?, 0);
        assert_eq!(bytes.as_slice(), text.as_bytes());
    }
    let mut reader = BufReader::new(Global, slow(b"ab", 1, true))?;
    assert_eq!(reader.read_until(b'\n', &mut Vec::new(Global)), Err(Error::from(ErrorKind::Other)));
    Ok(())
}

// Takes three bytes at a time, and is interrupted before each of them; nothing more once it has so many.
struct Narrow {
    taken: std::vec::Vec<u8>,
    most: usize,
    is_interrupted: bool,
}

impl Write for Narrow {
    fn write(&mut self, bytes: &[u8]) -> Result<usize> {
        self.is_interrupted = !self.is_interrupted;
        if self.is_interrupted {
            return Err(Error::from(ErrorKind::Interrupted));
        }
        let count = bytes.len().min(3).min(self.most - self.taken.len());
        self.taken.extend_from_slice(&bytes[..count]);
        Ok(count)
    }

    fn flush(&mut self) -> Result<()> {
        Ok(())
    }
}

#[test]
fn writes_all_or_fails() {
    let mut narrow = Narrow { taken: std::vec::Vec::new(), most: 20, is_interrupted: false };
    assert_eq!(narrow.write_fmt(format_args!("{} and {}", "one", 22)), Ok(()));
    assert_eq!(narrow.taken, b"one and 22");
    assert_eq!(narrow.write_all(b"more than there is room"), Err(Error::from(ErrorKind::Other)));
    assert_eq!(narrow.taken.len(), 20);
    assert_eq!(narrow.write_fmt(format_args!("{}", 1)), Err(Error::from(ErrorKind::Other)));
}
