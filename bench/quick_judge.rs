// Reads a record in blocks and judges it in one pass, by the means of the proved program, for bench/judge: kinds are told by their
// first bytes, fields are read where they stand, and a line's end is looked for in 32 bytes at a time.
use std::arch::x86_64::{__m128i, _mm_cmpeq_epi8, _mm_loadu_si128, _mm_movemask_epi8, _mm_set1_epi8};
use std::env;
use std::fs::File;
use std::io::Read;
use std::process::exit;

include!("plain_judge.rs");

const BLOCK: usize = 65_536;
const NEAR: usize = 32;

#[derive(Clone)]
struct Patch {
    offset: u32,
    bytes: Vec<u8>,
}

// The line from the next field on; none where that was the last one.
struct Fields<'a>(Option<&'a [u8]>);

impl<'a> Fields<'a> {
    // Takes the next field, where it is this word.
    #[inline(always)]
    fn takes(&mut self, word: &[u8]) -> bool {
        match self.0.and_then(|rest| rest.strip_prefix(word)) {
            Some([]) => self.0 = None,
            Some([b' ', behind @ ..]) => self.0 = Some(behind),
            _ => return false,
        }
        true
    }
    fn next(&mut self) -> Option<&'a [u8]> {
        let rest = self.0?;
        match rest.iter().position(|byte| *byte == b' ') {
            Some(place) => {
                self.0 = Some(&rest[place + 1..]);
                Some(&rest[..place])
            }
            None => {
                self.0 = None;
                Some(rest)
            }
        }
    }
    fn number(&mut self) -> Option<u64> {
        match self.next()? {
            [] | [b'0', _, ..] => None,
            digits => digits.iter().try_fold(0u64, |value, digit| {
                let digit = digit.wrapping_sub(b'0');
                if digit > 9 {
                    return None;
                }
                value.checked_mul(10)?.checked_add(u64::from(digit))
            }),
        }
    }
    #[inline(never)]
    fn long_ordinal(&mut self) -> Option<u8> {
        u8::try_from(self.number()?).ok().filter(|ordinal| *ordinal > 0)
    }
    // Most are of one digit.
    #[inline(always)]
    fn ordinal(&mut self) -> Option<u8> {
        match self.0? {
            [digit @ b'1'..=b'9'] => {
                self.0 = None;
                Some(digit - b'0')
            }
            [digit @ b'1'..=b'9', b' ', behind @ ..] => {
                self.0 = Some(behind);
                Some(digit - b'0')
            }
            _ => self.long_ordinal(),
        }
    }
    fn bytes(&mut self) -> Option<Vec<u8>> {
        let digits = self.next()?;
        if digits == b"-" {
            return Some(Vec::new());
        }
        if digits.is_empty() || digits.len() % 2 == 1 {
            return None;
        }
        let mut bytes = Vec::with_capacity(digits.len() / 2);
        for pair in digits.chunks_exact(2) {
            bytes.push(nibble(pair[0])? << 4 | nibble(pair[1])?);
        }
        Some(bytes)
    }
    fn patch(&mut self) -> Option<Patch> {
        let offset = u32::try_from(self.number()?).ok()?;
        Some(Patch { offset, bytes: self.bytes()? })
    }
    fn state(&mut self) -> Option<u8> {
        Some(match self.next()? {
            b"none" => 0,
            b"R" => 1,
            b"H" => 2,
            b"RH" => 3,
            b"W" => 4,
            b"RW" => 5,
            b"WH" => 6,
            b"RWH" => 7,
            _ => return None,
        })
    }
    fn done(&mut self) -> Option<bool> {
        match self.next()? {
            b"done" => Some(true),
            b"failed" | b"unknown" | b"lost" => Some(false),
            _ => None,
        }
    }
    fn buffered(&mut self) -> Option<bool> {
        match self.next()? {
            b"buffered" => Some(true),
            b"through" => Some(false),
            _ => None,
        }
    }
    fn end(&self) -> Option<()> {
        if self.0.is_none() { Some(()) } else { None }
    }
}

fn nibble(digit: u8) -> Option<u8> {
    match digit {
        b'0'..=b'9' => Some(digit - b'0'),
        b'a'..=b'f' => Some(digit - b'a' + 10),
        b'A'..=b'F' => Some(digit - b'A' + 10),
        _ => None,
    }
}

#[inline(always)]
fn rarer(f: &mut Fields) -> Option<Fact> {
    if f.takes(b"changed") {
        Some(Fact::Changed(f.ordinal()?, f.ordinal()?, f.number()?, f.patch()?))
    } else if f.takes(b"wrote") {
        Some(Fact::Wrote(f.ordinal()?, f.ordinal()?, f.number()?, f.patch()?, f.buffered()?))
    } else if f.takes(b"settled") {
        Some(Fact::Settled(f.ordinal()?, f.number()?, f.done()?))
    } else if f.takes(b"cachedread") {
        Some(Fact::CachedRead(f.ordinal()?, f.ordinal()?, Rc::new(f.bytes()?)))
    } else if f.takes(b"joined") {
        Some(Fact::Joined(f.ordinal()?))
    } else if f.takes(b"dropped") {
        Some(Fact::Dropped(f.ordinal()?))
    } else if f.takes(b"expired") {
        Some(Fact::Expired(f.ordinal()?, f.ordinal()?))
    } else if f.takes(b"start") {
        let (file, bytes) = (f.ordinal()?, f.bytes()?);
        (bytes.len() as u64 <= LIMIT).then_some(Fact::Start(file, bytes))
    } else if f.takes(b"strayed") {
        Some(Fact::Strayed(f.ordinal()?))
    } else {
        None
    }
}

// The kinds of which a record has most are tried first.
#[inline(always)]
fn fact(line: &[u8]) -> Option<Fact> {
    let mut f = Fields(Some(line));
    let told = if f.takes(b"sent") {
        Fact::Sent(f.ordinal()?)
    } else if f.takes(b"took") {
        Fact::Took(f.ordinal()?)
    } else if f.takes(b"believes") {
        Fact::Believes(f.ordinal()?, f.ordinal()?, f.state()?)
    } else if f.takes(b"opened") {
        Fact::Opened(f.ordinal()?, f.ordinal()?)
    } else {
        rarer(&mut f)?
    };
    f.end()?;
    Some(told)
}

// Which of 16 bytes are line feeds, as bits.
#[inline(always)]
fn feeds(bytes: &[u8; 16]) -> u32 {
    // SAFETY: x86-64 has SSE2, and the load is of 16 bytes that are there.
    unsafe {
        let lanes = _mm_loadu_si128(bytes.as_ptr().cast::<__m128i>());
        _mm_movemask_epi8(_mm_cmpeq_epi8(lanes, _mm_set1_epi8(b'\n' as i8))) as u32
    }
}

// Where the first line feed is.
#[inline(always)]
fn first_feed(text: &[u8]) -> Option<usize> {
    if let Some(near) = text.first_chunk::<NEAR>() {
        let (one, two) = near.split_at(16);
        let marks = feeds(one.try_into().ok()?) | feeds(two.try_into().ok()?) << 16;
        if marks != 0 {
            return Some(marks.trailing_zeros() as usize);
        }
    }
    text.iter().position(|byte| *byte == b'\n')
}

struct Progress {
    judge: Judge,
    number: u64,
}

impl Progress {
    fn take_line(&mut self, line: &[u8]) {
        self.number += 1;
        if line.is_empty() || line[0] == b'#' {
            return;
        }
        match fact(line) {
            Some(told) if self.judge.verdict.is_none() => self.judge.take(told),
            Some(_) => {}
            None => {
                println!("fault line {}", self.number);
                exit(1)
            }
        }
    }
}

fn main() {
    let path = env::args().nth(1).unwrap_or_default();
    let Ok(mut file) = File::open(path) else { exit(1) };
    let mut progress = Progress { judge: Judge::default(), number: 0 };
    let (mut text, mut filled) = (vec![0; BLOCK], 0);
    loop {
        let Ok(count) = file.read(&mut text[filled..]) else { exit(1) };
        if count == 0 {
            break;
        }
        filled += count;
        let mut start = 0;
        while let Some(place) = first_feed(&text[start..filled]) {
            progress.take_line(&text[start..start + place]);
            start += place + 1;
        }
        text.copy_within(start..filled, 0);
        filled -= start;
        if filled == text.len() {
            text.resize(2 * filled, 0);
        }
    }
    if filled > 0 {
        progress.take_line(&text[..filled]);
    }
    println!("{}", progress.judge.verdict.unwrap_or_else(|| String::from("safe")));
}
