// Reads a record line by line and judges it in one pass, with the same structures as the proved program, for bench/judge.
use std::env;
use std::fs::File;
use std::io::{BufRead, BufReader};
use std::process::exit;

include!("plain_judge.rs");

#[derive(Clone)]
struct Patch {
    offset: u32,
    bytes: Vec<u8>,
}

struct Fields<'a>(Option<&'a [u8]>);

impl<'a> Fields<'a> {
    fn next(&mut self) -> Option<&'a [u8]> {
        let rest = self.0?;
        match rest.iter().position(|byte| *byte == b' ') {
            Some(place) => {
                self.0 = Some(&rest[place + 1..]);
                Some(&rest[..place])
            }
            None => {
                self.0 = None;
                Some(rest)
            }
        }
    }
    fn number(&mut self) -> Option<u64> {
        let digits = self.next()?;
        if digits.is_empty() || digits[0] == b'0' && digits.len() > 1 {
            return None;
        }
        let mut value = 0u64;
        for digit in digits {
            if !digit.is_ascii_digit() {
                return None;
            }
            value = value.checked_mul(10)?.checked_add(u64::from(digit - b'0'))?;
        }
        Some(value)
    }
    fn ordinal(&mut self) -> Option<u8> {
        match u8::try_from(self.number()?) {
            Ok(0) | Err(_) => None,
            Ok(ordinal) => Some(ordinal),
        }
    }
    fn bytes(&mut self) -> Option<Vec<u8>> {
        let digits = self.next()?;
        if digits == b"-" {
            return Some(Vec::new());
        }
        if digits.is_empty() || digits.len() % 2 == 1 {
            return None;
        }
        let mut bytes = Vec::with_capacity(digits.len() / 2);
        for pair in digits.chunks_exact(2) {
            bytes.push(nibble(pair[0])? << 4 | nibble(pair[1])?);
        }
        Some(bytes)
    }
    fn patch(&mut self) -> Option<Patch> {
        let offset = u32::try_from(self.number()?).ok()?;
        Some(Patch { offset, bytes: self.bytes()? })
    }
    fn end(&self) -> Option<()> {
        if self.0.is_none() { Some(()) } else { None }
    }
}

fn nibble(digit: u8) -> Option<u8> {
    match digit {
        b'0'..=b'9' => Some(digit - b'0'),
        b'a'..=b'f' => Some(digit - b'a' + 10),
        b'A'..=b'F' => Some(digit - b'A' + 10),
        _ => None,
    }
}

fn state(word: &[u8]) -> Option<u8> {
    [&b"none"[..], b"R", b"H", b"RH", b"W", b"RW", b"WH", b"RWH"].iter().position(|name| *name == word).map(|n| n as u8)
}

fn fact(line: &[u8]) -> Option<Fact> {
    let mut f = Fields(Some(line));
    let told = match f.next()? {
        b"start" => {
            let (file, bytes) = (f.ordinal()?, f.bytes()?);
            if bytes.len() as u64 > LIMIT {
                return None;
            }
            Fact::Start(file, bytes)
        }
        b"joined" => Fact::Joined(f.ordinal()?),
        b"dropped" => Fact::Dropped(f.ordinal()?),
        b"expired" => Fact::Expired(f.ordinal()?, f.ordinal()?),
        b"sent" => Fact::Sent(f.ordinal()?),
        b"took" => Fact::Took(f.ordinal()?),
        b"opened" => Fact::Opened(f.ordinal()?, f.ordinal()?),
        b"changed" => Fact::Changed(f.ordinal()?, f.ordinal()?, f.number()?, f.patch()?),
        b"wrote" => {
            let (client, file, number, patch) = (f.ordinal()?, f.ordinal()?, f.number()?, f.patch()?);
            let buffered = match f.next()? {
                b"buffered" => true,
                b"through" => false,
                _ => return None,
            };
            Fact::Wrote(client, file, number, patch, buffered)
        }
        b"settled" => {
            let (client, number) = (f.ordinal()?, f.number()?);
            match f.next()? {
                b"done" => Fact::Settled(client, number, true),
                b"failed" | b"unknown" | b"lost" => Fact::Settled(client, number, false),
                _ => return None,
            }
        }
        b"believes" => Fact::Believes(f.ordinal()?, f.ordinal()?, state(f.next()?)?),
        b"cachedread" => Fact::CachedRead(f.ordinal()?, f.ordinal()?, Rc::new(f.bytes()?)),
        b"strayed" => Fact::Strayed(f.ordinal()?),
        _ => return None,
    };
    f.end()?;
    Some(told)
}

fn main() {
    let path = env::args().nth(1).unwrap_or_default();
    let Ok(file) = File::open(path) else { exit(1) };
    let mut lines = BufReader::with_capacity(65536, file);
    let mut judge = Judge::default();
    let (mut line, mut number) = (Vec::new(), 0u64);
    loop {
        line.clear();
        match lines.read_until(b'\n', &mut line) {
            Ok(0) => break,
            Ok(_) => {}
            Err(_) => exit(1),
        }
        number += 1;
        if line.last() == Some(&b'\n') {
            line.pop();
        }
        if line.is_empty() || line[0] == b'#' {
            continue;
        }
        match fact(&line) {
            Some(told) if judge.verdict.is_none() => judge.take(told),
            Some(_) => {}
            None => {
                println!("fault line {number}");
                exit(1)
            }
        }
    }
    println!("{}", judge.verdict.unwrap_or_else(|| String::from("safe")));
}
