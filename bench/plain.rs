// The same work as `lease_bench contexts`, written by hand in plain Rust, for bench/contexts.
use std::env;
use std::process::exit;

const CHAIN: [u8; 120] = *b"\x38\0\0\0\x10\0\x04\0\0\0\x18\0\x20\0\0\0RqLs\0\0\0\0\
\0\x01\x02\x03\x04\x05\x06\x07\x08\x09\x0a\x0b\x0c\x0d\x0e\x0f\x07\0\0\0\0\0\0\0\0\0\0\0\0\0\0\0\
\x18\0\0\0\x10\0\x04\0\xff\xff\0\0\0\0\0\0MxAc\0\0\0\0\
\0\0\0\0\x10\0\x04\0\0\0\x18\0\x10\0\0\0DHnQ\0\0\0\0\0\0\0\0\0\0\0\0\0\0\0\0\0\0\0\0";

#[derive(Clone, Copy)]
#[allow(dead_code)]
enum Fault {
    Short(usize),
    BadNext(usize),
    BadName(usize),
    BadData(usize),
    BadLength(usize),
    Twice(usize),
}

struct Ask {
    lease: Option<([u8; 16], u8)>,
    durable: bool,
    reconnect: Option<u64>,
}

fn u16_at(bytes: &[u8], place: usize) -> usize {
    u16::from_le_bytes([bytes[place], bytes[place + 1]]) as usize
}

fn u32_at(bytes: &[u8], place: usize) -> usize {
    u32::from_le_bytes(bytes[place..place + 4].try_into().unwrap()) as usize
}

fn add(ask: &mut Ask, place: usize, name: &[u8], body: &[u8]) -> Result<(), Fault> {
    match name {
        b"RqLs" if body.len() == 32 => {
            if ask.lease.is_some() {
                return Err(Fault::Twice(place));
            }
            ask.lease = Some((body[..16].try_into().unwrap(), body[16] & 7));
        }
        b"DHnQ" => {
            if body.len() != 16 {
                return Err(Fault::BadLength(place));
            }
            if ask.durable {
                return Err(Fault::Twice(place));
            }
            ask.durable = true;
        }
        b"DHnC" => {
            if body.len() != 16 {
                return Err(Fault::BadLength(place));
            }
            if ask.reconnect.is_some() {
                return Err(Fault::Twice(place));
            }
            ask.reconnect = Some(u64::from_le_bytes(body[..8].try_into().unwrap()));
        }
        _ => {}
    }
    Ok(())
}

fn read(text: &[u8]) -> Result<Ask, Fault> {
    let mut ask = Ask { lease: None, durable: false, reconnect: None };
    if text.is_empty() {
        return Ok(ask);
    }
    let mut place = 0;
    loop {
        let rest = &text[place..];
        if rest.len() < 16 {
            return Err(Fault::Short(place));
        }
        let next = u32_at(rest, 0);
        if next != 0 && (next < 16 || next % 8 != 0 || next > rest.len()) {
            return Err(Fault::BadNext(place));
        }
        let size = if next == 0 { rest.len() } else { next };
        let (name, count) = (u16_at(rest, 4), u16_at(rest, 6));
        if name < 16 || name + count > size {
            return Err(Fault::BadName(place));
        }
        let (data, length) = (u16_at(rest, 10), u32_at(rest, 12));
        if length != 0 && (data < 16 || data + length > size) {
            return Err(Fault::BadData(place));
        }
        let body = if length == 0 { &[] } else { &rest[data..data + length] };
        add(&mut ask, place, &rest[name..name + count], body)?;
        if next == 0 {
            return Ok(ask);
        }
        place += next;
    }
}

fn push(out: &mut Vec<u8>, followed: bool, name: &[u8; 4], body: &[u8]) {
    let next = if followed { 24 + body.len() as u32 } else { 0 };
    out.extend_from_slice(&next.to_le_bytes());
    out.extend_from_slice(&[16, 0, 4, 0, 0, 0, 24, 0]);
    out.extend_from_slice(&(body.len() as u32).to_le_bytes());
    out.extend_from_slice(name);
    out.extend_from_slice(&[0; 4]);
    out.extend_from_slice(body);
}

fn write(ask: &Ask, out: &mut Vec<u8>) {
    if let Some((key, state)) = ask.lease {
        let mut body = [0; 32];
        body[..16].copy_from_slice(&key);
        body[16] = state;
        push(out, ask.durable || ask.reconnect.is_some(), b"RqLs", &body);
    }
    if ask.durable {
        push(out, ask.reconnect.is_some(), b"DHnQ", &[0; 16]);
    }
    if let Some(file_id) = ask.reconnect {
        let mut body = [0; 16];
        body[..8].copy_from_slice(&file_id.to_le_bytes());
        body[8..].copy_from_slice(&file_id.to_le_bytes());
        push(out, false, b"DHnC", &body);
    }
}

fn read_many(count: u32) -> u64 {
    let mut text = CHAIN;
    let mut sum = 0u64;
    for turn in 0..count {
        text[24] = (turn % 256) as u8;
        if let Ok(Ask { lease: Some((key, _)), .. }) = read(&text) {
            sum = sum.wrapping_add(u64::from(key[0]));
        }
    }
    sum
}

// The ask of 96 bytes that is written each time.
fn same_ask(turn: u32) -> Ask {
    Ask { lease: Some(([(turn % 256) as u8; 16], 3)), durable: true, reconnect: None }
}

// Asks for other contexts from turn to turn, of none to 136 bytes.
fn other_ask(turn: u32) -> Ask {
    let key = [(turn % 256) as u8; 16];
    Ask {
        lease: (turn % 4 != 0).then_some((key, (turn & 7) as u8)),
        durable: turn % 3 == 0,
        reconnect: (turn % 8 == 3).then_some(u64::from(turn)),
    }
}

fn write_many<F: Fn(u32) -> Ask>(count: u32, ask_at: F) -> u64 {
    let mut out = Vec::new();
    let mut sum = 0u64;
    for turn in 0..count {
        out.clear();
        write(&ask_at(turn), &mut out);
        sum = sum.wrapping_add(u64::from(out.get(30).copied().unwrap_or(0)));
    }
    sum
}

fn main() {
    let words: Vec<String> = env::args().skip(2).collect();
    let count = words.get(1).and_then(|word| word.parse().ok()).unwrap_or(0);
    match words.first().map(String::as_str) {
        Some("read") => println!("{}", read_many(count)),
        Some("write") => println!("{}", write_many(count, same_ask)),
        Some("write_others") => println!("{}", write_many(count, other_ask)),
        _ => exit(2),
    }
}
