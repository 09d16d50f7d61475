// The same session as `lease_bench server`, with the server of plain_server.rs, for bench/server.
use std::env;
use std::process::exit;

include!("plain_values.rs");
include!("plain_server.rs");
#[cfg(not(records))]
include!("plain_lists.rs");
#[cfg(records)]
include!("plain_records.rs");

fn key_of(file: u8) -> [u8; 16] {
    [file, 1, 2, 3, 4, 5, 6, 7, 8, 9, 10, 11, 12, 13, 14, 15]
}

fn lease_ask(file: u8) -> Vec<u8> {
    let mut text = Vec::new();
    let mut body = [0; 32];
    body[..16].copy_from_slice(&key_of(file));
    body[16] = 7;
    context(&mut text, 0, b"RqLs", &body);
    text
}

fn acknowledgment(file: u8) -> [u8; 36] {
    ack_message(&key_of(file), 3)
}

fn request(step: u32, file: u8, turn: u32, standing: u32) -> (u8, Request) {
    let (first, second) = (file, file % 8 + 1);
    let mine = u64::from(standing) + u64::from(turn) * 16 + u64::from(file);
    let create = |contexts| Request::Create { file, access: Access::ReadWrite, share: Share::ReadWrite, contexts };
    match step {
        0 => (first, create(lease_ask(file))),
        1 => (first, Request::Write {
            fid: mine,
            number: u64::from(turn),
            patch: Patch { offset: turn % 64, bytes: vec![(turn % 256) as u8] },
        }),
        2 => (first, Request::Read { fid: mine }),
        3 => (second, create(Vec::new())),
        4 => (first, Request::Ack(acknowledgment(file))),
        5 => (first, Request::Close { fid: mine }),
        _ => (second, Request::Close { fid: mine + 8 }),
    }
}

fn weight(out: &Out) -> u64 {
    match out {
        Out::Opened(file, client) => u64::from(*file) * 3 + u64::from(*client),
        Out::Changed(file, _, number, _) => number.wrapping_add(u64::from(*file)),
        Out::Sent(client, reply) => u64::from(*client).wrapping_add(match reply {
            Reply::Created { fid, .. } => fid.wrapping_mul(5),
            Reply::ReadDone { bytes, .. } => bytes.len() as u64,
            Reply::WriteDone { number, .. } => number.wrapping_mul(7),
            Reply::Closed { fid } => *fid,
            Reply::Break(message) => u64::from(message[24]) * 16 + u64::from(message[28]),
            Reply::AckDone(message) => u64::from(message[24]) * 256,
            _ => 1_000_003,
        }),
    }
}

fn session(calls: u32, standing: u32, same: bool) -> u64 {
    let mut files: Vec<File> = (0..256).map(|_| File { content: Vec::new(), held: Vec::new() }).collect();
    for file in &mut files[1..=9] {
        file.content.extend_from_slice(b"abc");
    }
    let present = (1..=8).collect();
    let mut server = Server { files, count: 9, tables: Tables::new(), present, expired: Vec::new(), last_id: 0 };
    for number in 0..standing {
        let (access, share) = (Access::ReadWrite, Share::ReadWrite);
        let file = if same { (number % 8 + 1) as u8 } else { 9 };
        server.receive(8, Request::Create { file, access, share, contexts: Vec::new() });
    }
    let mut sum = 0u64;
    for number in 0..calls {
        let (client, asked) = request(number / 8 % 7, (number % 8 + 1) as u8, number / 56, standing);
        for out in server.receive(client, asked) {
            sum = sum.wrapping_add(weight(&out));
        }
    }
    sum
}

fn main() {
    let Some(calls) = env::args().nth(2).and_then(|word| word.parse().ok()) else { exit(2) };
    let standing = env::args().nth(3).and_then(|word| word.parse().ok()).unwrap_or(0);
    let same = env::args().nth(4).is_some_and(|word| word == "same");
    println!("{}", session(calls, standing, same));
}
