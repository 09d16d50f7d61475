// The same work as `lease_bench client`, written by hand in plain Rust, for bench/client: a client of one file
// with the parts that this work needs, and for each read a plain copy of the file and one more hold on it.
use std::env;
use std::hint::black_box;
use std::process::exit;
use std::rc::Rc;

const SIZE: usize = 1_048_576;

const FILE_LIMIT: usize = 1_048_576;

#[derive(Clone)]
struct Patch {
    offset: u32,
    bytes: Vec<u8>,
}

struct Pending {
    number: u64,
    patch: Patch,
    #[allow(dead_code)]
    buffered: bool,
}

#[allow(dead_code)]
enum Command {
    Open { file: u8, access: u8, share: u8, want: u8, durable: bool },
    Close { file: u8 },
    Read { file: u8 },
    Write { file: u8, patch: Patch },
    Flush { file: u8 },
}

#[allow(dead_code)]
enum Reply {
    Created { file: u8, file_id: u64, contexts: Vec<u8> },
    CreateFailed { file: u8, status: u8 },
    ReadDone { file_id: u64, bytes: Vec<u8> },
    ReadFailed { file_id: u64, status: u8 },
    WriteDone { file_id: u64, number: u64 },
    WriteFailed { file_id: u64, number: u64, status: u8 },
    Closed { file_id: u64 },
    CloseFailed { file_id: u64, status: u8 },
    Break([u8; 44]),
    AckDone([u8; 36]),
    AckFailed { status: u8 },
}

#[allow(dead_code)]
enum Request {
    Create { file: u8, access: u8, share: u8, contexts: Vec<u8> },
    Read { file_id: u64 },
    Write { file_id: u64, number: u64, patch: Patch },
    Close { file_id: u64 },
    Ack([u8; 36]),
}

#[allow(dead_code)]
enum Note {
    Settled(u64, u8),
    Wrote(u8, u64, Patch, bool),
    Believes(u8, u8),
    CachedRead(u8, Vec<u8>),
}

#[allow(dead_code)]
#[derive(Default)]
enum Answer {
    Done,
    Waiting,
    Bytes(Vec<u8>, bool),
    Refused(u8),
    Failed(u8),
    #[default]
    Quiet,
}

#[derive(Default)]
struct Step {
    #[allow(dead_code)]
    answer: Answer,
    requests: Vec<Request>,
    notes: Vec<Note>,
}

struct Live {
    file_id: u64,
    writes: bool,
    state: u8,
    handles: u32,
    base: Option<Vec<u8>>,
    unsent: Vec<Pending>,
}

enum Phase {
    #[allow(dead_code)]
    Closed,
    Live(Live),
}

struct Entry {
    phase: Phase,
    sent: Vec<Pending>,
}

struct Client {
    last_number: u64,
    entries: Vec<Entry>,
}

fn apply(base: &mut Vec<u8>, patch: &Patch) {
    let (from, to) = (patch.offset as usize, patch.offset as usize + patch.bytes.len());
    if !patch.bytes.is_empty() {
        base.resize(base.len().max(to), 0);
        base[from..to].copy_from_slice(&patch.bytes);
    }
}

impl Client {
    fn app(&mut self, command: Command) -> Option<Step> {
        match command {
            Command::Write { file, patch } => self.write(file, patch),
            _ => None,
        }
    }

    fn take(&mut self, reply: Reply) -> Option<Step> {
        match reply {
            Reply::WriteDone { number, .. } => Some(self.written(number)),
            _ => None,
        }
    }

    fn write(&mut self, file: u8, patch: Patch) -> Option<Step> {
        let entry = self.entries.get_mut(usize::from(file).checked_sub(1)?)?;
        let Phase::Live(live) = &mut entry.phase else { return None };
        if live.handles == 0 || !live.writes || patch.offset as usize + patch.bytes.len() > FILE_LIMIT {
            return None;
        }
        let number = self.last_number.checked_add(1)?;
        self.last_number = number;
        let mut step = Step::default();
        let buffered = live.state & 4 != 0;
        step.notes.push(Note::Wrote(file, number, patch.clone(), buffered));
        if buffered {
            step.answer = Answer::Done;
            live.unsent.push(Pending { number, patch, buffered });
        } else {
            step.answer = Answer::Waiting;
            step.requests.push(Request::Write { file_id: live.file_id, number, patch: patch.clone() });
            entry.sent.push(Pending { number, patch, buffered });
        }
        Some(step)
    }

    fn written(&mut self, number: u64) -> Step {
        let mut step = Step::default();
        let found = self.entries.iter_mut().find(|entry| entry.sent.iter().any(|write| write.number == number));
        let Some(entry) = found else { return step };
        if let Some(place) = entry.sent.iter().position(|write| write.number == number) {
            let write = entry.sent.remove(place);
            if let Phase::Live(Live { base: Some(base), .. }) = &mut entry.phase {
                apply(base, &write.patch);
            }
        }
        step.notes.push(Note::Settled(number, 0));
        step
    }
}

fn write_many(count: u32) -> u64 {
    let live = Live { file_id: 1, writes: true, state: 3, handles: 1, base: None, unsent: Vec::new() };
    let entry = Entry { phase: Phase::Live(live), sent: Vec::new() };
    let mut client = Client { last_number: 0, entries: vec![entry] };
    let mut sum = 0u64;
    for turn in 0..count {
        let patch = Patch { offset: turn % 1000, bytes: vec![turn as u8; 64] };
        let Some(step) = client.app(Command::Write { file: 1, patch }) else { exit(1) };
        sum = sum.wrapping_add(step.requests.len() as u64);
        drop(black_box(step));
        let done = Reply::WriteDone { file_id: 1, number: u64::from(turn) + 1 };
        let Some(step) = client.take(done) else { exit(1) };
        sum = sum.wrapping_add(step.notes.len() as u64);
        drop(black_box(step));
    }
    sum
}

fn read_many(count: u32) -> u64 {
    let file = black_box(Rc::new(vec![7u8; SIZE]));
    let mut sum = 0u64;
    for _ in 0..count {
        let answer = black_box(file.to_vec());
        let note = black_box(Rc::clone(&file));
        sum = sum.wrapping_add(answer.len() as u64);
        drop(note);
    }
    sum
}

fn main() {
    let words: Vec<String> = env::args().skip(2).collect();
    let count: u32 = words.get(1).and_then(|word| word.parse().ok()).unwrap_or_else(|| exit(2));
    let sum = match words[0].as_str() {
        "write" => write_many(count),
        "read" => read_many(count),
        _ => exit(2),
    };
    println!("{sum}");
}
