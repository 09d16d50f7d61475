// Replays a schedule by hand in plain Rust, for bench/replay: the world, and of clients and lines what the schedules of
// make_lines.py need, with the server of plain_server.rs and the judge of plain_judge.rs, which a second word `unjudged` leaves out.
// Ends with 1 on any other line.
use std::env;
use std::fmt::Write;
use std::fs;
use std::io::{self, Write as _};
use std::process::exit;

include!("plain_values.rs");
include!("plain_server.rs");
include!("plain_records.rs");
include!("plain_judge.rs");

#[derive(Clone, Copy)]
struct Terms { access: Access, share: Share, want: u8 }

enum Event {
    Connect(u8),
    Open(u8, u8, Terms),
    Read(u8, u8),
    Write(u8, u8, Patch),
    Close(u8, u8),
    Flush(u8, u8),
    Serve(u8),
    Take(u8),
}

struct Pending { number: u64, patch: Patch }

// The file as last known, the buffered writes that aren't sent, and what was seen of both: the file with so many of these.
struct Known { base: Option<Vec<u8>>, unsent: Vec<Pending>, seen: Option<(Rc<Vec<u8>>, usize)> }

struct Live { fid: u64, belief: u8, handles: u32, reads: u32, known: Known }

enum Phase { Closed, Opening, Live(Live) }

struct Entry { key: [u8; 16], phase: Phase, sent: Vec<Pending> }

struct Machine { last_number: u64, entries: Vec<Entry> }

struct World {
    server: Server,
    machines: Vec<Machine>,
    requests: Vec<VecDeque<Request>>,
    replies: Vec<VecDeque<Reply>>,
    facts: Vec<Fact>,
}

// How many bytes of a record's text gather before they are written.
const BLOCK: usize = 65_536;

fn with_writes<'a>(mut view: Vec<u8>, writes: impl Iterator<Item = &'a Pending>) -> Rc<Vec<u8>> {
    for write in writes {
        write.patch.apply(&mut view);
    }
    Rc::new(view)
}

impl Known {
    fn learn(&mut self, base: Option<Vec<u8>>) {
        self.seen = None;
        self.base = base;
    }

    fn change(&mut self, patch: &Patch) {
        self.seen = None;
        if let Some(base) = &mut self.base {
            patch.apply(base);
        }
    }

    // The file with the unanswered writes; reads in turn share it where none of them is sent.
    fn view(&mut self, sent: &[Pending]) -> Option<Rc<Vec<u8>>> {
        let base = self.base.as_ref()?;
        if !sent.is_empty() {
            return Some(with_writes(base.clone(), sent.iter().chain(&self.unsent)));
        }
        let bytes = match &self.seen {
            Some((bytes, count)) if *count == self.unsent.len() => Rc::clone(bytes),
            Some((bytes, count)) => with_writes(bytes.to_vec(), self.unsent[*count..].iter()),
            None => with_writes(base.clone(), self.unsent.iter()),
        };
        self.seen = Some((Rc::clone(&bytes), self.unsent.len()));
        Some(bytes)
    }
}

fn send(live: &mut Live, sent: &mut Vec<Pending>, queue: &mut VecDeque<Request>) {
    for write in &live.known.unsent {
        queue.push_back(Request::Write { fid: live.fid, number: write.number, patch: write.patch.clone() });
    }
    live.known.seen = None;
    sent.append(&mut live.known.unsent);
}

impl Machine {
    fn open(&mut self, file: u8, terms: Terms, queue: &mut VecDeque<Request>) {
        let entry = &mut self.entries[usize::from(file) - 1];
        match &mut entry.phase {
            Phase::Closed => {
                let mut contexts = Vec::new();
                let mut body = [0; 32];
                body[..16].copy_from_slice(&entry.key);
                body[16] = terms.want;
                context(&mut contexts, 0, b"RqLs", &body);
                queue.push_back(Request::Create { file, access: terms.access, share: terms.share, contexts });
                entry.phase = Phase::Opening;
            }
            Phase::Opening => {}
            Phase::Live(live) => live.handles += 1,
        }
    }

    // The live entry of a file that has a handle, and its sent writes.
    fn handle(&mut self, file: u8) -> Option<(&mut Live, &mut Vec<Pending>)> {
        let entry = &mut self.entries[usize::from(file) - 1];
        match &mut entry.phase {
            Phase::Live(live) if live.handles > 0 => Some((live, &mut entry.sent)),
            _ => None,
        }
    }

    fn read(&mut self, client: u8, file: u8, queue: &mut VecDeque<Request>, facts: &mut Vec<Fact>) {
        let Some((live, sent)) = self.handle(file) else { return };
        match live.known.view(sent) {
            Some(bytes) => facts.push(Fact::CachedRead(client, file, bytes)),
            None => {
                queue.push_back(Request::Read { fid: live.fid });
                live.reads += 1;
            }
        }
    }

    fn write(&mut self, client: u8, file: u8, patch: Patch, queue: &mut VecDeque<Request>, facts: &mut Vec<Fact>) {
        let number = self.last_number + 1;
        let Some((live, sent)) = self.handle(file) else { return };
        if !patch.fits() {
            return;
        }
        let buffered = live.belief & 4 != 0;
        facts.push(Fact::Wrote(client, file, number, patch.clone(), buffered));
        if buffered {
            live.known.unsent.push(Pending { number, patch });
        } else {
            queue.push_back(Request::Write { fid: live.fid, number, patch: patch.clone() });
            sent.push(Pending { number, patch });
        }
        self.last_number = number;
    }

    fn close(&mut self, file: u8, queue: &mut VecDeque<Request>) {
        let entry = &mut self.entries[usize::from(file) - 1];
        let Phase::Live(live) = &mut entry.phase else { return };
        if live.handles == 0 || live.handles == 1 && (live.reads > 0 || !entry.sent.is_empty()) {
            return;
        }
        live.handles -= 1;
        if live.handles == 0 && live.belief & 2 == 0 {
            send(live, &mut entry.sent, queue);
            queue.push_back(Request::Close { fid: live.fid });
            entry.phase = Phase::Closed;
        }
    }

    fn flush(&mut self, file: u8, queue: &mut VecDeque<Request>) {
        if let Some((live, sent)) = self.handle(file) {
            send(live, sent, queue);
        }
    }

    fn created(&mut self, client: u8, file: u8, fid: u64, contexts: &[u8], facts: &mut Vec<Fact>) {
        let entry = &mut self.entries[usize::from(file) - 1];
        if !matches!(entry.phase, Phase::Opening) || contexts.len() < 56 {
            return;
        }
        let known = contexts[24..40] == entry.key && contexts[44] & 2 == 0;
        let belief = if known { contexts[40] & 7 } else { 0 };
        let known = Known { base: None, unsent: Vec::new(), seen: None };
        entry.phase = Phase::Live(Live { fid, belief, handles: 1, reads: 0, known });
        facts.push(Fact::Believes(client, file, belief));
    }

    fn was_read(&mut self, fid: u64, bytes: Vec<u8>) {
        for entry in &mut self.entries {
            if let Phase::Live(live) = &mut entry.phase {
                if live.fid == fid && live.reads > 0 {
                    live.reads -= 1;
                    if live.belief & 1 != 0 {
                        live.known.learn(Some(bytes));
                    }
                    return;
                }
            }
        }
    }

    fn was_written(&mut self, client: u8, number: u64, facts: &mut Vec<Fact>) {
        for entry in &mut self.entries {
            if let Some(place) = entry.sent.iter().position(|write| write.number == number) {
                let write = entry.sent.remove(place);
                if let Phase::Live(live) = &mut entry.phase {
                    live.known.change(&write.patch);
                }
                facts.push(Fact::Settled(client, number, true));
                return;
            }
        }
    }

    fn broken(&mut self, client: u8, message: &[u8; 44], queue: &mut VecDeque<Request>, facts: &mut Vec<Fact>) {
        let found = self.entries.iter_mut().enumerate().find(|entry| entry.1.key[..] == message[8..24]);
        let Some((place, entry)) = found else { return };
        let Phase::Live(live) = &mut entry.phase else { return };
        let left = live.belief & message[28];
        if live.belief & !left & 6 != 0 {
            send(live, &mut entry.sent, queue);
        }
        live.belief = left;
        if left & 1 == 0 {
            live.known.learn(None);
        }
        if live.handles == 0 && left & 2 == 0 {
            queue.push_back(Request::Close { fid: live.fid });
            entry.phase = Phase::Closed;
        } else if message[4] & 1 != 0 {
            queue.push_back(Request::Ack(ack_message(&entry.key, left)));
        }
        facts.push(Fact::Believes(client, place as u8 + 1, left));
    }
}

impl World {
    fn step(&mut self, event: Event) {
        match event {
            Event::Connect(client) => {
                self.server.present.push(client);
                self.facts.push(Fact::Joined(client));
            }
            Event::Serve(client) => self.serve(client),
            Event::Take(client) => self.take(client),
            Event::Open(client, file, terms) => {
                let place = usize::from(client) - 1;
                self.machines[place].open(file, terms, &mut self.requests[place]);
            }
            Event::Read(client, file) => {
                let place = usize::from(client) - 1;
                self.machines[place].read(client, file, &mut self.requests[place], &mut self.facts);
            }
            Event::Write(client, file, patch) => {
                let place = usize::from(client) - 1;
                self.machines[place].write(client, file, patch, &mut self.requests[place], &mut self.facts);
            }
            Event::Close(client, file) => {
                let place = usize::from(client) - 1;
                self.machines[place].close(file, &mut self.requests[place]);
            }
            Event::Flush(client, file) => {
                let place = usize::from(client) - 1;
                self.machines[place].flush(file, &mut self.requests[place]);
            }
        }
    }

    fn serve(&mut self, client: u8) {
        let Some(request) = self.requests[usize::from(client) - 1].pop_front() else { return };
        for out in self.server.receive(client, request) {
            match out {
                Out::Opened(file, client) => self.facts.push(Fact::Opened(file, client)),
                Out::Changed(file, client, number, patch) => self.facts.push(Fact::Changed(file, client, number, patch)),
                Out::Sent(client, reply) => {
                    self.facts.push(Fact::Sent(client));
                    self.replies[usize::from(client) - 1].push_back(reply);
                }
            }
        }
    }

    fn take(&mut self, client: u8) {
        let place = usize::from(client) - 1;
        let Some(reply) = self.replies[place].pop_front() else { return };
        self.facts.push(Fact::Took(client));
        let machine = &mut self.machines[place];
        match reply {
            Reply::Created { file, fid, contexts } => machine.created(client, file, fid, &contexts, &mut self.facts),
            Reply::ReadDone { fid, bytes } => machine.was_read(fid, bytes),
            Reply::WriteDone { number, .. } => machine.was_written(client, number, &mut self.facts),
            Reply::Break(message) => machine.broken(client, &message, &mut self.requests[place], &mut self.facts),
            Reply::Closed { .. } | Reply::AckDone(_) => {}
            _ => exit(1),
        }
    }
}

fn unhex(word: &str) -> Option<Vec<u8>> {
    let digits = word.as_bytes();
    if digits.len() % 2 == 1 {
        return None;
    }
    digits.chunks_exact(2).map(|pair| Some((pair[0] as char).to_digit(16)? as u8 * 16 + (pair[1] as char).to_digit(16)? as u8)).collect()
}

fn terms(mut words: std::str::SplitAsciiWhitespace<'_>) -> Option<Terms> {
    if words.next()? != "rw" || words.next()? != "rw" {
        return None;
    }
    let want = ["none", "R", "H", "RH", "W", "RW", "WH", "RWH"].iter().position(|name| Some(*name) == words.clone().next())?;
    Some(Terms { access: Access::ReadWrite, share: Share::ReadWrite, want: want as u8 })
}

fn event(line: &str) -> Option<Event> {
    let mut words = line.split_ascii_whitespace();
    let what = words.next()?;
    let client = words.next()?.parse().ok().filter(|client| (1..=8).contains(client))?;
    let mut file = || words.next()?.parse().ok().filter(|file| (1..=8).contains(file));
    Some(match what {
        "connect" => Event::Connect(client),
        "serve" => Event::Serve(client),
        "take" => Event::Take(client),
        "read" => Event::Read(client, file()?),
        "close" => Event::Close(client, file()?),
        "flush" => Event::Flush(client, file()?),
        "open" => Event::Open(client, file()?, terms(words)?),
        "write" => {
            let file = file()?;
            Event::Write(client, file, Patch { offset: words.next()?.parse().ok()?, bytes: unhex(words.next()?)? })
        }
        _ => return None,
    })
}

fn push_bytes(text: &mut String, bytes: &[u8]) {
    if bytes.is_empty() {
        text.push('-');
    }
    for byte in bytes {
        for digit in [byte / 16, byte % 16] {
            text.push(char::from(b"0123456789abcdef"[usize::from(digit)]));
        }
    }
}

fn push_fact(text: &mut String, fact: &Fact) {
    const STATES: [&str; 8] = ["none", "R", "H", "RH", "W", "RW", "WH", "RWH"];
    let told = match fact {
        Fact::Start(file, bytes) => {
            let told = write!(text, "start {file} ");
            push_bytes(text, bytes);
            told
        }
        Fact::Joined(client) => write!(text, "joined {client}"),
        Fact::Sent(client) => write!(text, "sent {client}"),
        Fact::Took(client) => write!(text, "took {client}"),
        Fact::Opened(file, client) => write!(text, "opened {file} {client}"),
        Fact::Changed(file, client, number, patch) => {
            let told = write!(text, "changed {file} {client} {number} {} ", patch.offset);
            push_bytes(text, &patch.bytes);
            told
        }
        Fact::Wrote(client, file, number, patch, buffered) => {
            let told = write!(text, "wrote {client} {file} {number} {} ", patch.offset);
            push_bytes(text, &patch.bytes);
            text.push_str(if *buffered { " buffered" } else { " through" });
            told
        }
        Fact::Settled(client, number, _) => write!(text, "settled {client} {number} done"),
        Fact::Believes(client, file, state) => write!(text, "believes {client} {file} {}", STATES[usize::from(*state)]),
        Fact::CachedRead(client, file, bytes) => {
            let told = write!(text, "cachedread {client} {file} ");
            push_bytes(text, bytes);
            told
        }
        Fact::Dropped(_) | Fact::Expired(..) | Fact::Strayed(_) => exit(1),
    };
    if told.is_err() {
        exit(1);
    }
    text.push('\n');
}

fn verdict_on(facts: &[Fact]) -> String {
    let mut judge = Judge::default();
    for fact in facts {
        if judge.verdict.is_none() {
            judge.take(fact.clone());
        }
    }
    judge.verdict.unwrap_or_else(|| String::from("safe"))
}

fn main() {
    let path = env::args().nth(1).unwrap_or_default();
    let Ok(text) = fs::read_to_string(path) else { exit(1) };
    let mut files = vec![File { content: Vec::new(), held: Vec::new() }];
    let (mut facts, mut events, mut clients) = (Vec::new(), Vec::new(), 0u8);
    for line in text.lines() {
        if let Some(bytes) = line.strip_prefix("file ") {
            let Some(content) = unhex(bytes) else { exit(1) };
            facts.push(Fact::Start(files.len() as u8, content.clone()));
            files.push(File { content, held: Vec::new() });
        } else if line.starts_with("client ") {
            clients += 1;
        } else {
            let Some(event) = event(line) else { exit(1) };
            events.push(event);
        }
    }
    let count = (files.len() - 1) as u8;
    let entry = |client, file| {
        let mut key = [0; 16];
        (key[11], key[15]) = (client, file);
        Entry { key, phase: Phase::Closed, sent: Vec::new() }
    };
    let machine = |client| Machine { last_number: 0, entries: (1..=count).map(|file| entry(client, file)).collect() };
    let mut world = World {
        server: Server { files, count, tables: Tables::new(), present: Vec::new(), expired: Vec::new(), last_id: 0 },
        machines: (1..=clients).map(machine).collect(),
        requests: (0..clients).map(|_| VecDeque::new()).collect(),
        replies: (0..clients).map(|_| VecDeque::new()).collect(),
        facts,
    };
    for event in events {
        world.step(event);
    }
    let is_judged = env::args().nth(2).as_deref() != Some("unjudged");
    let verdict = if is_judged { verdict_on(&world.facts) } else { String::from("safe") };
    if write_record(&world.facts, &verdict).is_err() {
        exit(1);
    }
}

fn write_record(facts: &[Fact], verdict: &str) -> io::Result<()> {
    let (mut text, mut out) = (String::new(), io::stdout().lock());
    for fact in facts {
        push_fact(&mut text, fact);
        if text.len() >= BLOCK {
            out.write_all(text.as_bytes())?;
            text.clear();
        }
    }
    writeln!(out, "{text}# {verdict}")
}
