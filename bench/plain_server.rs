// A file server written by hand in plain Rust, for bench/server.rs, over the tables of plain_lists.rs or of
// plain_records.rs. It tries each held request again in each pass.

type ClientNo = u8;
type FileNo = u8;

#[derive(Clone)]
struct Patch { offset: u32, bytes: Vec<u8> }

enum FileRequest {
    Create { file: u8, access: Access, share: Share, ask: CreateAsk },
    Read { fid: u64 },
    Write { fid: u64, number: u64, patch: Patch },
    Close { fid: u64 },
}

enum Request {
    Create { file: u8, access: Access, share: Share, contexts: Vec<u8> },
    Read { fid: u64 },
    Write { fid: u64, number: u64, patch: Patch },
    Close { fid: u64 },
    Ack([u8; 36]),
}

#[allow(dead_code)]
enum Reply {
    Created { file: u8, fid: u64, contexts: Vec<u8> },
    CreateFailed { file: u8, status: Status },
    ReadDone { fid: u64, bytes: Vec<u8> },
    ReadFailed { fid: u64, status: Status },
    WriteDone { fid: u64, number: u64 },
    WriteFailed { fid: u64, number: u64, status: Status },
    Closed { fid: u64 },
    CloseFailed { fid: u64, status: Status },
    Break([u8; 44]),
    AckDone([u8; 36]),
    AckFailed { status: Status },
}

#[allow(dead_code)]
enum Out { Sent(u8, Reply), Opened(u8, u8), Changed(u8, u8, u64, Patch) }

struct Held { client: u8, request: FileRequest }

struct File { content: Vec<u8>, held: Vec<Held> }

struct Server {
    files: Vec<File>,
    count: u8,
    tables: Tables,
    present: Vec<u8>,
    expired: Vec<Key>,
    last_id: u64,
}

enum Outcome { Refused(Status), Waits, Ready }

#[derive(Clone, Copy)]
enum Ask {
    Create { file: u8, access: Access, share: Share, ask: CreateAsk },
    Read { fid: u64 },
    Write { fid: u64, fits: bool },
    Close { fid: u64 },
}

const FILE_LIMIT: usize = 1 << 20;

impl FileRequest {
    fn ask(&self) -> Ask {
        match self {
            FileRequest::Create { file, access, share, ask } => {
                Ask::Create { file: *file, access: *access, share: *share, ask: *ask }
            }
            FileRequest::Read { fid } => Ask::Read { fid: *fid },
            FileRequest::Write { fid, patch, .. } => {
                let count = patch.bytes.len();
                Ask::Write { fid: *fid, fits: count <= FILE_LIMIT && patch.offset as usize <= FILE_LIMIT - count }
            }
            FileRequest::Close { fid } => Ask::Close { fid: *fid },
        }
    }
}

impl Server {
    fn wants(&self, wish: Wish, own: Option<Key>, file: u8) -> Vec<Want> {
        let mut wants = Vec::new();
        for key in self.tables.wanted(wish, own, file) {
            let state = self.tables.lease(key).state;
            let lowered = match wish {
                Wish::NoHandles(..) => state & 5,
                Wish::NoWrites => state & 3,
                Wish::Nothing => 0,
            };
            wants.push(Want { key, lowered });
        }
        wants
    }

    fn open_finding(&self, own: Option<Key>, file: u8, access: Access, share: Share) -> Finding {
        if own.is_some_and(|key| self.tables.is_elsewhere(key, file)) {
            return Finding::Fails(Status::InvalidParameter);
        }
        if !self.tables.has_conflict_on(file, access, share) {
            return Finding::Needs(self.wants(Wish::NoWrites, own, file));
        }
        let wants = self.wants(Wish::NoHandles(access, share), own, file);
        if wants.is_empty() { Finding::Fails(Status::Sharing) } else { Finding::Needs(wants) }
    }

    fn finding(&self, client: u8, ask: Ask) -> Finding {
        match ask {
            Ask::Create { file, access, share, ask } => {
                if file == 0 || file > self.count {
                    return Finding::Fails(Status::NotFound);
                }
                let own = ask.lease.map(|lease| (client, lease.0));
                match ask.reconnect {
                    None => self.open_finding(own, file, access, share),
                    Some(fid) => {
                        let awaits = |one: &Open| {
                            !one.connected && one.client == client && one.file == file && one.has_own(own)
                        };
                        if self.tables.open(fid).is_some_and(awaits) {
                            Finding::Needs(Vec::new())
                        } else {
                            Finding::Fails(Status::NotFound)
                        }
                    }
                }
            }
            Ask::Read { fid } => match self.connected(client, fid) {
                None => Finding::Fails(Status::FileClosed),
                Some(one) if one.access.reads() => Finding::Needs(Vec::new()),
                Some(_) => Finding::Fails(Status::AccessDenied),
            },
            Ask::Write { fid, fits } => match self.connected(client, fid) {
                None => Finding::Fails(Status::FileClosed),
                Some(one) if !one.access.writes() => Finding::Fails(Status::AccessDenied),
                Some(_) if !fits => Finding::Fails(Status::InvalidParameter),
                Some(one) if !self.tables.is_hindered(one.key(), one.file) => Finding::Needs(Vec::new()),
                Some(one) => Finding::Needs(self.wants(Wish::Nothing, one.key(), one.file)),
            },
            Ask::Close { fid } => match self.connected(client, fid) {
                None => Finding::Fails(Status::FileClosed),
                Some(_) => Finding::Needs(Vec::new()),
            },
        }
    }

    fn meet(&mut self, outs: &mut Vec<Out>, want: &Want) {
        self.tables.close_left(want.key);
        let lease = self.tables.lease(want.key);
        if !self.tables.has_lease(want.key) || lease.broken_to.is_some() {
            return;
        }
        let needs_ack = lease.state & 6 != 0;
        let after = if needs_ack {
            Lease { state: lease.state, broken_to: Some(want.lowered) }
        } else {
            Lease { state: want.lowered, broken_to: None }
        };
        self.tables.put_lease(want.key, after);
        let mut message = [0; 44];
        message[0] = 44;
        message[4] = u8::from(needs_ack);
        message[8..24].copy_from_slice(&want.key.1);
        message[24] = lease.state;
        message[28] = want.lowered;
        outs.push(Out::Sent(want.key.0, Reply::Break(message)));
    }

    fn attempt(&mut self, outs: &mut Vec<Out>, client: u8, ask: Ask) -> Outcome {
        let writes = matches!(ask, Ask::Write { .. });
        for _ in 0..3 {
            let wants = match self.finding(client, ask) {
                Finding::Fails(status) => return Outcome::Refused(status),
                Finding::Needs(wants) => wants,
            };
            let to_nothing = |want: &Want| self.tables.lease(want.key).broken_to == Some(0);
            let ready = if writes { wants.iter().all(to_nothing) } else { wants.is_empty() };
            if ready {
                return Outcome::Ready;
            }
            for want in &wants {
                self.meet(outs, want);
            }
            let waits = |lease: Lease| lease.broken_to.is_some_and(|state| !writes || state != 0);
            if wants.iter().any(|want| waits(self.tables.lease(want.key))) {
                return Outcome::Waits;
            }
        }
        Outcome::Waits
    }

    fn lease_after(&self, key: Key, file: u8, want: u8) -> Lease {
        let lease = self.tables.lease(key);
        let form = granted(want);
        if lease.broken_to.is_some() || lease.state & !form != 0 {
            return lease;
        }
        let state = if self.expired.contains(&key) { 0 } else if self.tables.has_other_on(Some(key), file) { form & 3 } else { form };
        Lease { state, broken_to: None }
    }

    fn create(&mut self, outs: &mut Vec<Out>, client: u8, file: u8, access: Access, share: Share, ask: CreateAsk) {
        if let Some(fid) = ask.reconnect {
            let lease = ask.lease.map(|asked| (asked.0, self.tables.lease((client, asked.0))));
            self.tables.connect_again(fid);
            outs.push(Out::Sent(client, Reply::Created { file, fid, contexts: answer(lease, false) }));
            return;
        }
        if self.last_id == u64::MAX {
            outs.push(Out::Sent(client, Reply::CreateFailed { file, status: Status::Resources }));
            return;
        }
        let lease = ask.lease.map(|asked| (asked.0, self.lease_after((client, asked.0), file, asked.1)));
        let durable = ask.durable && lease.is_some_and(|lease| lease.1.state & 2 != 0);
        self.last_id += 1;
        let fid = self.last_id;
        let key = ask.lease.map(|asked| asked.0);
        let one = Open { fid, client, file, key, access, share, durable, connected: true };
        self.tables.push(one, lease.map_or(NONE, |lease| lease.1));
        outs.push(Out::Opened(file, client));
        outs.push(Out::Sent(client, Reply::Created { file, fid, contexts: answer(lease, durable) }));
    }

    fn answer(&mut self, outs: &mut Vec<Out>, client: u8, request: FileRequest) {
        match request {
            FileRequest::Create { file, access, share, ask } => self.create(outs, client, file, access, share, ask),
            FileRequest::Read { fid } => {
                let Some(file) = self.connected(client, fid).map(|one| one.file) else { return };
                let bytes = self.files[file as usize].content.clone();
                outs.push(Out::Sent(client, Reply::ReadDone { fid, bytes }));
            }
            FileRequest::Write { fid, number, patch } => {
                let Some(file) = self.connected(client, fid).map(|one| one.file) else { return };
                let content = &mut self.files[file as usize].content;
                let end = patch.offset as usize + patch.bytes.len();
                if !patch.bytes.is_empty() {
                    content.resize(end.max(content.len()), 0);
                    content[patch.offset as usize..end].copy_from_slice(&patch.bytes);
                }
                outs.push(Out::Changed(file, client, number, patch));
                outs.push(Out::Sent(client, Reply::WriteDone { fid, number }));
            }
            FileRequest::Close { fid } => {
                if self.connected(client, fid).is_some() {
                    self.tables.close(fid);
                    outs.push(Out::Sent(client, Reply::Closed { fid }));
                }
            }
        }
    }

    fn conclude(&mut self, outs: &mut Vec<Out>, client: u8, request: FileRequest, outcome: Outcome) {
        match outcome {
            Outcome::Refused(status) => refuse(outs, client, &request, status),
            Outcome::Waits => {}
            Outcome::Ready => self.answer(outs, client, request),
        }
    }

    fn connected(&self, client: u8, fid: u64) -> Option<&Open> {
        self.tables.open(fid).filter(|one| one.client == client && one.connected)
    }

    fn pass(&mut self, outs: &mut Vec<Out>, file: usize) -> bool {
        let mut place = 0;
        let mut answered = false;
        while place < self.files[file].held.len() {
            let held = &self.files[file].held;
            let client = held[place].client;
            let ask = held[place].request.ask();
            if held[..place].iter().any(|one| one.client == client) {
                place += 1;
                continue;
            }
            match self.attempt(outs, client, ask) {
                Outcome::Waits => place += 1,
                outcome => {
                    let one = self.files[file].held.remove(place);
                    self.conclude(outs, one.client, one.request, outcome);
                    answered = true;
                }
            }
        }
        answered
    }

    fn try_all(&mut self, outs: &mut Vec<Out>) {
        for file in 1..=self.count as usize {
            while self.pass(outs, file) {}
        }
    }

    fn first_try(&mut self, outs: &mut Vec<Out>, client: u8, request: FileRequest) {
        let file = match &request {
            FileRequest::Create { file, .. } if *file >= 1 && *file <= self.count => Ok(*file),
            FileRequest::Create { .. } => Err(Status::NotFound),
            FileRequest::Read { fid } | FileRequest::Write { fid, .. } | FileRequest::Close { fid } => {
                self.connected(client, *fid).map(|one| one.file).ok_or(Status::FileClosed)
            }
        };
        let file = match file {
            Ok(file) => file as usize,
            Err(status) => return refuse(outs, client, &request, status),
        };
        if self.files[file].held.iter().any(|one| one.client == client) {
            self.files[file].held.push(Held { client, request });
            return;
        }
        match self.attempt(outs, client, request.ask()) {
            Outcome::Waits => self.files[file].held.push(Held { client, request }),
            outcome => self.conclude(outs, client, request, outcome),
        }
    }

    fn acknowledge(&mut self, outs: &mut Vec<Out>, client: u8, message: &[u8; 36]) {
        let fail = |status| Out::Sent(client, Reply::AckFailed { status });
        if u16::from_le_bytes([message[0], message[1]]) != 36 {
            outs.push(fail(Status::InvalidParameter));
            return;
        }
        let key = (client, message[8..24].try_into().unwrap());
        let state = message[24] & 7;
        if !self.tables.has_lease(key) {
            outs.push(fail(Status::NotFound));
            return;
        }
        match self.tables.lease(key).broken_to {
            None => outs.push(fail(Status::Unsuccessful)),
            Some(lowered) if state & !lowered == 0 => {
                let state = granted(state);
                self.tables.put_lease(key, Lease { state, broken_to: None });
                outs.push(Out::Sent(client, Reply::AckDone(ack_message(&key.1, state))));
            }
            Some(_) => outs.push(fail(Status::NotAccepted)),
        }
    }

    fn receive(&mut self, client: u8, request: Request) -> Vec<Out> {
        let mut outs = Vec::new();
        if !self.present.contains(&client) {
            return outs;
        }
        match request {
            Request::Create { file, access, share, contexts } => match read_ask(&contexts) {
                Some(ask) => self.first_try(&mut outs, client, FileRequest::Create { file, access, share, ask }),
                None => outs.push(Out::Sent(client, Reply::CreateFailed { file, status: Status::InvalidParameter })),
            },
            Request::Read { fid } => self.first_try(&mut outs, client, FileRequest::Read { fid }),
            Request::Write { fid, number, patch } => {
                self.first_try(&mut outs, client, FileRequest::Write { fid, number, patch })
            }
            Request::Close { fid } => {
                self.first_try(&mut outs, client, FileRequest::Close { fid });
                self.try_all(&mut outs);
            }
            Request::Ack(message) => {
                self.acknowledge(&mut outs, client, &message);
                self.try_all(&mut outs);
            }
        }
        outs
    }
}

fn ack_message(key: &[u8; 16], state: u8) -> [u8; 36] {
    let mut message = [0; 36];
    message[0] = 36;
    message[8..24].copy_from_slice(key);
    message[24] = state;
    message
}

fn refuse(outs: &mut Vec<Out>, client: u8, request: &FileRequest, status: Status) {
    let reply = match request {
        FileRequest::Create { file, .. } => Reply::CreateFailed { file: *file, status },
        FileRequest::Read { fid } => Reply::ReadFailed { fid: *fid, status },
        FileRequest::Write { fid, number, .. } => Reply::WriteFailed { fid: *fid, number: *number, status },
        FileRequest::Close { fid } => Reply::CloseFailed { fid: *fid, status },
    };
    outs.push(Out::Sent(client, reply));
}

// A chain of contexts; None where it has a fault.
fn read_ask(text: &[u8]) -> Option<CreateAsk> {
    let mut ask = CreateAsk { lease: None, durable: false, reconnect: None };
    let mut place = 0;
    while !text.is_empty() {
        let rest = &text[place..];
        if rest.len() < 16 {
            return None;
        }
        let u32_at = |at: usize| u32::from_le_bytes(rest[at..at + 4].try_into().unwrap()) as usize;
        let u16_at = |at: usize| u16::from_le_bytes([rest[at], rest[at + 1]]) as usize;
        let next = u32_at(0);
        if next != 0 && (next < 16 || next % 8 != 0 || next > rest.len()) {
            return None;
        }
        let size = if next == 0 { rest.len() } else { next };
        let (name, count, data, length) = (u16_at(4), u16_at(6), u16_at(10), u32_at(12));
        if name < 16 || name + count > size || (length != 0 && (data < 16 || data + length > size)) {
            return None;
        }
        let body = if length == 0 { &[] } else { &rest[data..data + length] };
        match &rest[name..name + count] {
            b"RqLs" if body.len() == 32 => {
                if ask.lease.replace((body[..16].try_into().unwrap(), body[16] & 7)).is_some() {
                    return None;
                }
            }
            b"DHnQ" => {
                if body.len() != 16 || ask.durable {
                    return None;
                }
                ask.durable = true;
            }
            b"DHnC" => {
                if body.len() != 16 || ask.reconnect.replace(u64::from_le_bytes(body[..8].try_into().unwrap())).is_some() {
                    return None;
                }
            }
            _ => {}
        }
        if next == 0 {
            break;
        }
        place += next;
    }
    Some(ask)
}

fn context(text: &mut Vec<u8>, next: u32, name: &[u8; 4], body: &[u8]) {
    text.extend_from_slice(&next.to_le_bytes());
    text.extend_from_slice(&[16, 0, 4, 0, 0, 0, 24, 0]);
    text.extend_from_slice(&(body.len() as u32).to_le_bytes());
    text.extend_from_slice(name);
    text.extend_from_slice(&[0; 4]);
    text.extend_from_slice(body);
}

// The contexts of a reply.
fn answer(lease: Option<([u8; 16], Lease)>, durable: bool) -> Vec<u8> {
    let mut text = Vec::new();
    if let Some((key, lease)) = lease {
        let mut body = [0; 32];
        body[..16].copy_from_slice(&key);
        body[16] = lease.state;
        body[20] = if lease.broken_to.is_some() { 2 } else { 0 };
        context(&mut text, if durable { 56 } else { 0 }, b"RqLs", &body);
    }
    if durable {
        context(&mut text, 0, b"DHnQ", &[0; 8]);
    }
    text
}
