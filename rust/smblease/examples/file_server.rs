//! A file server of one file in memory, over the manager of leases: two clients, a break, and a request that waits for it.
use smblease::manager::{Ask, ClientNo, CreateAsk, Decision, FileNo, Tag};
use smblease::{Access, BreakNo, BreakTimers, FileId, LeaseKey, LeaseState, Manager, OutOfMemory, Rules, Share};
use std::collections::HashMap;

const FILE: FileNo = FileNo(1);

/// What the server does in the end.
#[derive(Debug, PartialEq, Eq)]
enum Done {
    /// The client's open is answered.
    Open(ClientNo, FileId, Option<LeaseState>),
    /// The client's read is answered.
    Read(ClientNo, String),
    /// The client's write is answered.
    Wrote(ClientNo),
    /// The client is sent a break, and a timer starts for it.
    Break(ClientNo, LeaseState, LeaseState, Option<BreakNo>),
    /// Another answer.
    Answered(ClientNo, &'static str),
}

/// The server: the manager, its timers, the file, and what reads and writes are to do once they may.
struct FileServer {
    manager: Manager,
    timers: BreakTimers,
    file: String,
    held: HashMap<(ClientNo, Tag), Option<String>>,
    last_tag: u64,
}

impl FileServer {
    fn new(file: &str) -> FileServer {
        FileServer {
            manager: Manager::new(Rules::by_key_whole()),
            timers: BreakTimers::new(),
            file: file.to_string(),
            held: HashMap::new(),
            last_tag: 0,
        }
    }

    fn tag(&mut self) -> Tag {
        self.last_tag += 1;
        Tag(self.last_tag)
    }

    fn open(&mut self, client: ClientNo, key: LeaseKey, wanted: LeaseState) -> Result<Vec<Done>, OutOfMemory> {
        let ask = CreateAsk { lease: Some((key, wanted)), durable: false, reconnect: None };
        let create = Ask::Create { file: FILE, access: Access::ReadWrite, share: Share::ReadWrite, ask };
        let tag = self.tag();
        let decisions = self.manager.ask(client, tag, create)?.to_vec();
        self.carry_out(decisions)
    }

    fn read(&mut self, client: ClientNo, fid: FileId) -> Result<Vec<Done>, OutOfMemory> {
        let tag = self.tag();
        self.held.insert((client, tag), None);
        let decisions = self.manager.ask(client, tag, Ask::Read { fid })?.to_vec();
        self.carry_out(decisions)
    }

    fn write(&mut self, client: ClientNo, fid: FileId, text: &str) -> Result<Vec<Done>, OutOfMemory> {
        let tag = self.tag();
        self.held.insert((client, tag), Some(text.to_string()));
        let decisions = self.manager.ask(client, tag, Ask::Write { fid, fits: true })?.to_vec();
        self.carry_out(decisions)
    }

    fn acknowledge(&mut self, client: ClientNo, key: LeaseKey, state: LeaseState) -> Result<Vec<Done>, OutOfMemory> {
        let decisions = self.manager.acknowledge(client, key, state)?.to_vec();
        self.carry_out(decisions)
    }

    /// The timer of this number ran out.
    fn run_out(&mut self, number: BreakNo) -> Result<Vec<Done>, OutOfMemory> {
        let Some((client, key)) = self.timers.run_out(number) else { return Ok(Vec::new()) };
        let decisions = self.manager.expire(client, key)?.to_vec();
        self.carry_out(decisions)
    }

    /// Decisions are an order of effects: each is carried out before the next.
    fn carry_out(&mut self, decisions: Vec<Decision>) -> Result<Vec<Done>, OutOfMemory> {
        let mut done = Vec::new();
        for decision in &decisions {
            let timer = self.timers.note(decision)?;
            done.push(match decision {
                Decision::Opened { client, file_id, answer, .. } => Done::Open(*client, *file_id, answer.lease.map(|lease| lease.1)),
                Decision::GoesOn { client, tag } => self.go_on(*client, *tag),
                Decision::Breaks { client, notice } => Done::Break(*client, notice.current, notice.lowered, timer),
                Decision::Waits { client, .. } => Done::Answered(*client, "waits"),
                Decision::Acknowledged { client, .. } => Done::Answered(*client, "acknowledged"),
                Decision::Refused { client, .. } | Decision::NotAcknowledged { client, .. } => Done::Answered(*client, "refused"),
                Decision::Closed { client, .. } | Decision::Withdrawn { client, .. } => Done::Answered(*client, "ended"),
                Decision::Ended { .. } | Decision::LeftBehind { .. } => continue,
            });
        }
        Ok(done)
    }

    /// A read or a write that may go on.
    fn go_on(&mut self, client: ClientNo, tag: Tag) -> Done {
        match self.held.remove(&(client, tag)).flatten() {
            Some(text) => {
                self.file = text;
                Done::Wrote(client)
            }
            None => Done::Read(client, self.file.clone()),
        }
    }
}

const ONE: ClientNo = ClientNo(1);
const TWO: ClientNo = ClientNo(2);
const KEYS: (LeaseKey, LeaseKey) = (LeaseKey([1; 16]), LeaseKey([2; 16]));

fn main() -> Result<(), OutOfMemory> {
    let (all, shared) = (LeaseState::from_wire(7), LeaseState::from_wire(3));
    let mut server = FileServer::new("as it was");
    server.manager.join(ONE)?;
    server.manager.join(TWO)?;
    assert_eq!(server.open(ONE, KEYS.0, all)?, [Done::Open(ONE, FileId(1), Some(all))]);
    // The second client's open waits until the first one gives up its cached writes.
    let opening = server.open(TWO, KEYS.1, all)?;
    assert_eq!(opening, [Done::Break(ONE, all, shared, Some(BreakNo(1))), Done::Answered(TWO, "waits")]);
    assert_eq!(server.write(ONE, FileId(1), "as the first client left it")?, [Done::Wrote(ONE)]);
    let acknowledging = server.acknowledge(ONE, KEYS.0, shared)?;
    assert_eq!(acknowledging, [Done::Answered(ONE, "acknowledged"), Done::Open(TWO, FileId(2), Some(shared))]);
    assert_eq!(server.read(TWO, FileId(2))?, [Done::Read(TWO, "as the first client left it".to_string())]);
    // A timer that runs out after the acknowledgment ends nothing.
    assert_eq!(server.run_out(BreakNo(1))?, []);
    println!("{}", server.file);
    Ok(())
}

#[test]
fn serves_a_break_between_two_clients() -> Result<(), OutOfMemory> {
    main()
}
