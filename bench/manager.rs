// The same calls as `lease_bench manager`, with the manager of plain_manager.rs, for bench/manager.
use std::env;
use std::process::exit;

include!("plain_values.rs");
include!("plain_manager.rs");
include!("plain_records.rs");

fn key(number: u64) -> [u8; 16] {
    let mut bytes = [7; 16];
    bytes[..8].copy_from_slice(&number.wrapping_mul(0x9E37_79B9_7F4A_7C15).to_be_bytes());
    bytes
}

fn create(file: FileNo, ask: CreateAsk) -> Ask {
    Ask::Create { file, access: Access::ReadWrite, share: Share::ReadWrite, ask }
}

const PLAIN: CreateAsk = CreateAsk { lease: None, durable: false, reconnect: None };

fn leased(key: [u8; 16], want: u8, durable: bool) -> CreateAsk {
    CreateAsk { lease: Some((key, want)), durable, reconnect: None }
}

fn joined(one: u64, other: u64) -> u64 { one.wrapping_mul(31).wrapping_add(other) }

fn weight(decision: &Decision) -> u64 {
    match *decision {
        Decision::Opened { tag, fid, lease, durable, .. } => {
            let held = lease.map_or(0, |lease| u64::from(lease.1.state) * 2 + u64::from(lease.1.broken_to.is_some()));
            joined(tag, joined(fid, joined(held, u64::from(durable))))
        }
        Decision::GoesOn { client, tag } => joined(client, joined(tag, 1)),
        Decision::Closed { client, tag } => joined(client, joined(tag, 2)),
        Decision::Refused { client, tag, .. } => joined(client, joined(tag, 3)),
        Decision::Waits { client, tag } => joined(client, joined(tag, 4)),
        Decision::Breaks { client, current, lowered, .. } => joined(client, joined(u64::from(current), u64::from(lowered))),
        Decision::Acknowledged { client, state, .. } => joined(client, joined(u64::from(state), 6)),
        Decision::NotAcknowledged { client, .. } => joined(client, 7),
        Decision::Ended { fid } => joined(fid, 8),
        Decision::LeftBehind { fid } => joined(fid, 9),
    }
}

struct Stage { manager: Manager, decisions: Vec<Decision>, calls: u64, sum: u64 }

impl Stage {
    fn new(clients: u64) -> Stage {
        let mut manager = Manager::new();
        for client in 1..=clients {
            manager.join(client);
        }
        Stage { manager, decisions: Vec::new(), calls: 0, sum: 0 }
    }

    fn add(&mut self) {
        self.calls += 1;
        self.sum = self.decisions.iter().fold(self.sum, |sum, decision| sum.wrapping_mul(7).wrapping_add(weight(decision)));
    }

    fn ask(&mut self, client: ClientNo, ask: Ask) {
        self.manager.ask(client, self.calls, ask, &mut self.decisions);
        self.add();
    }

    fn acknowledge(&mut self, client: ClientNo, key: [u8; 16], state: u8) {
        self.manager.acknowledge(client, key, state, &mut self.decisions);
        self.add();
    }

    fn expire(&mut self, client: ClientNo, key: [u8; 16]) {
        self.manager.expire(client, key, &mut self.decisions);
        self.add();
    }

    fn reconnect(&mut self, client: ClientNo) {
        self.manager.cut(client, &mut self.decisions);
        self.add();
        self.manager.join(client);
    }
}

#[derive(Clone, Copy)]
struct Scale { opens: u64, clients: u64, files: u64, rounds: u64 }

impl Scale {
    fn on_a_file(self) -> u64 { self.opens / self.files }

    fn open(self, file: u64, place: u64) -> u64 { file * self.on_a_file() + place }

    fn client(self, file: u64, place: u64) -> ClientNo { self.open(file, place) % self.clients + 1 }

    fn file_id(self, file: u64, place: u64, rounds: u64) -> u64 {
        if rounds == 0 || place == 0 {
            return self.open(file, place) + 1;
        }
        self.opens + (self.on_a_file() - 1) * ((rounds - 1) * self.files + file) + place
    }
}

fn has_lease(place: u64) -> bool { place % 4 != 3 }

fn ask_for(file: u64, place: u64) -> CreateAsk {
    if has_lease(place) { leased(key(file), if place == 0 { 7 } else { 3 }, place % 2 == 1) } else { PLAIN }
}

fn open_file(stage: &mut Stage, scale: Scale, file: u64) {
    for place in 0..scale.on_a_file() {
        stage.ask(scale.client(file, place), create(file + 1, ask_for(file, place)));
        if place == 1 {
            stage.acknowledge(scale.client(file, 0), key(file), 3);
        }
    }
}

fn play_round(stage: &mut Stage, scale: Scale, round: u64) {
    for file in 0..scale.files {
        stage.ask(scale.client(file, 0), Ask::Write { fid: scale.file_id(file, 0, round), fits: true });
        for place in 1..scale.on_a_file() {
            let (client, fid) = (scale.client(file, place), scale.file_id(file, place, round));
            if has_lease(place) {
                stage.acknowledge(client, key(file), 0);
            }
            stage.ask(client, Ask::Read { fid });
            stage.ask(client, Ask::Close { fid });
            stage.ask(client, create(file + 1, ask_for(file, place)));
        }
    }
}

fn cut_client(stage: &mut Stage, scale: Scale, client: ClientNo) {
    stage.reconnect(client);
    for (file, place) in (0..scale.files).flat_map(|file| (0..scale.on_a_file()).map(move |place| (file, place))) {
        if scale.client(file, place) == client && has_lease(place) && place % 2 == 1 {
            let reconnect = Some(scale.file_id(file, place, scale.rounds));
            stage.ask(client, create(file + 1, CreateAsk { lease: Some((key(file), 0)), durable: false, reconnect }));
        }
    }
}

fn session(scale: Scale) -> Stage {
    let mut stage = Stage::new(scale.clients);
    for file in 0..scale.files {
        open_file(&mut stage, scale, file);
    }
    for round in 0..scale.rounds {
        play_round(&mut stage, scale, round);
    }
    for number in 0..scale.clients.div_ceil(1_000) {
        cut_client(&mut stage, scale, number + 1);
    }
    stage
}

fn leases(stage: &mut Stage, size: u64, want: u8) {
    for number in 0..size {
        let ask = leased(key(number), want, false);
        stage.ask(1, Ask::Create { file: 1, access: Access::Read, share: Share::Read, ask });
    }
}

fn many_opens(stage: &mut Stage, size: u64) {
    (0..size).for_each(|number| stage.ask(1, create(number + 1, leased(key(number), 3, true))));
}

fn end_by_timer(stage: &mut Stage, lost: ClientNo, other: ClientNo, file: u64, last: u64) {
    stage.ask(lost, create(file, leased(key(0), 7, false)));
    stage.ask(other, create(file, PLAIN));
    stage.expire(lost, key(0));
    stage.ask(other, Ask::Close { fid: last + 2 });
}

const CONFLICTING: Ask = Ask::Create { file: 1, access: Access::Write, share: Share::ReadWrite, ask: PLAIN };

fn family(name: &str, size: u64) -> Option<Stage> {
    let mut stage = Stage::new(3);
    match name {
        "acknowledged" => {
            leases(&mut stage, size, 3);
            stage.ask(2, CONFLICTING);
            (0..size).for_each(|number| stage.acknowledge(1, key(number), 1));
        }
        "expired" => {
            leases(&mut stage, size, 3);
            stage.ask(2, CONFLICTING);
            (0..size).for_each(|number| stage.expire(1, key(number)));
        }
        "conflicts" => {
            leases(&mut stage, size, 1);
            (0..size).for_each(|_| stage.ask(2, CONFLICTING));
        }
        "released" => {
            stage.ask(1, create(1, leased(key(0), 7, false)));
            (0..size).for_each(|_| stage.ask(2, create(1, PLAIN)));
            stage.expire(1, key(0));
        }
        "cut-beside" => {
            many_opens(&mut stage, size);
            for number in 0..size {
                stage.ask(2, create(number + 1, PLAIN));
                stage.reconnect(2);
            }
        }
        "expired-beside" => {
            many_opens(&mut stage, size);
            for number in 0..size {
                end_by_timer(&mut stage, 2, 3, size + 1, size + 2 * number);
                stage.reconnect(2);
            }
        }
        "waiting" => {
            stage.ask(1, create(1, leased(key(0), 7, false)));
            (0..size).for_each(|_| stage.ask(2, create(1, PLAIN)));
            for number in 0..size {
                stage.ask(3, create(2, PLAIN));
                stage.ask(3, Ask::Close { fid: number + 2 });
                stage.reconnect(3);
            }
        }
        "expired-clients" => {
            for number in 0..size {
                stage.reconnect(number + 4);
                end_by_timer(&mut stage, number + 4, 2, 1, 2 * number);
            }
            for _ in 0..size {
                stage.ask(3, create(1, leased(key(0), 7, false)));
                stage.reconnect(3);
            }
        }
        "cut" => {
            (0..size).for_each(|number| stage.ask(1, create(number + 1, leased(key(number), 7, number % 2 == 0))));
            stage.reconnect(1);
            (0..size).for_each(|number| stage.ask(1, Ask::Read { fid: number + 1 }));
        }
        _ => return None,
    }
    Some(stage)
}

fn played(words: &[String]) -> Option<Stage> {
    let numbers = words.get(1..)?.iter().map(|word| word.parse().ok()).collect::<Option<Vec<u64>>>()?;
    match (words[0].as_str(), numbers.as_slice()) {
        ("session", &[opens, clients, files, rounds]) => Some(session(Scale { opens, clients, files, rounds })),
        (name, &[size]) => family(name, size),
        _ => None,
    }
}

fn main() {
    let words: Vec<String> = env::args().skip(2).collect();
    let Some(stage) = played(&words) else { exit(2) };
    println!("{} {}", stage.calls, stage.sum);
}
