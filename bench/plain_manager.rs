// A lease manager written by hand in plain Rust, for bench/manager.rs, over the tables of plain_records.rs. It tries each held
// request again in each pass.

type ClientNo = u64;
type FileNo = u64;

#[derive(Clone, Copy)]
#[allow(dead_code)]
enum Ask {
    Create { file: FileNo, access: Access, share: Share, ask: CreateAsk },
    Read { fid: u64 },
    Write { fid: u64, fits: bool },
    Close { fid: u64 },
}

#[derive(Clone, Copy)]
#[allow(dead_code)]
enum Decision {
    Opened { client: ClientNo, tag: u64, fid: u64, lease: Option<([u8; 16], Lease)>, durable: bool },
    GoesOn { client: ClientNo, tag: u64 },
    Closed { client: ClientNo, tag: u64 },
    Refused { client: ClientNo, tag: u64, status: Status },
    Waits { client: ClientNo, tag: u64 },
    Breaks { client: ClientNo, ack_required: bool, key: [u8; 16], current: u8, lowered: u8 },
    Acknowledged { client: ClientNo, key: [u8; 16], state: u8 },
    NotAcknowledged { client: ClientNo, status: Status },
    Ended { fid: u64 },
    LeftBehind { fid: u64 },
}

struct Held { client: ClientNo, tag: u64, ask: Ask }

enum Outcome { Refused(Status), Waits, Ready }

struct Manager {
    tables: Tables,
    queues: BTreeMap<FileNo, Vec<Held>>,
    present: BTreeSet<ClientNo>,
    expired: Vec<Key>,
    last_id: u64,
}

// FileIds rise: those of opens that ended in one try are told in their order.
type Ended = BTreeSet<u64>;

impl Manager {
    fn new() -> Manager {
        let (queues, present) = (BTreeMap::new(), BTreeSet::new());
        Manager { tables: Tables::new(), queues, present, expired: Vec::new(), last_id: 0 }
    }

    fn join(&mut self, client: ClientNo) {
        if self.present.insert(client) {
            self.expired.retain(|key| key.0 != client);
        }
    }

    fn wants(&self, wish: Wish, own: Option<Key>, file: FileNo) -> Vec<Want> {
        let lowered = |state| match wish {
            Wish::NoHandles(..) => state & 5,
            Wish::NoWrites => state & 3,
            Wish::Nothing => 0,
        };
        let keys = self.tables.wanted(wish, own, file).into_iter();
        keys.map(|key| Want { key, lowered: lowered(self.tables.lease(key).state) }).collect()
    }

    fn connected(&self, client: ClientNo, fid: u64) -> Option<&Open> {
        self.tables.open(fid).filter(|one| one.client == client && one.connected)
    }

    fn open_finding(&self, own: Option<Key>, file: FileNo, access: Access, share: Share) -> Finding {
        if own.is_some_and(|key| self.tables.is_elsewhere(key, file)) {
            return Finding::Fails(Status::InvalidParameter);
        }
        if !self.tables.has_conflict_on(file, access, share) {
            return Finding::Needs(self.wants(Wish::NoWrites, own, file));
        }
        let wants = self.wants(Wish::NoHandles(access, share), own, file);
        if wants.is_empty() { Finding::Fails(Status::Sharing) } else { Finding::Needs(wants) }
    }

    fn reconnect_finding(&self, client: ClientNo, file: FileNo, own: Option<Key>, fid: u64) -> Finding {
        let awaits = |one: &Open| !one.connected && one.client == client && one.file == file && one.has_own(own);
        if self.tables.open(fid).is_some_and(awaits) { Finding::Needs(Vec::new()) } else { Finding::Fails(Status::NotFound) }
    }

    fn finding(&self, client: ClientNo, ask: Ask) -> Finding {
        let fid = match ask {
            Ask::Create { file, access, share, ask } => {
                let own = ask.lease.map(|lease| (client, lease.0));
                return match ask.reconnect {
                    None => self.open_finding(own, file, access, share),
                    Some(fid) => self.reconnect_finding(client, file, own, fid),
                };
            }
            Ask::Read { fid } | Ask::Write { fid, .. } | Ask::Close { fid } => fid,
        };
        let Some(one) = self.connected(client, fid) else { return Finding::Fails(Status::FileClosed) };
        match ask {
            Ask::Read { .. } if !one.access.reads() => Finding::Fails(Status::AccessDenied),
            Ask::Write { .. } if !one.access.writes() => Finding::Fails(Status::AccessDenied),
            Ask::Write { fits: false, .. } => Finding::Fails(Status::InvalidParameter),
            Ask::Write { .. } if self.tables.is_hindered(one.key(), one.file) => {
                Finding::Needs(self.wants(Wish::Nothing, one.key(), one.file))
            }
            _ => Finding::Needs(Vec::new()),
        }
    }

    fn meet(&mut self, told: &mut Vec<Decision>, ended: &mut Ended, want: &Want) {
        ended.extend(self.tables.close_left(want.key));
        let lease = self.tables.lease(want.key);
        if !self.tables.has_lease(want.key) || lease.broken_to.is_some() {
            return;
        }
        let ack_required = lease.state & 6 != 0;
        let after = if ack_required {
            Lease { state: lease.state, broken_to: Some(want.lowered) }
        } else {
            Lease { state: want.lowered, broken_to: None }
        };
        self.tables.put_lease(want.key, after);
        let (client, key) = want.key;
        told.push(Decision::Breaks { client, ack_required, key, current: lease.state, lowered: want.lowered });
    }

    // The opens that end are told before what is broken.
    fn attempt(&mut self, told: &mut Vec<Decision>, client: ClientNo, ask: Ask) -> Outcome {
        let (mut ended, mut breaks) = (Ended::new(), Vec::new());
        let outcome = self.rounds(&mut breaks, &mut ended, client, ask);
        told.extend(ended.into_iter().map(|fid| Decision::Ended { fid }));
        told.append(&mut breaks);
        outcome
    }

    fn rounds(&mut self, told: &mut Vec<Decision>, ended: &mut Ended, client: ClientNo, ask: Ask) -> Outcome {
        let writes = matches!(ask, Ask::Write { .. });
        for _ in 0..3 {
            let wants = match self.finding(client, ask) {
                Finding::Fails(status) => return Outcome::Refused(status),
                Finding::Needs(wants) => wants,
            };
            let to_nothing = |want: &Want| self.tables.lease(want.key).broken_to == Some(0);
            if if writes { wants.iter().all(to_nothing) } else { wants.is_empty() } {
                return Outcome::Ready;
            }
            for want in &wants {
                self.meet(told, ended, want);
            }
            let waits = |lease: Lease| lease.broken_to.is_some_and(|state| !writes || state != 0);
            if wants.iter().any(|want| waits(self.tables.lease(want.key))) {
                return Outcome::Waits;
            }
        }
        Outcome::Waits
    }

    fn lease_after(&self, key: Key, file: FileNo, want: u8) -> Lease {
        let lease = self.tables.lease(key);
        let form = granted(want);
        if lease.broken_to.is_some() || lease.state & !form != 0 {
            return lease;
        }
        let offered = if self.tables.has_other_on(Some(key), file) { form & 3 } else { form };
        Lease { state: if self.expired.contains(&key) { 0 } else { offered }, broken_to: None }
    }

    fn create(&mut self, told: &mut Vec<Decision>, from: (ClientNo, u64), file: FileNo, terms: (Access, Share), ask: CreateAsk) {
        let (client, tag) = from;
        if let Some(fid) = ask.reconnect {
            let lease = ask.lease.map(|asked| (asked.0, self.tables.lease((client, asked.0))));
            self.tables.connect_again(fid);
            told.push(Decision::Opened { client, tag, fid, lease, durable: false });
            return;
        }
        if self.last_id == u64::MAX {
            told.push(Decision::Refused { client, tag, status: Status::Resources });
            return;
        }
        let lease = ask.lease.map(|asked| (asked.0, self.lease_after((client, asked.0), file, asked.1)));
        let durable = ask.durable && lease.is_some_and(|lease| lease.1.state & 2 != 0);
        self.last_id += 1;
        let (fid, key, (access, share)) = (self.last_id, ask.lease.map(|asked| asked.0), terms);
        let one = Open { fid, client, file, key, access, share, durable, connected: true };
        self.tables.push(one, lease.map_or(NONE, |lease| lease.1));
        told.push(Decision::Opened { client, tag, fid, lease, durable });
    }

    fn conclude(&mut self, told: &mut Vec<Decision>, client: ClientNo, tag: u64, ask: Ask, outcome: Outcome) {
        match outcome {
            Outcome::Refused(status) => told.push(Decision::Refused { client, tag, status }),
            Outcome::Waits => {}
            Outcome::Ready => match ask {
                Ask::Create { file, access, share, ask } => self.create(told, (client, tag), file, (access, share), ask),
                Ask::Read { .. } | Ask::Write { .. } => told.push(Decision::GoesOn { client, tag }),
                Ask::Close { fid } => {
                    self.tables.close(fid);
                    told.push(Decision::Closed { client, tag });
                }
            },
        }
    }

    // Tries the request at this place of the file's queue, unless it waits behind one of its client: whether it was answered.
    fn try_again(&mut self, told: &mut Vec<Decision>, file: FileNo, place: usize) -> bool {
        let held = &self.queues[&file];
        let Held { client, tag, ask } = held[place];
        if held[..place].iter().any(|one| one.client == client) {
            return false;
        }
        let outcome = self.attempt(told, client, ask);
        if matches!(outcome, Outcome::Waits) {
            return false;
        }
        if let Some(held) = self.queues.get_mut(&file) {
            held.remove(place);
            if held.is_empty() {
                self.queues.remove(&file);
            }
        }
        self.conclude(told, client, tag, ask, outcome);
        true
    }

    fn pass(&mut self, told: &mut Vec<Decision>, file: FileNo) -> bool {
        let mut place = 0;
        let mut answered = false;
        while place < self.queues.get(&file).map_or(0, Vec::len) {
            if self.try_again(told, file, place) {
                answered = true;
            } else {
                place += 1;
            }
        }
        answered
    }

    fn try_all(&mut self, told: &mut Vec<Decision>) {
        let files: Vec<FileNo> = self.queues.keys().copied().collect();
        for file in files {
            while self.pass(told, file) {}
        }
    }

    fn first_try(&mut self, told: &mut Vec<Decision>, client: ClientNo, tag: u64, ask: Ask) {
        let file = match ask {
            Ask::Create { file: 0, .. } => Err(Status::NotFound),
            Ask::Create { file, .. } => Ok(file),
            Ask::Read { fid } | Ask::Write { fid, .. } | Ask::Close { fid } => {
                self.connected(client, fid).map(|one| one.file).ok_or(Status::FileClosed)
            }
        };
        let file = match file {
            Ok(file) => file,
            Err(status) => return told.push(Decision::Refused { client, tag, status }),
        };
        let is_behind = self.queues.get(&file).is_some_and(|held| held.iter().any(|one| one.client == client));
        let outcome = if is_behind { Outcome::Waits } else { self.attempt(told, client, ask) };
        if matches!(outcome, Outcome::Waits) {
            self.queues.entry(file).or_default().push(Held { client, tag, ask });
            told.push(Decision::Waits { client, tag });
            return;
        }
        self.conclude(told, client, tag, ask, outcome);
    }

    fn ask(&mut self, client: ClientNo, tag: u64, ask: Ask, told: &mut Vec<Decision>) {
        told.clear();
        if !self.present.contains(&client) {
            return;
        }
        self.first_try(told, client, tag, ask);
        if matches!(ask, Ask::Close { .. }) {
            self.try_all(told);
        }
    }

    fn acknowledged(&mut self, key: Key, state: u8) -> Result<u8, Status> {
        if !self.tables.has_lease(key) {
            return Err(Status::NotFound);
        }
        match self.tables.lease(key).broken_to {
            None => Err(Status::Unsuccessful),
            Some(lowered) if state & !lowered != 0 => Err(Status::NotAccepted),
            Some(_) => {
                let state = granted(state);
                self.tables.put_lease(key, Lease { state, broken_to: None });
                Ok(state)
            }
        }
    }

    fn acknowledge(&mut self, client: ClientNo, key: [u8; 16], state: u8, told: &mut Vec<Decision>) {
        told.clear();
        if !self.present.contains(&client) {
            return;
        }
        told.push(match self.acknowledged((client, key), state) {
            Ok(state) => Decision::Acknowledged { client, key, state },
            Err(status) => Decision::NotAcknowledged { client, status },
        });
        self.try_all(told);
    }

    fn cut(&mut self, client: ClientNo, told: &mut Vec<Decision>) {
        told.clear();
        if !self.present.remove(&client) {
            return;
        }
        for fid in self.tables.lost_by(client) {
            self.tables.close(fid);
            told.push(Decision::Ended { fid });
        }
        told.extend(self.tables.disconnect(client).into_iter().map(|fid| Decision::LeftBehind { fid }));
        for held in self.queues.values_mut() {
            held.retain(|one| one.client != client);
        }
        self.queues.retain(|_, held| !held.is_empty());
        self.try_all(told);
    }

    fn expire(&mut self, client: ClientNo, key: [u8; 16], told: &mut Vec<Decision>) {
        told.clear();
        let key = (client, key);
        if self.tables.lease(key).broken_to.is_none() {
            return;
        }
        for fid in self.tables.of_key(key) {
            self.tables.close(fid);
            told.push(Decision::Ended { fid });
        }
        self.expired.push(key);
        self.try_all(told);
    }
}

impl Tables {
    // The connected opens of the client that don't outlive its connection, by a look at all opens.
    fn lost_by(&self, client: ClientNo) -> Vec<u64> {
        let outlives = |one: &Open| {
            let lease = one.key().map_or(NONE, |key| self.lease(key));
            one.durable && lease.state & 2 != 0 && lease.broken_to.is_none()
        };
        let opens = self.opens.values().filter(|one| one.client == client && one.connected && !outlives(one));
        opens.map(|one| one.fid).collect()
    }

    fn of_key(&self, key: Key) -> Vec<u64> { self.opens.values().filter(|one| one.has(key)).map(|one| one.fid).collect() }

    fn disconnect(&mut self, client: ClientNo) -> Vec<u64> {
        let mut fids = Vec::new();
        for one in self.opens.values_mut().filter(|one| one.client == client && one.connected) {
            one.connected = false;
            self.left.entry((client, one.file)).or_default().insert(one.fid);
            fids.push(one.fid);
        }
        fids
    }
}
