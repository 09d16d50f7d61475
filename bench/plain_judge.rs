// Judges facts in one pass, with the same structures as the proved judge, for judge.rs and replay.rs, which say what a
// Patch is: an offset and bytes.
use std::collections::VecDeque;
use std::process;
use std::rc::Rc;

const LIMIT: u64 = 1_048_576;
// Fewer numbers than this may be left out before one that still stands in the list.
const GAP: usize = 64;

impl Patch {
    fn fits(&self) -> bool {
        u64::from(self.offset) + self.bytes.len() as u64 <= LIMIT
    }
    fn apply(&self, content: &mut Vec<u8>) {
        if self.bytes.is_empty() {
            return;
        }
        let (first, end) = (self.offset as usize, self.offset as usize + self.bytes.len());
        if content.len() < end {
            content.resize(end, 0);
        }
        content[first..end].copy_from_slice(&self.bytes);
    }
}

// Which client opened or changed a file last, and where; and where another client did so last. 0 is nowhere.
#[derive(Default)]
struct Touches {
    client: u8,
    place: u64,
    by_others: u64,
}

impl Touches {
    fn touch(&mut self, client: u8, place: u64) {
        if client != self.client {
            self.client = client;
            self.by_others = self.place;
        }
        self.place = place;
    }
    fn by_others(&self, client: u8) -> u64 {
        if client == self.client { self.by_others } else { self.place }
    }
}

#[derive(Default)]
struct FileSeen {
    start: Option<Vec<u8>>,
    changes: Vec<(u64, Patch)>,
    touches: Touches,
}

struct WriteSeen {
    file: u8,
    place: u64,
    buffered: bool,
    patch: Patch,
    accepted: bool,
}

// Writes by their numbers: those that came one after another from 1 on in a list.
#[derive(Default)]
struct WritesSeen {
    first: Vec<WriteSeen>,
    rest: std::collections::BTreeMap<u64, WriteSeen>,
}

impl WritesSeen {
    fn get(&self, number: u64) -> Option<&WriteSeen> {
        match number.checked_sub(1) {
            Some(place) if place < self.first.len() as u64 => self.first.get(place as usize),
            _ => self.rest.get(&number),
        }
    }
    fn get_mut(&mut self, number: u64) -> Option<&mut WriteSeen> {
        match number.checked_sub(1) {
            Some(place) if place < self.first.len() as u64 => self.first.get_mut(place as usize),
            _ => self.rest.get_mut(&number),
        }
    }
    fn insert(&mut self, number: u64, write: WriteSeen) {
        if number > 0 && number - 1 == self.first.len() as u64 {
            self.first.push(write);
        } else {
            self.rest.insert(number, write);
        }
    }
}

// A set of numbers of writes: flags of the first ones, and the rest.
#[derive(Default)]
struct Numbers {
    first: Vec<bool>,
    rest: std::collections::BTreeSet<u64>,
}

impl Numbers {
    fn contains(&self, number: u64) -> bool {
        matches!(self.first.get(number as usize), Some(true)) || self.rest.contains(&number)
    }
    fn insert(&mut self, number: u64) {
        let (place, count) = (number as usize, self.first.len());
        if place < count {
            self.first[place] = true;
        } else if place - count < GAP {
            self.first.resize(place, false);
            self.first.push(true);
        } else {
            self.rest.insert(number);
        }
    }
}

// A byte of a write at a position, and which cover lies under it. Covers count from 1; 0 is none.
struct Cover {
    number: u64,
    byte: u8,
    below: u32,
}

// The topmost covers, by positions.
#[derive(Default)]
struct Covers {
    covers: Vec<Cover>,
    tops: Vec<u32>,
}

impl Covers {
    fn lay(&mut self, number: u64, patch: &Patch) {
        for (place, byte) in patch.bytes.iter().enumerate() {
            let position = patch.offset as usize + place;
            while self.tops.len() <= position {
                self.tops.push(0);
            }
            if self.covers.len() >= u32::MAX as usize {
                process::exit(1);
            }
            self.covers.push(Cover { number, byte: *byte, below: self.tops[position] });
            self.tops[position] = self.covers.len() as u32;
        }
    }
    // Settled writes are taken off where they lie on top, and positions at the end that nothing covers.
    fn uncover(&mut self, settled: &Numbers) {
        for top in &mut self.tops {
            while *top > 0 && settled.contains(self.covers[*top as usize - 1].number) {
                *top = self.covers[*top as usize - 1].below;
            }
        }
        let covered = self.tops.iter().rposition(|top| *top != 0).map_or(0, |last| last + 1);
        self.tops.truncate(covered);
        if covered == 0 {
            self.covers.clear();
        }
    }
    fn byte_at(&self, base: &[u8], position: usize) -> u8 {
        match self.tops[position] {
            0 => base.get(position).copied().unwrap_or(0),
            top => self.covers[top as usize - 1].byte,
        }
    }
    // Whether these are the bytes of the base with the writes over them.
    fn shows(&self, base: &[u8], bytes: &[u8]) -> bool {
        let covered = self.tops.len();
        bytes.len() == base.len().max(covered)
            && (0..covered).all(|position| self.byte_at(base, position) == bytes[position])
            && bytes[covered..] == base[covered.min(base.len())..]
    }
}

#[derive(Default)]
struct Cache {
    belief: u8,
    // The client's writes on the file since a read was looked at last.
    fresh: Vec<(u64, Patch)>,
    covers: Covers,
    base: Option<(usize, Vec<u8>)>,
}

impl Cache {
    // Whether the client sees these bytes: the file as it stood before the place, with the unanswered writes.
    fn shows(&mut self, of: &FileSeen, place: u64, settled: &Numbers, bytes: &[u8]) -> bool {
        for (number, patch) in self.fresh.drain(..) {
            if !settled.contains(number) {
                self.covers.lay(number, &patch);
            }
        }
        self.covers.uncover(settled);
        let first = || (0, of.start.clone().unwrap_or_default());
        let (applied, base) = self.base.get_or_insert_with(first);
        while *applied < of.changes.len() && of.changes[*applied].0 < place {
            of.changes[*applied].1.apply(base);
            *applied += 1;
        }
        self.covers.shows(base, bytes)
    }
}

// How many good clients believe that they may cache something of a file, and how many of these that they may cache writes.
#[derive(Clone, Copy, Default)]
struct Holders {
    any: u16,
    writing: u16,
}

impl Holders {
    fn enter(&mut self, state: u8) {
        self.any += u16::from(state != 0);
        self.writing += u16::from(state & 4 != 0);
    }
    fn leave(&mut self, state: u8) {
        self.any -= u16::from(state != 0);
        self.writing -= u16::from(state & 4 != 0);
    }
    fn conflict(self, state: u8) -> bool {
        if state & 4 != 0 { self.any > 0 } else { self.writing > 0 && state != 0 }
    }
}

#[derive(Default)]
struct ClientSeen {
    joined: bool,
    served: bool,
    strayed: bool,
    sent: VecDeque<u64>,
    taken: Option<u64>,
    writes: WritesSeen,
    settled: Numbers,
    caches: Vec<Cache>,
}

impl ClientSeen {
    fn good(&self) -> bool {
        self.served && !self.strayed
    }
}

#[derive(Default)]
struct Judge {
    place: u64,
    verdict: Option<String>,
    files: Vec<FileSeen>,
    clients: Vec<ClientSeen>,
    holders: Vec<Holders>,
}

fn seat<T: Default>(list: &mut Vec<T>, number: u8) -> &mut T {
    if list.len() <= usize::from(number) {
        list.resize_with(usize::from(number) + 1, T::default);
    }
    &mut list[usize::from(number)]
}

#[allow(dead_code)]
#[derive(Clone)]
enum Fact {
    Start(u8, Vec<u8>),
    Joined(u8),
    Dropped(u8),
    Expired(u8, u8),
    Sent(u8),
    Took(u8),
    Opened(u8, u8),
    Changed(u8, u8, u64, Patch),
    Wrote(u8, u8, u64, Patch, bool),
    Settled(u8, u64, bool),
    Believes(u8, u8, u8),
    CachedRead(u8, u8, Rc<Vec<u8>>),
    Strayed(u8),
}

impl Judge {
    fn started(&self, file: u8) -> bool {
        self.files.get(usize::from(file)).is_some_and(|seen| seen.start.is_some())
    }
    // The client becomes a holder again of what it believes. Whether it conflicts with another one.
    fn enter(&mut self, client: u8) -> bool {
        let caches = &self.clients[usize::from(client)].caches;
        let conflict = |(cache, holders): (&Cache, &Holders)| holders.conflict(cache.belief);
        if caches.iter().zip(&self.holders).any(conflict) {
            return true;
        }
        if self.holders.len() < caches.len() {
            self.holders.resize(caches.len(), Holders::default());
        }
        for (cache, holders) in caches.iter().zip(&mut self.holders) {
            holders.enter(cache.belief);
        }
        false
    }
    // The client, if it is good, is no holder any more.
    fn let_go(&mut self, client: u8) {
        let seen = seat(&mut self.clients, client);
        if seen.good() {
            for (cache, holders) in seen.caches.iter().zip(&mut self.holders) {
                holders.leave(cache.belief);
            }
        }
    }
    fn malformed(&mut self) {
        self.verdict = Some(format!("malformed {}", self.place));
    }
    fn breaks(&mut self, rule: u8) {
        self.verdict = Some(format!("unsafe {} {rule}", self.place));
    }
    fn take(&mut self, fact: Fact) {
        self.place += 1;
        let place = self.place;
        match fact {
            Fact::Start(file, bytes) => {
                let seen = seat(&mut self.files, file);
                if seen.start.is_some() {
                    return self.malformed();
                }
                seen.start = Some(bytes);
            }
            Fact::Joined(client) => {
                let seen = seat(&mut self.clients, client);
                let was_good = seen.good();
                seen.joined = true;
                seen.served = true;
                seen.sent.clear();
                seen.taken = None;
                if !was_good && seen.good() && self.enter(client) {
                    self.breaks(1);
                }
            }
            Fact::Dropped(client) => {
                self.let_go(client);
                seat(&mut self.clients, client).served = false;
            }
            Fact::Expired(client, file) => {
                if !self.started(file) {
                    return self.malformed();
                }
                self.let_go(client);
                seat(&mut self.clients, client).served = false;
            }
            Fact::Sent(client) => seat(&mut self.clients, client).sent.push_back(place),
            Fact::Took(client) => {
                let seen = seat(&mut self.clients, client);
                match if seen.joined { seen.sent.pop_front() } else { None } {
                    Some(place) => seen.taken = Some(place),
                    None => self.malformed(),
                }
            }
            Fact::Opened(file, client) => {
                if !self.started(file) {
                    return self.malformed();
                }
                self.files[usize::from(file)].touches.touch(client, place);
            }
            Fact::Changed(file, client, number, patch) => {
                if !self.started(file) || !patch.fits() {
                    return self.malformed();
                }
                let seen = seat(&mut self.clients, client);
                let of = &mut self.files[usize::from(file)];
                if let Some(write) = seen.writes.get_mut(number) {
                    let same = write.file == file;
                    if same && write.buffered && write.place < of.touches.by_others(client) && !seen.strayed {
                        return self.breaks(3);
                    }
                    if same && write.patch.offset == patch.offset && write.patch.bytes == patch.bytes {
                        write.accepted = true;
                    }
                }
                of.changes.push((place, patch));
                of.touches.touch(client, place);
            }
            Fact::Wrote(client, file, number, patch, buffered) => {
                if !self.started(file) || !patch.fits() {
                    return self.malformed();
                }
                let seen = seat(&mut self.clients, client);
                if seen.writes.get(number).is_some() {
                    return self.malformed();
                }
                if !seen.settled.contains(number) {
                    let copy = Patch { offset: patch.offset, bytes: patch.bytes.clone() };
                    seat(&mut seen.caches, file).fresh.push((number, copy));
                }
                seen.writes.insert(number, WriteSeen { file, place, buffered, patch, accepted: false });
            }
            Fact::Settled(client, number, done) => {
                let seen = seat(&mut self.clients, client);
                if done && !seen.strayed && !seen.writes.get(number).is_some_and(|write| write.accepted) {
                    return self.breaks(4);
                }
                seen.settled.insert(number);
            }
            Fact::Believes(client, file, state) => {
                if !self.started(file) {
                    return self.malformed();
                }
                let seen = seat(&mut self.clients, client);
                let good = seen.good();
                let belief = &mut seat(&mut seen.caches, file).belief;
                if good {
                    let holders = seat(&mut self.holders, file);
                    holders.leave(*belief);
                    if holders.conflict(state) {
                        return self.breaks(1);
                    }
                    holders.enter(state);
                }
                *belief = state;
            }
            Fact::CachedRead(client, file, bytes) => {
                if !self.started(file) {
                    return self.malformed();
                }
                let seen = seat(&mut self.clients, client);
                if !seen.good() {
                    return;
                }
                let Some(taken) = seen.taken else {
                    return self.breaks(2);
                };
                let of = &self.files[usize::from(file)];
                if !seat(&mut seen.caches, file).shows(of, taken, &seen.settled, &bytes) {
                    self.breaks(2);
                }
            }
            Fact::Strayed(client) => {
                self.let_go(client);
                seat(&mut self.clients, client).strayed = true;
            }
        }
    }
}
