// Tables of a server as opens by FileId, lease records and file summaries, the same as those of crates/share_server.

use std::collections::{BTreeMap, BTreeSet};

#[derive(Clone, Copy)]
struct Tally { opens: u64, reads: u64, writes: u64, refuses_reads: u64, refuses_writes: u64 }

impl Tally {
    fn none() -> Tally { Tally { opens: 0, reads: 0, writes: 0, refuses_reads: 0, refuses_writes: 0 } }

    fn gain(&mut self, one: &Open) {
        self.opens += 1;
        self.reads += u64::from(one.access.reads());
        self.writes += u64::from(one.access.writes());
        self.refuses_reads += u64::from(!one.share.reads());
        self.refuses_writes += u64::from(!one.share.writes());
    }

    fn lose(&mut self, one: &Open) {
        self.opens -= 1;
        self.reads -= u64::from(one.access.reads());
        self.writes -= u64::from(one.access.writes());
        self.refuses_reads -= u64::from(!one.share.reads());
        self.refuses_writes -= u64::from(!one.share.writes());
    }

    fn conflicts(&self, access: Access, share: Share) -> bool {
        (access.reads() && self.refuses_reads > 0)
            || (access.writes() && self.refuses_writes > 0)
            || (!share.reads() && self.reads > 0)
            || (!share.writes() && self.writes > 0)
    }
}

struct LeaseRecord { file: FileNo, lease: Lease, tally: Tally }

// What is marked of a lease: it holds W, and it hinders no write under another key.
#[derive(PartialEq)]
struct Marks { writes: bool, harmless: bool }

impl Marks {
    fn of(lease: Lease) -> Marks { Marks { writes: lease.state & 4 != 0, harmless: !lease.hinders_writes() } }
}

struct Summary { tally: Tally, keys: BTreeSet<Key>, keyless: u64, writers: BTreeSet<Key>, harmless: BTreeSet<Key> }

impl Summary {
    fn none() -> Summary {
        let (keys, writers, harmless) = (BTreeSet::new(), BTreeSet::new(), BTreeSet::new());
        Summary { tally: Tally::none(), keys, keyless: 0, writers, harmless }
    }

    fn mark(&mut self, key: Key, marks: Marks) {
        set_member(&mut self.writers, key, marks.writes);
        set_member(&mut self.harmless, key, marks.harmless);
    }

    fn is_hindering(&self, key: Key) -> bool { self.keys.contains(&key) && !self.harmless.contains(&key) }

    fn is_hindered(&self, own: Option<Key>) -> bool {
        let hindering = self.keys.len() - self.harmless.len();
        hindering > usize::from(own.is_some_and(|key| self.is_hindering(key)))
    }
}

struct Tables {
    opens: BTreeMap<u64, Open>,
    left: BTreeMap<(ClientNo, FileNo), BTreeSet<u64>>,
    leases: BTreeMap<Key, LeaseRecord>,
    files: BTreeMap<FileNo, Summary>,
}

impl Tables {
    fn new() -> Tables {
        Tables { opens: BTreeMap::new(), left: BTreeMap::new(), leases: BTreeMap::new(), files: BTreeMap::new() }
    }

    fn lease(&self, key: Key) -> Lease { self.leases.get(&key).map_or(NONE, |record| record.lease) }

    fn put_lease(&mut self, key: Key, lease: Lease) {
        if let Some(record) = self.leases.get_mut(&key) {
            let (marked, marks) = (Marks::of(record.lease), Marks::of(lease));
            record.lease = lease;
            if marks == marked {
                return;
            }
            if let Some(summary) = self.files.get_mut(&record.file) {
                summary.mark(key, marks);
            }
        }
    }

    fn has_lease(&self, key: Key) -> bool { self.leases.contains_key(&key) }

    fn open(&self, fid: u64) -> Option<&Open> { self.opens.get(&fid) }

    fn push(&mut self, one: Open, lease: Lease) {
        let summary = self.files.entry(one.file).or_insert_with(Summary::none);
        summary.tally.gain(&one);
        match one.key() {
            Some(key) => {
                let first = || LeaseRecord { file: one.file, lease, tally: Tally::none() };
                let record = self.leases.entry(key).or_insert_with(first);
                record.lease = lease;
                record.tally.gain(&one);
                summary.keys.insert(key);
                summary.mark(key, Marks::of(lease));
            }
            None => summary.keyless += 1,
        }
        self.opens.insert(one.fid, one);
    }

    fn close(&mut self, fid: u64) {
        let Some(one) = self.opens.remove(&fid) else { return };
        if let Some(ids) = self.left.get_mut(&(one.client, one.file)) {
            ids.remove(&fid);
            if ids.is_empty() {
                self.left.remove(&(one.client, one.file));
            }
        }
        let Some(summary) = self.files.get_mut(&one.file) else { return };
        summary.tally.lose(&one);
        match one.key() {
            Some(key) => {
                let Some(record) = self.leases.get_mut(&key) else { return };
                record.tally.lose(&one);
                if record.tally.opens == 0 {
                    self.leases.remove(&key);
                    summary.keys.remove(&key);
                    summary.writers.remove(&key);
                    summary.harmless.remove(&key);
                }
            }
            None => summary.keyless -= 1,
        }
        if summary.tally.opens == 0 {
            self.files.remove(&one.file);
        }
    }

    // The FileIds of those that were closed.
    fn close_left(&mut self, key: Key) -> Vec<u64> {
        let Some(record) = self.leases.get(&key) else { return Vec::new() };
        let Some(ids) = self.left.get(&(key.0, record.file)) else { return Vec::new() };
        let ids: Vec<u64> = ids.iter().copied().filter(|fid| self.opens.get(fid).is_some_and(|one| one.has(key))).collect();
        for fid in &ids {
            self.close(*fid);
        }
        ids
    }

    fn connect_again(&mut self, fid: u64) {
        let Some(one) = self.opens.get_mut(&fid) else { return };
        one.connected = true;
        let owner = (one.client, one.file);
        if let Some(ids) = self.left.get_mut(&owner) {
            ids.remove(&fid);
            if ids.is_empty() {
                self.left.remove(&owner);
            }
        }
    }

    fn is_elsewhere(&self, key: Key, file: FileNo) -> bool {
        self.leases.get(&key).is_some_and(|record| record.file != file)
    }

    fn has_other_on(&self, own: Option<Key>, file: FileNo) -> bool {
        self.files.get(&file).is_some_and(|summary| {
            summary.keyless > 0 || summary.keys.len() > usize::from(own.is_some_and(|key| summary.keys.contains(&key)))
        })
    }

    fn has_conflict_on(&self, file: FileNo, access: Access, share: Share) -> bool {
        self.files.get(&file).is_some_and(|summary| summary.tally.conflicts(access, share))
    }

    fn is_hindered(&self, own: Option<Key>, file: FileNo) -> bool {
        self.files.get(&file).is_some_and(|summary| summary.is_hindered(own))
    }

    fn is_wanted(&self, wish: Wish, own: Option<Key>, key: Key) -> bool {
        let Some(record) = self.leases.get(&key) else { return false };
        let state = record.lease.state;
        own != Some(key) && match wish {
            Wish::NoHandles(access, share) => state & 2 != 0 && record.tally.conflicts(access, share),
            Wish::NoWrites => state & 4 != 0,
            Wish::Nothing => state != 0,
        }
    }

    fn wanted(&self, wish: Wish, own: Option<Key>, file: FileNo) -> Vec<Key> {
        let Some(summary) = self.files.get(&file) else { return Vec::new() };
        let keys = if matches!(wish, Wish::NoWrites) { &summary.writers } else { &summary.keys };
        keys.iter().copied().filter(|key| self.is_wanted(wish, own, *key)).collect()
    }
}

fn set_member(keys: &mut BTreeSet<Key>, key: Key, is_one: bool) {
    if is_one {
        keys.insert(key);
    } else {
        keys.remove(&key);
    }
}
