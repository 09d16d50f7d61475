// Tables of a server as plain lists, looked through for each answer.

struct Tables { opens: Vec<Open>, leases: Vec<(Key, Lease)> }

impl Tables {
    fn new() -> Tables { Tables { opens: Vec::new(), leases: Vec::new() } }

    fn lease(&self, key: Key) -> Lease {
        self.leases.iter().find(|one| one.0 == key).map_or(NONE, |one| one.1)
    }

    fn put_lease(&mut self, key: Key, lease: Lease) {
        self.leases.retain(|one| one.0 != key);
        self.leases.push((key, lease));
    }

    fn has_lease(&self, key: Key) -> bool { self.opens.iter().any(|one| one.has(key)) }

    fn open(&self, fid: u64) -> Option<&Open> { self.opens.iter().find(|one| one.fid == fid) }

    fn push(&mut self, one: Open, lease: Lease) {
        if let Some(key) = one.key() {
            self.put_lease(key, lease);
        }
        self.opens.push(one);
    }

    fn close(&mut self, fid: u64) { self.close_where(|one| one.fid == fid); }

    fn close_left(&mut self, key: Key) { self.close_where(|one| one.has(key) && !one.connected); }

    fn close_where(&mut self, closes: impl Fn(&Open) -> bool) {
        self.opens.retain(|one| !closes(one));
        let opens = &self.opens;
        self.leases.retain(|lease| opens.iter().any(|one| one.has(lease.0)));
    }

    fn connect_again(&mut self, fid: u64) {
        for one in &mut self.opens {
            if one.fid == fid {
                one.connected = true;
            }
        }
    }

    fn is_elsewhere(&self, key: Key, file: u8) -> bool {
        self.opens.iter().any(|one| one.has(key) && one.file != file)
    }

    fn has_other_on(&self, own: Option<Key>, file: u8) -> bool {
        self.opens.iter().any(|one| one.file == file && !one.has_own(own))
    }

    fn has_conflict_on(&self, file: u8, access: Access, share: Share) -> bool {
        self.opens.iter().any(|one| Tables::conflicts(one, file, access, share))
    }

    fn is_hindered(&self, own: Option<Key>, file: u8) -> bool {
        self.opens.iter().any(|one| {
            one.file == file && !one.has_own(own) && one.key().is_some_and(|key| self.lease(key).hinders_writes())
        })
    }

    fn conflicts(one: &Open, file: u8, access: Access, share: Share) -> bool {
        one.file == file && !(access.within(one.share) && one.access.within(share))
    }

    fn is_wanted(&self, wish: Wish, own: Option<Key>, file: u8, one: &Open) -> bool {
        let state = one.key().map_or(NONE, |key| self.lease(key)).state;
        let other = one.file == file && !one.has_own(own);
        match wish {
            Wish::NoHandles(access, share) => Tables::conflicts(one, file, access, share) && other && state & 2 != 0,
            Wish::NoWrites => other && state & 4 != 0,
            Wish::Nothing => other && state != 0,
        }
    }

    fn wanted(&self, wish: Wish, own: Option<Key>, file: u8) -> Vec<Key> {
        let mut keys: Vec<Key> = Vec::new();
        for one in self.opens.iter().rev() {
            if self.is_wanted(wish, own, file, one) {
                if let Some(key) = one.key() {
                    if let Err(place) = keys.binary_search(&key) {
                        keys.insert(place, key);
                    }
                }
            }
        }
        keys
    }
}
