// Values of the servers and of the manager in plain Rust. `ClientNo` and `FileNo` are the types of their numbers, which the file
// that includes this names.

type Key = (ClientNo, [u8; 16]);

#[derive(Clone, Copy, PartialEq)]
enum Access { Read, Write, ReadWrite }

#[derive(Clone, Copy, PartialEq)]
#[allow(dead_code)]
enum Share { Nothing, Read, Write, ReadWrite }

impl Share {
    fn reads(self) -> bool { matches!(self, Share::Read | Share::ReadWrite) }
    fn writes(self) -> bool { matches!(self, Share::Write | Share::ReadWrite) }
}

impl Access {
    fn reads(self) -> bool { self != Access::Write }
    fn writes(self) -> bool { self != Access::Read }
    #[allow(dead_code)]
    fn within(self, share: Share) -> bool {
        (!self.reads() || share.reads()) && (!self.writes() || share.writes())
    }
}

#[derive(Clone, Copy)]
#[allow(dead_code)]
enum Status { Unsuccessful, InvalidParameter, AccessDenied, NotFound, Sharing, Resources, NotAccepted, FileClosed }

#[derive(Clone, Copy)]
struct Lease { state: u8, broken_to: Option<u8> }

const NONE: Lease = Lease { state: 0, broken_to: None };

impl Lease {
    // Whether a write under another key isn't ready before the lease is broken.
    fn hinders_writes(self) -> bool { self.state != 0 && self.broken_to != Some(0) }
}

fn granted(state: u8) -> u8 { if state & 1 == 1 { state & 7 } else { 0 } }

#[allow(dead_code)]
struct Open {
    fid: u64,
    client: ClientNo,
    file: FileNo,
    key: Option<[u8; 16]>,
    access: Access,
    share: Share,
    durable: bool,
    connected: bool,
}

impl Open {
    fn key(&self) -> Option<Key> { self.key.map(|bytes| (self.client, bytes)) }
    fn has(&self, key: Key) -> bool { self.key() == Some(key) }
    fn has_own(&self, own: Option<Key>) -> bool { own.is_some_and(|key| self.has(key)) }
}

#[derive(Clone, Copy)]
struct CreateAsk { lease: Option<([u8; 16], u8)>, durable: bool, reconnect: Option<u64> }

#[derive(Clone, Copy)]
enum Wish { NoHandles(Access, Share), NoWrites, Nothing }

struct Want { key: Key, lowered: u8 }

enum Finding { Fails(Status), Needs(Vec<Want>) }
