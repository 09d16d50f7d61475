use crate::plain;
use crate::plain::open::Key;
use crate::serving::{Serving, copy_request};
use crate::trouble::Trouble;
use smblease::proved::lease_state::{ClientNo, Content, FileId, FileNo, LeaseKey, LeaseState, Memory, Rules};
use smblease::proved::share_server::Out;
use std::alloc::Global;
use std::prelude::{Vec, format};

/// A server by records and summaries, and one by plain lists, after the same calls.
pub struct Both {
    server: smblease::proved::share_server::Server,
    plain: plain::Server,
    calls: u64,
    opened: u64,
}

fn copies(alloc: Global, contents: &[Content]) -> Result<Vec<Content>, Memory> {
    let mut copies = Vec::new(alloc);
    for content in contents {
        copies.push(content.try_copy()?)?;
    }
    Ok(copies)
}

fn call_server(
    server: smblease::proved::share_server::Server,
    serving: &Serving,
) -> Result<(smblease::proved::share_server::Server, Vec<Out>), Memory> {
    match serving {
        Serving::Join(client) => server.join(*client),
        Serving::Receive(client, request) => server.receive(*client, copy_request(request)?),
        Serving::Cut(client) => server.cut(*client),
        Serving::Expire(client, key) => server.expire(*client, *key),
        Serving::Scavenge(fid) => server.scavenge(*fid),
    }
}

fn call_plain(plain: &mut plain::Server, serving: &Serving) -> Result<Vec<Out>, Memory> {
    match serving {
        Serving::Join(client) => plain.join(*client),
        Serving::Receive(client, request) => plain.receive(*client, copy_request(request)?),
        Serving::Cut(client) => plain.cut(*client),
        Serving::Expire(client, key) => plain.expire(*client, *key),
        Serving::Scavenge(fid) => plain.scavenge(*fid),
    }
}

fn opens_in(outs: &[Out]) -> u64 {
    outs.iter().filter(|out| matches!(out, Out::Opened(..))).count() as u64
}

impl Both {
    /// With these rules and files. The plain server lets no write end past `file_limit` bytes.
    pub fn new(alloc: Global, rules: Rules, contents: &[Content], file_limit: usize) -> Result<Both, Memory> {
        Ok(Both {
            server: smblease::proved::share_server::Server::with_rules(alloc, rules, copies(alloc, contents)?)?,
            plain: plain::Server::new(alloc, rules, copies(alloc, contents)?, file_limit),
            calls: 0,
            opened: 0,
        })
    }

    /// How many calls both have had.
    pub fn calls(&self) -> u64 {
        self.calls
    }

    /// How many opens were granted, which is the FileId given last.
    pub fn opened(&self) -> u64 {
        self.opened
    }

    /// Both after a call, and what it gave out, where that is the same.
    pub fn called(self, alloc: Global, serving: &Serving) -> Result<(Both, Vec<Out>), Trouble> {
        let Both { server, mut plain, calls, opened } = self;
        let calls = calls.saturating_add(1);
        let (server, outs) = call_server(server, serving)?;
        let plain_outs = call_plain(&mut plain, serving)?;
        if outs != plain_outs {
            return Err(Trouble::Differs(format!(in alloc;
                "call {calls}, {serving:?}:\n  share_server {outs:?}\n  plain server {plain_outs:?}"
            )?));
        }
        let opened = opened.saturating_add(opens_in(&outs));
        let both = Both { server, plain, calls, opened };
        Ok((both, outs))
    }

    // Whether both answer the same to each query about a client, a key of it and a file.
    fn answer_alike(&self, client: ClientNo, bytes: LeaseKey, file: FileNo) -> bool {
        let all = LeaseState::from_wire(7);
        let own = Some(Key { client, bytes });
        let (server, plain) = (&self.server, &self.plain);
        server.allowed(client, Some(bytes), file, all) == plain.allowed(own, file, all)
            && server.allowed(client, None, file, all) == plain.allowed(None, file, all)
            && server.breaking(client, bytes) == plain.broken_to(Key { client, bytes }).is_some()
            && server.kept(client, file) == plain.kept(client, file)
            && server.content(file) == plain.content(file)
    }

    /// Compares what both answer to queries about a client, a key of it and a file.
    pub fn compare(&self, alloc: Global, client: ClientNo, key: LeaseKey, file: FileNo) -> Result<(), Trouble> {
        if self.answer_alike(client, key, file) {
            return Ok(());
        }
        let calls = self.calls;
        Err(Trouble::Differs(format!(in alloc;
            "after call {calls} the servers differ in what they know of {client:?}, {key:?} and {file:?}"
        )?))
    }

    /// The lowest open of the client on the file that waits for its client.
    pub fn kept(&self, client: ClientNo, file: FileNo) -> Option<FileId> {
        self.server.kept(client, file)
    }
}
