// Made by tools/plain_rust from crates/lease_lines/src/server_stage.rt. Changes belong there.

use std::prelude::{String, Vec};

use crate::proved::lease_lines::refusals::Answer;
use crate::proved::lease_lines::server_answers::{push_content, push_done, push_fid, push_outs, push_yes};
use crate::proved::lease_lines::server_lines::{Query, ServerCall, ServerLine, read_server_line, server_table};
use crate::proved::lease_texts::{LineFault, is_passed_over};
use smblease::proved::lease_state::{Content, Memory, Rules};
use smblease::proved::share_server::{Out, Server};
use std::alloc::{AllocError, Global};

// No more files than there are numbers.
const FILES: usize = 255;

/// A server whose rules and files are given first; it begins with the first other line.
#[derive(Debug)]
pub enum Stage {
    /// Nothing is given yet.
    Fresh,
    /// These rules, and files.
    Filling(Rules, Vec<Content>),
    Serving(Server),
}

// Adds what a call gives out, and whether it applied.
fn push_after(text: &mut String, applies: bool, after: (Server, Vec<Out>)) -> Result<Server, Memory> {
    let (server, outs) = after;
    push_outs(text, outs)?;
    push_done(text, applies)?;
    Ok(server)
}

// Whether a call changes anything.
fn applies(server: &Server, call: &ServerCall) -> bool {
    match call {
        ServerCall::Join(client) => !server.is_connected(*client),
        ServerCall::Cut(client) | ServerCall::Receive(client, _) => server.is_connected(*client),
        ServerCall::Expire(client, key) => server.breaking(*client, *key),
        ServerCall::Scavenge(fid) => server.has_left_behind(*fid),
    }
}

fn call(server: Server, asked: ServerCall) -> Result<(Server, Vec<Out>), Memory> {
    match asked {
        ServerCall::Join(client) => server.join(client),
        ServerCall::Cut(client) => server.cut(client),
        ServerCall::Expire(client, key) => server.expire(client, key),
        ServerCall::Scavenge(fid) => server.scavenge(fid),
        ServerCall::Receive(client, request) => server.receive(client, request),
    }
}

fn push_found(text: &mut String, server: &Server, query: Query) -> Result<(), AllocError> {
    match query {
        Query::Breaking(client, key) => push_yes(text, server.breaking(client, key)),
        Query::Kept(client, file) => push_fid(text, server.kept(client, file)),
        Query::Content(file) => push_content(text, server.content(file)),
    }
}

impl Stage {
    // The server, which begins where it hasn't.
    fn into_server(self, alloc: Global) -> Result<Server, Memory> {
        match self {
            Stage::Fresh => Server::new(alloc, Vec::new(alloc)),
            Stage::Filling(rules, files) => Server::with_rules(alloc, rules, files),
            Stage::Serving(server) => Ok(server),
        }
    }

    // These rules; not where something was given before.
    fn set_rules(self, alloc: Global, rules: Rules) -> (Stage, bool) {
        match self {
            Stage::Fresh => (Stage::Filling(rules, Vec::new(alloc)), true),
            other => (other, false),
        }
    }

    // One more file; none where the server has begun, or there is no number for it.
    fn add_file(self, alloc: Global, content: Content) -> Result<(Stage, bool), Memory> {
        match self {
            Stage::Fresh => {
                let mut files = Vec::new(alloc);
                files.push(content)?;
                Ok((Stage::Filling(Rules::profile(), files), true))
            }
            Stage::Filling(rules, mut files) => {
                if files.len() >= FILES {
                    return Ok((Stage::Filling(rules, files), false));
                }
                files.push(content)?;
                Ok((Stage::Filling(rules, files), true))
            }
            Stage::Serving(server) => Ok((Stage::Serving(server), false)),
        }
    }

    fn take_line(self, line: ServerLine, text: &mut String) -> Result<(Stage, bool), Memory> {
        match line {
            ServerLine::Rules(rules) => Ok(self.set_rules(*text.allocator(), rules)),
            ServerLine::File(content) => self.add_file(*text.allocator(), content),
            ServerLine::Call(asked) => {
                let server = self.into_server(*text.allocator())?;
                let applies = applies(&server, &asked);
                let server = push_after(text, applies, call(server, asked)?)?;
                Ok((Stage::Serving(server), true))
            }
            ServerLine::Query(query) => {
                let server = self.into_server(*text.allocator())?;
                push_found(text, &server, query)?;
                Ok((Stage::Serving(server), true))
            }
        }
    }

    // A line of this number that is one: where it may not stand there, it is refused.
    fn told(self, alloc: Global, number: u64, line: ServerLine) -> Result<(Stage, Answer), Memory> {
        let place = line.place();
        let mut answer = Answer::nothing(alloc);
        let (stage, taken) = self.take_line(line, &mut answer.text)?;
        if taken {
            return Ok((stage, answer));
        }
        Ok((stage, Answer::misplaced(alloc, number, place)?))
    }

    /// A line of this number comes: the server after it, and what it is answered.
    ///
    /// # Errors
    ///
    /// `Memory` where there is none left; the server is lost then.
    pub fn answer(self, alloc: Global, number: u64, line: &[u8]) -> Result<(Stage, Answer), Memory> {
        if is_passed_over(line) {
            return Ok((self, Answer::nothing(alloc)));
        }
        match read_server_line(alloc, line) {
            Ok(told) => self.told(alloc, number, told),
            Err(LineFault::Refused) => Ok((self, Answer::unread(alloc, server_table(), number, line)?)),
            Err(LineFault::Memory) => Err(Memory),
        }
    }
}
