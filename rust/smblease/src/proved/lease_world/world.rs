// Made by tools/plain_rust from crates/lease_world/src/world.rt. Changes belong there.

use std::prelude::Vec;

use crate::proved::lease_client::{Command, Given, lease_key};
use crate::proved::lease_facts::{Event, Fact, Passage, Setup};
use crate::proved::lease_state::{ClientNo, FileId, FileNo, LeaseKey, Memory, Reply, Request, Rules};
use crate::proved::lease_world::copies::{copy_command, copy_request};
use crate::proved::lease_world::obstacle::Obstacle;
use crate::proved::lease_world::world::contents::Contents;
use crate::proved::lease_world::world::delivering::{deliver, tell_notes};
use crate::proved::lease_world::world::link::Link;
use crate::proved::lease_world::world::messages::Messages;
use crate::proved::lease_world::world::seat::Seat;
use crate::proved::share_server::{Out, Server};
use std::alloc::Global;

mod contents;
mod delivering;
mod first;
pub mod link;
pub mod messages;
mod replies;
mod seat;

/// A server, clients, and what lies between them, with the record of what happened, and the messages that it speaks of where
/// they are kept.
// docs/DECISIONS.md: "What a world keeps".
#[derive(Debug)]
pub struct World {
    // `None` once a call of it found no memory; no call finds any from then on.
    server: Option<Server>,
    seats: Vec<Seat>,
    facts: Vec<Fact>,
    messages: Messages,
    // What replies on their way share.
    contents: Contents,
    // What clients give out, call by call.
    given: Given,
}

impl World {
    /// A world with a server of these rules in which nothing happened yet, and these messages.
    ///
    /// # Errors
    ///
    /// `Memory` where there is none left.
    pub fn new(alloc: Global, rules: Rules, setup: &Setup, messages: Messages) -> Result<World, Memory> {
        let contents = setup.files.as_slice();
        let facts = first::starts(alloc, contents)?;
        let server = Server::with_rules(alloc, rules, first::copy_contents(alloc, contents)?)?;
        let seats = first::seats(alloc, &setup.clients, contents.len() as u8)?;
        Ok(World { server: Some(server), seats, facts, messages, contents: Contents::new(alloc), given: Given::new(alloc) })
    }

    /// An event happens; one of a client that there isn't does nothing.
    ///
    /// # Errors
    ///
    /// `Memory` where there is none left.
    // docs/DECISIONS.md: "What an event is about".
    pub fn happen(&mut self, event: &Event) -> Result<(), Memory> {
        let client = event.client();
        if !self.has(client) {
            return Ok(());
        }
        match event {
            Event::App(_, command) => {
                self.command(client, command)?;
                Ok(())
            }
            Event::ServerTakes(_) => self.server_takes(client),
            Event::ClientTakes(_) => self.client_takes(client),
            Event::Cut(_) => self.cut(client),
            Event::Notice(_) => self.notice(client),
            Event::Connect(_) => self.connect(client),
            Event::Expire(_, file) => self.expire(client, *file),
            Event::Scavenge(_, file) => self.scavenge(client, *file),
            Event::Raw(_, request) => self.stray(client, copy_request(request)?),
        }
    }

    /// The record of what happened, in order, and the messages that were kept.
    pub fn into_parts(self) -> (Vec<Fact>, Messages) {
        let World { facts, messages, .. } = self;
        (facts, messages)
    }

    /// An event happens, as by `happen`, and what stood in its way is given.
    ///
    /// # Errors
    ///
    /// `Memory` where there is none left.
    pub fn happen_explained(&mut self, event: &Event) -> Result<Option<Obstacle>, Memory> {
        let client = event.client();
        if !self.has(client) {
            return Ok(Some(Obstacle::NoClient(client)));
        }
        if let Event::App(_, command) = event {
            return self.command(client, command);
        }
        let obstacle = self.obstacle(client, event);
        self.happen(event)?;
        Ok(obstacle)
    }

    /// How many facts the record has.
    pub fn count(&self) -> usize {
        self.facts.len()
    }

    /// How many requests of a client are on their way; none of one that there isn't.
    pub fn waiting(&self, client: ClientNo) -> usize {
        if !self.has(client) {
            return 0;
        }
        let seat = &self.seats[place_of(client)];
        seat.count_requests()
    }

    /// Adds what became of requests by an event that happened, before which the record had so many facts, and so many requests
    /// of the event's client were on their way.
    ///
    /// # Errors
    ///
    /// `Memory` where there is none left for them.
    pub fn note_passages(&self, passages: &mut Vec<Passage>, event: &Event, facts: usize, waiting: usize) -> Result<(), Memory> {
        let client = event.client();
        if !self.has(client) {
            return Ok(());
        }
        let left = self.waiting(client);
        push_gone(passages, event, facts, left < waiting)?;
        self.push_sent(passages, client, waiting)
    }

    // Adds the requests of a client that are on their way, but for so many of the oldest.
    fn push_sent(&self, passages: &mut Vec<Passage>, client: ClientNo, waiting: usize) -> Result<(), Memory> {
        let seat = &self.seats[place_of(client)];
        seat.push_sent(passages, client, waiting, self.facts.len())
    }

    // Whether there is a client of this number.
    fn has(&self, client: ClientNo) -> bool {
        1 <= client.0 && usize::from(client.0) <= self.seats.len()
    }

    // A client's application gives a command, and what stands in its way is given.
    fn command(&mut self, client: ClientNo, command: &Command) -> Result<Option<Obstacle>, Memory> {
        let asked = copy_command(command)?;
        let seat = &mut self.seats[place_of(client)];
        seat.app(asked, &mut self.given)?;
        let obstacle = against(client, command, &self.given);
        tell_notes(&mut self.facts, client, &mut self.given)?;
        Ok(obstacle)
    }

    // What stands in the way of an event that is no command.
    fn obstacle(&self, client: ClientNo, event: &Event) -> Option<Obstacle> {
        match event {
            Event::App(_, _) => None,
            Event::ServerTakes(_) => self.no_request(client),
            Event::ClientTakes(_) => self.no_reply(client),
            Event::Cut(_) | Event::Raw(_, _) => Obstacle::unless_up(client, self.link(client)),
            Event::Notice(_) => Obstacle::unless_cut(client, self.link(client)),
            Event::Connect(_) => Obstacle::unless_down(client, self.link(client)),
            Event::Expire(_, file) => self.no_break(client, *file),
            Event::Scavenge(_, file) => self.none_kept(client, *file),
        }
    }

    fn no_request(&self, client: ClientNo) -> Option<Obstacle> {
        if self.has_no_request(client) { Some(Obstacle::NoRequest(client)) } else { None }
    }

    fn no_reply(&self, client: ClientNo) -> Option<Obstacle> {
        if self.has_no_reply(client) { Some(Obstacle::NoReply(client)) } else { None }
    }

    fn no_break(&self, client: ClientNo, file: FileNo) -> Option<Obstacle> {
        if !self.has_file(file) {
            return Some(Obstacle::NoFile(file));
        }
        let key = self.key(client, file);
        if self.is_breaking(client, key, file) { None } else { Some(Obstacle::NoBreak(client, file)) }
    }

    fn none_kept(&self, client: ClientNo, file: FileNo) -> Option<Obstacle> {
        match self.kept(client, file) {
            Some(_) => None,
            None => Some(Obstacle::NoOpen(client, file)),
        }
    }

    fn has_no_request(&self, client: ClientNo) -> bool {
        let seat = &self.seats[place_of(client)];
        seat.has_no_request()
    }

    fn has_no_reply(&self, client: ClientNo) -> bool {
        let seat = &self.seats[place_of(client)];
        seat.has_no_reply()
    }

    fn link(&self, client: ClientNo) -> Link {
        let seat = &self.seats[place_of(client)];
        seat.link()
    }

    // A fact is recorded.
    fn tell(&mut self, fact: Fact) -> Result<(), Memory> {
        self.facts.push(fact)?;
        Ok(())
    }

    // A message is kept, where messages are.
    fn keep(&mut self, message: &Reply) -> Result<(), Memory> {
        self.messages.push(message)
    }

    // Takes the server out, to be called.
    fn take_server(&mut self) -> Result<Server, Memory> {
        self.server.take().ok_or(Memory)
    }

    // Puts the server back after a call, and delivers what it gave out.
    fn put_back(&mut self, server: Server, outs: Vec<Out>) -> Result<(), Memory> {
        self.server = Some(server);
        deliver(&mut self.seats, &mut self.facts, &mut self.messages, &mut self.contents, outs)?;
        Ok(())
    }

    // Whether this is the link of a client.
    fn has_link(&self, client: ClientNo, link: Link) -> bool {
        let seat = &self.seats[place_of(client)];
        seat.has_link(link)
    }

    // The key under which a client's machine has a file.
    fn key(&self, client: ClientNo, file: FileNo) -> LeaseKey {
        let seat = &self.seats[place_of(client)];
        lease_key(seat.guid(), file)
    }

    // Whether there is such a file.
    fn has_file(&self, file: FileNo) -> bool {
        match &self.server {
            Some(server) => server.content(file).is_some(),
            None => false,
        }
    }

    // Whether there is such a file, and a break of the client's lease of this key waits.
    fn is_breaking(&self, client: ClientNo, key: LeaseKey, file: FileNo) -> bool {
        match &self.server {
            Some(server) => server.content(file).is_some() && server.breaking(client, key),
            None => false,
        }
    }

    // The FileId of a client's lowest kept open of a file.
    fn kept(&self, client: ClientNo, file: FileNo) -> Option<FileId> {
        match &self.server {
            Some(server) => server.kept(client, file),
            None => None,
        }
    }

    // The link of a client is this from now on.
    fn set_link(&mut self, client: ClientNo, link: Link) {
        let seat = &mut self.seats[place_of(client)];
        seat.set_link(link);
    }

    // The link of a client is cut: nothing is on its way any more.
    fn cut_link(&mut self, client: ClientNo) {
        let seat = &mut self.seats[place_of(client)];
        seat.cut();
    }

    // A request is sent in a client's name.
    fn send(&mut self, client: ClientNo, request: Request) -> Result<(), Memory> {
        let seat = &mut self.seats[place_of(client)];
        seat.send(request)
    }

    // The server takes the oldest request of a client.
    fn server_takes(&mut self, client: ClientNo) -> Result<(), Memory> {
        let seat = &mut self.seats[place_of(client)];
        match seat.pop_request() {
            Some(request) => {
                let server = self.take_server()?;
                let (server, outs) = server.receive(client, request)?;
                self.put_back(server, outs)
            }
            None => Ok(()),
        }
    }

    // A client takes the oldest message that was sent to it.
    fn client_takes(&mut self, client: ClientNo) -> Result<(), Memory> {
        let seat = &mut self.seats[place_of(client)];
        let popped = seat.pop_reply()?;
        match popped {
            Some(reply) => {
                self.keep(&reply)?;
                self.tell(Fact::Took(client))?;
                let seat = &mut self.seats[place_of(client)];
                seat.take(reply, &mut self.given)?;
                tell_notes(&mut self.facts, client, &mut self.given)
            }
            None => Ok(()),
        }
    }

    // The connection of a client whose link is up is lost.
    fn cut(&mut self, client: ClientNo) -> Result<(), Memory> {
        if !self.has_link(client, Link::Up) {
            return Ok(());
        }
        self.cut_link(client);
        self.tell(Fact::Dropped(client))?;
        let server = self.take_server()?;
        let (server, outs) = server.cut(client)?;
        self.put_back(server, outs)
    }

    // A client whose link is cut notices that.
    fn notice(&mut self, client: ClientNo) -> Result<(), Memory> {
        if !self.has_link(client, Link::Cut) {
            return Ok(());
        }
        self.set_link(client, Link::Down);
        let seat = &mut self.seats[place_of(client)];
        seat.notice(&mut self.given)?;
        tell_notes(&mut self.facts, client, &mut self.given)
    }

    // A client whose link is down connects.
    fn connect(&mut self, client: ClientNo) -> Result<(), Memory> {
        if !self.has_link(client, Link::Down) {
            return Ok(());
        }
        self.set_link(client, Link::Up);
        self.tell(Fact::Joined(client))?;
        let server = self.take_server()?;
        let (server, outs) = server.join(client)?;
        self.put_back(server, outs)?;
        let seat = &mut self.seats[place_of(client)];
        seat.connect(&mut self.given)?;
        tell_notes(&mut self.facts, client, &mut self.given)
    }

    // The timer of the lease of a client's key of a file runs out, where its break waits.
    fn expire(&mut self, client: ClientNo, file: FileNo) -> Result<(), Memory> {
        let key = self.key(client, file);
        if !self.is_breaking(client, key, file) {
            return Ok(());
        }
        self.tell(Fact::Expired(client, file))?;
        let server = self.take_server()?;
        let (server, outs) = server.expire(client, key)?;
        self.put_back(server, outs)
    }

    // The timer of a client's lowest kept open of a file runs out, where there is one.
    fn scavenge(&mut self, client: ClientNo, file: FileNo) -> Result<(), Memory> {
        match self.kept(client, file) {
            Some(fid) => {
                let server = self.take_server()?;
                let (server, outs) = server.scavenge(fid)?;
                self.put_back(server, outs)
            }
            None => Ok(()),
        }
    }

    // A request is sent in the name of a client whose link is up.
    fn stray(&mut self, client: ClientNo, request: Request) -> Result<(), Memory> {
        if !self.has_link(client, Link::Up) {
            return Ok(());
        }
        self.tell(Fact::Strayed(client))?;
        self.send(client, request)
    }
}

// What stands in the way of a client's command that gives out this.
fn against(client: ClientNo, command: &Command, given: &Given) -> Option<Obstacle> {
    Obstacle::of_command(client, command, &given.answer)
}

// Adds what became of requests by an event, where some are gone.
fn push_gone(passages: &mut Vec<Passage>, event: &Event, facts: usize, are_gone: bool) -> Result<(), Memory> {
    if are_gone {
        passages.push(gone(event, facts))?;
    }
    Ok(())
}

// What became of requests that aren't on their way any more after an event.
fn gone(event: &Event, facts: usize) -> Passage {
    match event {
        Event::ServerTakes(client) => Passage::Taken { client: *client, facts },
        _ => Passage::Lost { client: event.client(), facts },
    }
}

// Where the seat of a client is.
fn place_of(client: ClientNo) -> usize {
    usize::from(client.0) - 1
}
