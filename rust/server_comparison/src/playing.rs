//! Schedules, played with the client machines over both servers, by the rules of docs/PROFILE.md.
use std::prelude::Vec;

use crate::both::Both;
use crate::serving::Serving;
use crate::trouble::Trouble;
use leasecheck::proved::lease_texts::read_schedule;
use smblease::proved::lease_client::{Client, Command, Step, lease_key};
use smblease::proved::lease_state::{ClientNo, FileNo, LeaseKey, Memory, Reply, Request, Rules};
use smblease::proved::lease_world::{Event, Setup};
use smblease::proved::share_server::Out;
use std::alloc::Global;
use std::collections::VecDeque;
use std::mem;

#[derive(Clone, Copy, PartialEq, Eq)]
enum Link {
    Down,
    Up,
    /// The server has lost the connection, and the client hasn't noticed yet.
    Cut,
}

/// A client with what is on its way from it and to it.
struct Seat {
    guid: [u8; 16],
    client: Client,
    link: Link,
    requests: VecDeque<Request>,
    replies: VecDeque<Reply>,
}

/// What a client machine is called for.
enum Doing {
    App(Command),
    Take(Reply),
    Notice,
    Connect,
}

impl Seat {
    fn new(alloc: Global, guid: [u8; 16], files: u8) -> Result<Seat, Memory> {
        Ok(Seat {
            guid,
            client: Client::new(alloc, guid, files)?,
            link: Link::Down,
            requests: VecDeque::new(alloc),
            replies: VecDeque::new(alloc),
        })
    }

    // Calls the machine. What it sends is lost where the link isn't up.
    fn step(&mut self, alloc: Global, doing: Doing) -> Result<(), Memory> {
        let idle = Client::new(alloc, [0; 16], 0)?;
        let client = mem::replace(&mut self.client, idle);
        let Step { client, requests, .. } = match doing {
            Doing::App(command) => client.app(command)?,
            Doing::Take(reply) => client.take(reply)?,
            Doing::Notice => client.notice()?,
            Doing::Connect => client.connect()?,
        };
        self.client = client;
        for request in requests {
            self.send(request)?;
        }
        Ok(())
    }

    fn send(&mut self, request: Request) -> Result<(), Memory> {
        if self.link == Link::Up {
            self.requests.push_back(request)?;
        }
        Ok(())
    }

    // The link is this from now on. Where it is cut, what was on its way is gone.
    fn turn(&mut self, to: Link) {
        self.link = to;
        if to == Link::Cut {
            self.requests.clear();
            self.replies.clear();
        }
    }
}

/// Clients round both servers.
struct Play {
    both: Both,
    seats: Vec<Seat>,
    files: u8,
}

impl Play {
    fn new(alloc: Global, rules: Rules, setup: &Setup, file_limit: usize) -> Result<Play, Memory> {
        let files = setup.files.len().min(255) as u8;
        let mut seats = Vec::new(alloc);
        for guid in setup.clients.iter() {
            seats.push(Seat::new(alloc, *guid, files)?)?;
        }
        Ok(Play { both: Both::new(alloc, rules, setup.files.as_slice(), file_limit)?, seats, files })
    }

    // An event that doesn't apply does nothing.
    fn happen(mut self, alloc: Global, event: Event) -> Result<Play, Trouble> {
        match event {
            Event::App(client, command) => self.step(alloc, client, Doing::App(command))?,
            Event::ServerTakes(client) => {
                if let Some(request) = self.pop_request(client) {
                    return self.serve(alloc, Serving::Receive(client, request));
                }
            }
            Event::ClientTakes(client) => {
                if let Some(reply) = self.pop_reply(client) {
                    self.step(alloc, client, Doing::Take(reply))?;
                }
            }
            Event::Cut(client) => {
                if self.turn(client, Link::Up, Link::Cut) {
                    return self.serve(alloc, Serving::Cut(client));
                }
            }
            Event::Notice(client) => {
                if self.turn(client, Link::Cut, Link::Down) {
                    self.step(alloc, client, Doing::Notice)?;
                }
            }
            Event::Connect(client) => {
                if self.turn(client, Link::Down, Link::Up) {
                    let mut play = self.serve(alloc, Serving::Join(client))?;
                    play.step(alloc, client, Doing::Connect)?;
                    return Ok(play);
                }
            }
            Event::Expire(client, file) => {
                if let Some(key) = self.key(client, file) {
                    return self.serve(alloc, Serving::Expire(client, key));
                }
            }
            Event::Scavenge(client, file) => {
                if let Some(fid) = self.both.kept(client, file) {
                    return self.serve(alloc, Serving::Scavenge(fid));
                }
            }
            Event::Raw(client, request) => {
                if let Some(seat) = seat_of(&mut self.seats, client) {
                    seat.send(request)?;
                }
            }
        }
        Ok(self)
    }

    fn step(&mut self, alloc: Global, client: ClientNo, doing: Doing) -> Result<(), Memory> {
        match seat_of(&mut self.seats, client) {
            Some(seat) => seat.step(alloc, doing),
            None => Ok(()),
        }
    }

    fn pop_request(&mut self, client: ClientNo) -> Option<Request> {
        seat_of(&mut self.seats, client)?.requests.pop_front()
    }

    fn pop_reply(&mut self, client: ClientNo) -> Option<Reply> {
        seat_of(&mut self.seats, client)?.replies.pop_front()
    }

    // Whether the client's link was this one, which is then the other one.
    fn turn(&mut self, client: ClientNo, from: Link, to: Link) -> bool {
        match seat_of(&mut self.seats, client) {
            Some(seat) if seat.link == from => {
                seat.turn(to);
                true
            }
            _ => false,
        }
    }

    // The key under which a client's machine has a file that there is.
    fn key(&self, client: ClientNo, file: FileNo) -> Option<LeaseKey> {
        let seat = self.seats.get(usize::from(client.0).checked_sub(1)?)?;
        if file.0 == 0 || file.0 > self.files {
            return None;
        }
        Some(lease_key(seat.guid, file))
    }

    // Both servers are called, and their replies, which are the same, go on to the clients.
    fn serve(self, alloc: Global, serving: Serving) -> Result<Play, Trouble> {
        let Play { both, mut seats, files } = self;
        let (both, outs) = both.called(alloc, &serving)?;
        deliver(&mut seats, outs)?;
        let play = Play { both, seats, files };
        play.compare(alloc)?;
        Ok(play)
    }

    fn compare(&self, alloc: Global) -> Result<(), Trouble> {
        for number in 1..=u8::MAX {
            match self.seats.get(usize::from(number) - 1) {
                Some(seat) => self.compare_client(alloc, ClientNo(number), seat.guid)?,
                None => break,
            }
        }
        Ok(())
    }

    fn compare_client(&self, alloc: Global, client: ClientNo, guid: [u8; 16]) -> Result<(), Trouble> {
        for number in 1..=self.files {
            let file = FileNo(number);
            self.both.compare(alloc, client, lease_key(guid, file), file)?;
        }
        Ok(())
    }
}

fn seat_of(seats: &mut Vec<Seat>, client: ClientNo) -> Option<&mut Seat> {
    seats.get_mut(usize::from(client.0).checked_sub(1)?)
}

fn deliver(seats: &mut Vec<Seat>, outs: Vec<Out>) -> Result<(), Memory> {
    for out in outs {
        if let Out::Sent(client, reply) = out
            && let Some(seat) = seat_of(seats, client)
        {
            seat.replies.push_back(reply)?;
        }
    }
    Ok(())
}

/// Plays the schedule that a text is under these rules, and reports how many calls gave out the same. The plain server lets no
/// write end past `file_limit` bytes.
pub fn play_schedule(alloc: Global, rules: Rules, text: &[u8], file_limit: usize) -> Result<u64, Trouble> {
    let schedule = read_schedule(alloc, text)?;
    let mut play = Play::new(alloc, rules, &schedule.setup, file_limit)?;
    for event in schedule.events {
        play = play.happen(alloc, event)?;
    }
    Ok(play.both.calls())
}
