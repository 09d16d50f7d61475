// Made by tools/plain_rust from crates/lease_world/src/world/seat.rt. Changes belong there.

use std::prelude::Vec;

use crate::proved::lease_client::{Client, Command, Given};
use crate::proved::lease_facts::Passage;
use crate::proved::lease_state::{ClientNo, Memory, Reply, Request};
use crate::proved::lease_world::copies::copy_request;
use crate::proved::lease_world::world::contents::Contents;
use crate::proved::lease_world::world::link::Link;
use crate::proved::lease_world::world::replies::Replies;
use std::alloc::Global;
use std::collections::VecDeque;

/// A client, its link, and the messages on their way, the oldest first.
#[derive(Debug)]
pub struct Seat {
    guid: [u8; 16],
    client: Client,
    link: Link,
    requests: VecDeque<Request>,
    replies: Replies,
}

impl Seat {
    /// A client whose link is down, with nothing on its way.
    pub fn new(alloc: Global, guid: [u8; 16], client: Client) -> Seat {
        Seat { guid, client, link: Link::Down, requests: VecDeque::new(alloc), replies: Replies::new(alloc) }
    }

    /// The client's ClientGuid.
    pub fn guid(&self) -> [u8; 16] {
        self.guid
    }

    /// Whether this is the link.
    pub fn has_link(&self, link: Link) -> bool {
        matches!((self.link, link), (Link::Down, Link::Down) | (Link::Up, Link::Up) | (Link::Cut, Link::Cut))
    }

    /// The link is this from now on.
    pub fn set_link(&mut self, link: Link) {
        self.link = link;
    }

    /// The link is cut: nothing is on its way any more.
    pub fn cut(&mut self) {
        self.link = Link::Cut;
        self.requests.clear();
        self.replies.clear();
    }

    /// The client's application gives a command, and what the client sends is on its way. Its notes
    /// are given.
    ///
    /// # Errors
    ///
    /// `Memory` where there is none left.
    pub fn app(&mut self, command: Command, given: &mut Given) -> Result<(), Memory> {
        self.client.app_in_place(command, given)?;
        self.send_all(given)
    }

    /// The client takes a reply, and what it sends is on its way. Its notes are given.
    ///
    /// # Errors
    ///
    /// `Memory` where there is none left.
    pub fn take(&mut self, reply: Reply, given: &mut Given) -> Result<(), Memory> {
        self.client.take_in_place(reply, given)?;
        self.send_all(given)
    }

    /// The client notices that its connection is lost, and what it sends is on its way. Its notes are
    /// given.
    ///
    /// # Errors
    ///
    /// `Memory` where there is none left.
    pub fn notice(&mut self, given: &mut Given) -> Result<(), Memory> {
        self.client.notice_in_place(given)?;
        self.send_all(given)
    }

    /// The client is connected, and what it sends is on its way. Its notes are given.
    ///
    /// # Errors
    ///
    /// `Memory` where there is none left.
    pub fn connect(&mut self, given: &mut Given) -> Result<(), Memory> {
        self.client.connect_in_place(given)?;
        self.send_all(given)
    }

    // The requests that the client gave out are on their way, where its link is up; else they are lost.
    fn send_all(&mut self, given: &mut Given) -> Result<(), Memory> {
        if self.link == Link::Up && !given.requests.is_empty() {
            push_all(&mut self.requests, given)?;
        }
        Ok(())
    }

    /// How the client is connected.
    pub fn link(&self) -> Link {
        self.link
    }

    /// How many requests of the client are on their way.
    pub fn count_requests(&self) -> usize {
        self.requests.len()
    }

    /// Adds the requests on their way but for so many of the oldest, each as sent after so many facts.
    ///
    /// # Errors
    ///
    /// `Memory` where there is none left for them.
    pub fn push_sent(&self, passages: &mut Vec<Passage>, client: ClientNo, waiting: usize, facts: usize) -> Result<(), Memory> {
        for place in waiting..self.count_requests() {
            passages.push(Passage::Sent { client, request: copy_request(&self.requests[place])?, facts })?;
        }
        Ok(())
    }

    /// Whether no request of the client is on its way.
    pub fn has_no_request(&self) -> bool {
        self.requests.is_empty()
    }

    /// Whether no reply is on its way to the client.
    pub fn has_no_reply(&self) -> bool {
        self.replies.is_empty()
    }

    /// A reply is on its way to the client.
    ///
    /// # Errors
    ///
    /// `Memory` where there is none left for it.
    pub fn push_reply(&mut self, contents: &mut Contents, reply: Reply) -> Result<(), Memory> {
        self.replies.push(contents, reply)
    }

    /// The oldest reply, which is taken; `None` where none is on its way.
    ///
    /// # Errors
    ///
    /// `Memory` where there is none left for the bytes of a read.
    pub fn pop_reply(&mut self) -> Result<Option<Reply>, Memory> {
        self.replies.pop(*self.requests.allocator())
    }

    /// The oldest request, which is taken; `None` where none is on its way.
    pub fn pop_request(&mut self) -> Option<Request> {
        self.requests.pop_front()
    }

    /// A request is sent in the client's name, which is lost where its link isn't up.
    ///
    /// # Errors
    ///
    /// `Memory` where there is none left for the queue.
    pub fn send(&mut self, request: Request) -> Result<(), Memory> {
        if self.link == Link::Up {
            self.requests.push_back(request)?;
        }
        Ok(())
    }
}

// Puts requests after those that are in the queue.
fn push_all(queue: &mut VecDeque<Request>, given: &mut Given) -> Result<(), Memory> {
    for request in given.requests.drain(..) {
        queue.push_back(request)?;
    }
    Ok(())
}
