// Made by tools/plain_rust from crates/lease_lines/src/client_table.rt. Changes belong there.

use std::prelude::{String, Vec};

use crate::proved::lease_lines::client_answers::push_step;
use crate::proved::lease_lines::client_lines::{Asked, ClientLine, client_table, read_client_line};
use crate::proved::lease_lines::refusals::Answer;
use crate::proved::lease_texts::{LineFault, is_passed_over};
use smblease::proved::lease_client::{Client, Step};
use smblease::proved::lease_state::{ClientNo, Memory};
use std::alloc::Global;
use std::mem;

// No more clients than there are numbers.
const CLIENTS: usize = 255;

/// Client machines, numbered from 1 in the order in which lines added them.
#[derive(Debug)]
pub struct ClientTable {
    files: Option<u8>,
    guids: Vec<[u8; 16]>,
    clients: Vec<Client>,
}

// Asks something of a client machine.
fn call(client: Client, asked: Asked) -> Result<Step, Memory> {
    match asked {
        Asked::App(command) => client.app(command),
        Asked::Notice => client.notice(),
        Asked::Connect => client.connect(),
        Asked::Take(arrival) => client.take(arrival.reply),
    }
}

// Asks something of a client, adds what it answers, and gives the client after it.
fn step(number: ClientNo, client: Client, asked: Asked, text: &mut String) -> Result<Client, Memory> {
    let other = asked.other();
    let step = call(client, asked)?;
    Ok(push_step(text, number, other, step)?)
}

// Asks something of the client of a number, and adds what it answers.
fn ask(clients: &mut Vec<Client>, number: ClientNo, asked: Asked, text: &mut String) -> Result<(), Memory> {
    let place = usize::from(number.0) - 1;
    let idle = Client::new(*text.allocator(), [0; 16], 0)?;
    let client = mem::replace(&mut clients[place], idle);
    clients[place] = step(number, client, asked, text)?;
    Ok(())
}

impl ClientTable {
    /// No clients yet, and no number of files for them.
    pub fn new(alloc: Global) -> ClientTable {
        ClientTable { files: None, guids: Vec::new(alloc), clients: Vec::new(alloc) }
    }

    fn has(&self, number: ClientNo) -> bool {
        1 <= number.0 && usize::from(number.0) <= self.clients.len()
    }

    fn set_files(&mut self, count: u8) -> bool {
        if self.files.is_some() {
            return false;
        }
        self.files = Some(count);
        true
    }

    fn has_guid(&self, guid: [u8; 16]) -> bool {
        self.guids.iter().any(|one| *one == guid)
    }

    // Whether there is a number for one more client.
    fn has_room(&self) -> bool {
        self.clients.len() < CLIENTS
    }

    fn push_client(&mut self, alloc: Global, guid: [u8; 16], files: u8) -> Result<(), Memory> {
        self.guids.push(guid)?;
        self.clients.push(Client::new(alloc, guid, files)?)?;
        Ok(())
    }

    fn add_client(&mut self, alloc: Global, guid: [u8; 16]) -> Result<bool, Memory> {
        let Some(files) = self.files else {
            return Ok(false);
        };
        if self.has_guid(guid) || !self.has_room() {
            return Ok(false);
        }
        self.push_client(alloc, guid, files)?;
        Ok(true)
    }

    fn take_line(&mut self, line: ClientLine, text: &mut String) -> Result<bool, Memory> {
        match line {
            ClientLine::Files(count) => Ok(self.set_files(count)),
            ClientLine::Client(guid) => self.add_client(*text.allocator(), guid),
            ClientLine::Asks(number, asked) => {
                if !self.has(number) {
                    return Ok(false);
                }
                ask(&mut self.clients, number, asked, text)?;
                Ok(true)
            }
        }
    }

    // A line of this number that is one: where it may not stand there, it is refused.
    fn told(self, alloc: Global, number: u64, line: ClientLine) -> Result<(ClientTable, Answer), Memory> {
        let place = line.place();
        let mut table = self;
        let mut answer = Answer::nothing(alloc);
        if table.take_line(line, &mut answer.text)? {
            return Ok((table, answer));
        }
        Ok((table, Answer::misplaced(alloc, number, place)?))
    }

    /// A line of this number comes: the clients after it, and what it is answered.
    ///
    /// # Errors
    ///
    /// `Memory` where there is none left; the clients are lost then.
    pub fn answer(self, alloc: Global, number: u64, line: &[u8]) -> Result<(ClientTable, Answer), Memory> {
        if is_passed_over(line) {
            return Ok((self, Answer::nothing(alloc)));
        }
        match read_client_line(alloc, line) {
            Ok(told) => self.told(alloc, number, told),
            Err(LineFault::Refused) => Ok((self, Answer::unread(alloc, client_table(), number, line)?)),
            Err(LineFault::Memory) => Err(Memory),
        }
    }
}
