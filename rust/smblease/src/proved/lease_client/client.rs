// Made by tools/plain_rust from crates/lease_client/src/client.rt. Changes belong there.

use crate::proved::lease_client::entry::turn::Given;
use crate::proved::lease_client::machine::Machine;
use crate::proved::lease_client::machine::links::Link;
use crate::proved::lease_client::values::command::Command;
use crate::proved::lease_client::values::step::Step;
use crate::proved::lease_state::{FileNo, LeaseState, Memory, Reply};
use std::alloc::Global;

/// A client machine (MS-SMB2 3.2.1): its files, what it knows of its opens and of their leases, and
/// the writes that aren't answered. Every client keeps the laws of clients: it has a file in its cache
/// only where it believes that it may cache reads, and unsent writes only where it believes that it may
/// cache writes, and each write has its own number.
#[derive(Debug)]
pub struct Client {
    machine: Machine,
}

impl Client {
    /// The client of this ClientGuid, with files from 1 to `files`, that was never connected: no
    /// file is open.
    ///
    /// # Errors
    ///
    /// `Memory` where there is none left for the list of files, and never where there are no files.
    pub fn new(alloc: Global, guid: [u8; 16], files: u8) -> Result<Client, Memory> {
        let machine = Machine::new(alloc, guid, files)?;
        Ok(Client { machine })
    }

    /// What the client believes of the lease of a file (MS-SMB2 3.2.1.5, LeaseState). Nothing is
    /// cached where the file isn't open, or the client has no file of this number. Allocates
    /// nothing.
    pub fn belief(&self, file: FileNo) -> LeaseState {
        self.machine.belief(file)
    }

    /// The laws that this client keeps, as every client does: it has a file in its cache only where it
    /// believes that it may cache reads, and unsent writes only where it believes that it may cache writes; it
    /// asks for more only with a handle; what it keeps over a lost connection are buffered writes; and each
    /// write has its own number. Does nothing.
    pub fn laws(&self) {
        let _machine = &self.machine;
    }

    /// A command comes from the application (profile). No belief rises by it; a command that is
    /// refused changes nothing, sends nothing and notes nothing.
    ///
    /// # Errors
    ///
    /// `Memory` where there is none left, and never where the command is refused.
    #[inline(always)]
    pub fn app(self, command: Command) -> Result<Step, Memory> {
        let mut client = self;
        let mut given = client.nothing_given();
        client.app_in_place(command, &mut given)?;
        Ok(Step::of(client, given))
    }

    /// A command comes from the application, as to `app`, and the client is changed in its place (profile). What the call gives
    /// out is in `given` afterwards, whatever was there.
    ///
    /// # Errors
    ///
    /// `Memory` where there is none left, and never where the command is refused. The client has forgotten all but its
    /// ClientGuid then, as a new one without files, and `given` has nothing of worth.
    #[inline(always)]
    pub fn app_in_place(&mut self, command: Command, given: &mut Given) -> Result<(), Memory> {
        let guid = self.machine.guid();
        match self.machine.app(command, given) {
            Ok(()) => Ok(()),
            Err(fault) => {
                self.machine.forget(guid);
                Err(fault)
            }
        }
    }

    /// A message comes from the server (MS-SMB2 3.2.5). What fits no entry, and contexts or
    /// notifications that can't be read, are passed over. A belief rises only by the answer to a
    /// create of its file that reports no break in progress.
    ///
    /// # Errors
    ///
    /// `Memory` where there is none left, and never where a Close or an acknowledgment is answered.
    #[inline(always)]
    pub fn take(self, reply: Reply) -> Result<Step, Memory> {
        let mut client = self;
        let mut given = client.nothing_given();
        client.take_in_place(reply, &mut given)?;
        Ok(Step::of(client, given))
    }

    /// A message comes from the server, as to `take`, and the client is changed in its place (MS-SMB2 3.2.5). What the call gives
    /// out is in `given` afterwards, whatever was there.
    ///
    /// # Errors
    ///
    /// `Memory` where there is none left, and never where a Close or an acknowledgment is answered. The client has forgotten
    /// all but its ClientGuid then, as a new one without files, and `given` has nothing of worth.
    #[inline(always)]
    pub fn take_in_place(&mut self, reply: Reply, given: &mut Given) -> Result<(), Memory> {
        let guid = self.machine.guid();
        match self.machine.take(reply, given) {
            Ok(()) => Ok(()),
            Err(fault) => {
                self.machine.forget(guid);
                Err(fault)
            }
        }
    }

    /// The client notices that its connection is lost (MS-SMB2 3.2.7.1). Live durable opens wait for the
    /// next connection, with their buffered writes where writes may be cached; any other open is closed.
    ///
    /// # Errors
    ///
    /// `Memory` where there is none left.
    pub fn notice(self) -> Result<Step, Memory> {
        let mut client = self;
        let mut given = client.nothing_given();
        client.notice_in_place(&mut given)?;
        Ok(Step::of(client, given))
    }

    /// The client notices that its connection is lost, as by `notice`, and is changed in its place (MS-SMB2 3.2.7.1). What the
    /// call gives out is in `given` afterwards, whatever was there.
    ///
    /// # Errors
    ///
    /// `Memory` where there is none left. The client has forgotten all but its ClientGuid then, as a new one without files, and
    /// `given` has nothing of worth.
    pub fn notice_in_place(&mut self, given: &mut Given) -> Result<(), Memory> {
        self.link(Link::Lost, given)
    }

    /// The client connects (3.2.4.4): a create is sent for each open that waits for it.
    ///
    /// # Errors
    ///
    /// `Memory` where there is none left.
    pub fn connect(self) -> Result<Step, Memory> {
        let mut client = self;
        let mut given = client.nothing_given();
        client.connect_in_place(&mut given)?;
        Ok(Step::of(client, given))
    }

    /// The client connects, as by `connect`, and is changed in its place (3.2.4.4). What the call gives out is in `given`
    /// afterwards, whatever was there.
    ///
    /// # Errors
    ///
    /// `Memory` where there is none left. The client has forgotten all but its ClientGuid then, as a new one without files, and
    /// `given` has nothing of worth.
    pub fn connect_in_place(&mut self, given: &mut Given) -> Result<(), Memory> {
        self.link(Link::Made, given)
    }

    fn link(&mut self, link: Link, given: &mut Given) -> Result<(), Memory> {
        let guid = self.machine.guid();
        match self.machine.link(link, given) {
            Ok(()) => Ok(()),
            Err(fault) => {
                self.machine.forget(guid);
                Err(fault)
            }
        }
    }

    // What a call is passed that gives out something for the first time.
    fn nothing_given(&self) -> Given {
        Given::new(self.machine.alloc())
    }
}
