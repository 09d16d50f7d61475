// Made by tools/plain_rust from crates/lease_client/src/machine/calls.rt. Changes belong there.

use crate::proved::lease_client::entry::turn::Given;
use crate::proved::lease_client::machine::Machine;
use crate::proved::lease_client::machine::message::Message;
use crate::proved::lease_client::values::command::{Answer, Command, Refusal};
use crate::proved::lease_state::{FileNo, Memory};

impl Machine {
    /// A command comes from the application.
    ///
    /// # Errors
    ///
    /// `Memory` where there is none left, and never where the command is refused.
    #[inline]
    pub fn app(&mut self, command: Command, given: &mut Given) -> Result<(), Memory> {
        let file = command.file();
        if !self.knows(file) {
            given.begin(Answer::Refused(Refusal::NotOpen));
            return Ok(());
        }
        self.command(file, command, given)
    }

    // A command about a file that the client has.
    fn command(&mut self, file: FileNo, command: Command, given: &mut Given) -> Result<(), Memory> {
        let key = self.key(file);
        let old = self.belief(file);
        self.command_entry(file, key, command, given)?;
        given.note_belief(file, old, self.belief(file))?;
        Ok(())
    }

    /// A reply reaches the entry of a file.
    ///
    /// # Errors
    ///
    /// `Memory` where there is none left.
    #[inline]
    pub fn tell(&mut self, file: FileNo, message: Message, given: &mut Given) -> Result<(), Memory> {
        let key = self.key(file);
        let old = self.belief(file);
        self.tell_entry(file, key, message, given)?;
        given.note_belief(file, old, self.belief(file))?;
        Ok(())
    }
}
