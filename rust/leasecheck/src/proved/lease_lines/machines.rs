// Made by tools/plain_rust from crates/lease_lines/src/machines.rt. Changes belong there.

use crate::proved::lease_lines::client_table::ClientTable;
use crate::proved::lease_lines::refusals::Answer;
use crate::proved::lease_lines::server_stage::Stage;
use smblease::proved::lease_state::Memory;
use std::alloc::Global;

/// Machines that speak lines: clients, or a server.
#[derive(Debug)]
pub enum Machines {
    Clients(ClientTable),
    Server(Stage),
}

impl Machines {
    /// Clients, none of which has been added yet.
    pub fn clients(alloc: Global) -> Machines {
        Machines::Clients(ClientTable::new(alloc))
    }

    /// A server that was told nothing yet. Allocates nothing.
    pub fn server() -> Machines {
        Machines::Server(Stage::Fresh)
    }

    /// A line of this number comes, without its line feed: the machines after it, and what it is answered. A line that is
    /// refused is answered `fault line N` and changes nothing, and the answer has why it is refused; a line that is set-up,
    /// empty or a remark isn't answered.
    ///
    /// # Errors
    ///
    /// `Memory` where there is none left; the machines are lost then.
    pub fn answer(self, alloc: Global, number: u64, line: &[u8]) -> Result<(Machines, Answer), Memory> {
        match self {
            Machines::Clients(table) => {
                let (table, answer) = table.answer(alloc, number, line)?;
                Ok((Machines::Clients(table), answer))
            }
            Machines::Server(stage) => {
                let (stage, answer) = stage.answer(alloc, number, line)?;
                Ok((Machines::Server(stage), answer))
            }
        }
    }
}
