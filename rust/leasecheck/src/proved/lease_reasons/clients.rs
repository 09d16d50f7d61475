// Made by tools/plain_rust from crates/lease_reasons/src/clients.rt. Changes belong there.

use std::prelude::Vec;

use smblease::proved::lease_facts::Fact;
use smblease::proved::lease_state::{ClientNo, Memory};
use std::alloc::Global;

/// What facts say of a client.
#[derive(Clone, Copy, Debug)]
pub struct Standing {
    /// Whether a fact is about it.
    pub named: bool,
    /// Whether it joined.
    pub joined: bool,
    /// Whether it joined, and neither was its connection lost nor did a timer of its run out since.
    pub served: bool,
    /// Whether it strayed.
    pub strayed: bool,
}

impl Standing {
    // Before any fact.
    fn unseen() -> Standing {
        Standing { named: false, joined: false, served: false, strayed: false }
    }

    // After a fact about the client.
    fn after(self, fact: &Fact) -> Standing {
        let named = Standing { named: true, ..self };
        match fact {
            Fact::Joined(_) => Standing { joined: true, served: true, ..named },
            Fact::Dropped(_) | Fact::Expired(_, _) => Standing { served: false, ..named },
            Fact::Strayed(_) => Standing { strayed: true, ..named },
            _ => named,
        }
    }
}

/// What facts say of clients, read off them in one pass.
#[derive(Debug)]
pub struct Clients {
    /// Those that facts are about, in the order in which they come.
    pub named: Vec<ClientNo>,
    // By the numbers of clients.
    standings: Vec<Standing>,
}

impl Clients {
    /// What these facts say.
    ///
    /// # Errors
    ///
    /// `Memory` where there is none left for the list of clients.
    pub fn of(alloc: Global, facts: &[Fact]) -> Result<Clients, Memory> {
        let mut clients = Clients { named: Vec::new(alloc), standings: Vec::new(alloc) };
        for fact in facts {
            clients.note(fact)?;
        }
        Ok(clients)
    }

    // Takes note of the next fact.
    fn note(&mut self, fact: &Fact) -> Result<(), Memory> {
        let Some(client) = fact.client() else {
            return Ok(());
        };
        reach(&mut self.standings, client)?;
        let index = usize::from(client.0);
        let standing = self.standings[index];
        self.standings[index] = standing.after(fact);
        if !standing.named {
            self.named.push(client)?;
        }
        Ok(())
    }

    /// What the facts say of a client.
    pub fn standing(&self, client: ClientNo) -> Standing {
        match self.standings.get(usize::from(client.0)) {
            Some(standing) => *standing,
            None => Standing::unseen(),
        }
    }

    /// Whether the client is good.
    pub fn is_good(&self, client: ClientNo) -> bool {
        let standing = self.standing(client);
        standing.served && !standing.strayed
    }
}

// Makes a place for what is said of the client.
fn reach(standings: &mut Vec<Standing>, client: ClientNo) -> Result<(), Memory> {
    while standings.len() <= usize::from(client.0) {
        standings.push(Standing::unseen())?;
    }
    Ok(())
}
