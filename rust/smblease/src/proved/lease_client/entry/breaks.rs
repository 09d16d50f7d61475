// Made by tools/plain_rust from crates/lease_client/src/entry/breaks.rt. Changes belong there.

use std::prelude::Vec;

use crate::proved::lease_client::entry::turn::Given;
use crate::proved::lease_client::entry::{Entry, Live, Phase};
use crate::proved::lease_client::requests;
use crate::proved::lease_client::values::command::Answer;
use crate::proved::lease_client::values::state::gives_up;
use crate::proved::lease_client::writes::queue::Writes;
use crate::proved::lease_state::{LeaseState, Memory, Request};
use crate::proved::lease_wire::Notification;

impl Entry {
    /// The entry's lease is broken (MS-SMB2 3.2.5.19.2). An entry that isn't live passes it over.
    ///
    /// # Errors
    ///
    /// `Memory` where there is none left for what is sent.
    pub fn broken(&mut self, notice: &Notification, given: &mut Given) -> Result<(), Memory> {
        let Phase::Live(live) = &mut self.phase else {
            given.begin(Answer::Quiet);
            return Ok(());
        };
        let new = live.belief.meet(notice.new);
        if live.is_ended_at(new) {
            live.give_up(&mut self.sent, Answer::Quiet, given)?;
            self.phase = Phase::Closed;
            return Ok(());
        }
        live.lowered(&mut self.sent, notice, new, given)
    }
}

impl Live {
    // Whether the open is given up where this is the new belief: a parked entry that loses its handles closes its open, which
    // is its answer.
    fn is_ended_at(&self, new: LeaseState) -> bool {
        self.handles.count() == 0 && self.belief.caches_handles() && !new.caches_handles()
    }

    /// The unsent writes and a Close are sent, with this answer: the open is over.
    ///
    /// # Errors
    ///
    /// `Memory` where there is none left for what is sent.
    pub fn give_up(&mut self, sent: &mut Writes, answer: Answer, given: &mut Given) -> Result<(), Memory> {
        given.begin(answer);
        self.send_unsent(sent, &mut given.requests)?;
        given.requests.push(requests::close(self.file_id))?;
        Ok(())
    }

    // The new belief is what the old one and the notification have in common. Unsent writes go before the acknowledgment where
    // writes or handles are given up.
    fn lowered(&mut self, sent: &mut Writes, notice: &Notification, new: LeaseState, given: &mut Given) -> Result<(), Memory> {
        given.begin(Answer::Quiet);
        if gives_up(self.belief, new) {
            self.send_unsent(sent, &mut given.requests)?;
        }
        push_acknowledgment(&mut given.requests, notice, new)?;
        self.believe(new);
        Ok(())
    }

    /// The unsent writes are sent, in order.
    ///
    /// # Errors
    ///
    /// `Memory` where there is none left for the requests.
    pub fn send_unsent(&mut self, sent: &mut Writes, requests: &mut Vec<Request>) -> Result<(), Memory> {
        requests::push_writes(requests, self.file_id, self.file.unsent())?;
        self.file.send(sent)
    }

    /// The belief is this one; without reads the base is dropped.
    pub fn believe(&mut self, new: LeaseState) {
        self.belief = new;
        if !new.caches_reads() {
            self.file.forget();
        }
    }
}

// An acknowledgment of this state, where one is asked for.
fn push_acknowledgment(requests: &mut Vec<Request>, notice: &Notification, state: LeaseState) -> Result<(), Memory> {
    if notice.ack_required {
        requests.push(requests::acknowledge(notice.key, state))?;
    }
    Ok(())
}
