// Made by tools/plain_rust from crates/lease_client/src/entry/opens.rt. Changes belong there.

use crate::proved::lease_client::entry::turn::Given;
use crate::proved::lease_client::entry::{Asked, Entry, Live, Phase};
use crate::proved::lease_client::requests::{self, Terms};
use crate::proved::lease_client::values::command::{Answer, Refusal};
use crate::proved::lease_state::{Access, FileNo, LeaseKey, Memory, Share};

impl Entry {
    /// An Open of the file, whose key this is. A file that isn't open is opened only while the
    /// client is online (profile).
    ///
    /// # Errors
    ///
    /// `Memory` where there is none left for the request, and never where the Open is refused.
    pub fn open(&mut self, is_online: bool, file: FileNo, key: LeaseKey, terms: Terms, given: &mut Given) -> Result<(), Memory> {
        match &mut self.phase {
            Phase::Closed => self.open_first(is_online, file, key, terms, given),
            Phase::Live(live) => {
                if live.is_given_up_for(terms) {
                    live.give_up(&mut self.sent, Answer::Waiting, given)?;
                    self.send_open(file, key, terms, given)?;
                    return Ok(());
                }
                live.open(file, key, terms, given)
            }
            _ => {
                given.begin(Answer::Refused(self.refusal()));
                Ok(())
            }
        }
    }

    // An Open of a file that isn't open.
    // docs/DECISIONS.md: "An open between a cut and its notice".
    fn open_first(
        &mut self,
        is_online: bool,
        file: FileNo,
        key: LeaseKey,
        terms: Terms,
        given: &mut Given,
    ) -> Result<(), Memory> {
        if !is_online {
            given.begin(Answer::Refused(Refusal::Offline));
            return Ok(());
        }
        given.begin(Answer::Waiting);
        self.send_open(file, key, terms, given)
    }

    // A create is sent, after what is sent already, and the entry waits for its answer.
    fn send_open(&mut self, file: FileNo, key: LeaseKey, terms: Terms, given: &mut Given) -> Result<(), Memory> {
        let alloc = self.alloc();
        given.requests.push(requests::open(alloc, file, key, terms)?)?;
        self.phase = Phase::Opening { access: terms.access, share: terms.share };
        Ok(())
    }

    /// Why the entry accepts no command but an Open, where it isn't live or is parked.
    pub fn refusal(&self) -> Refusal {
        match &self.phase {
            Phase::Closed | Phase::Live(_) => Refusal::NotOpen,
            Phase::Opening { .. } | Phase::Reconnecting(_) => Refusal::Busy,
            Phase::Offline(_) => Refusal::Offline,
        }
    }
}

fn is_same_access(one: Access, other: Access) -> bool {
    one == other
}

fn is_same_share(one: Share, other: Share) -> bool {
    one == other
}

// The access that does what either does.
fn either_access(one: Access, other: Access) -> Access {
    match (one, other) {
        (Access::Read, Access::Read) => Access::Read,
        (Access::Write, Access::Write) => Access::Write,
        _ => Access::ReadWrite,
    }
}

// The share that lets others do what both let them do.
fn both_share(one: Share, other: Share) -> Share {
    match (one, other) {
        (Share::ReadWrite, share) | (share, Share::ReadWrite) => share,
        (Share::Read, Share::Read) => Share::Read,
        (Share::Write, Share::Write) => Share::Write,
        _ => Share::Nothing,
    }
}

impl Live {
    // Whether the open is on these terms.
    fn is_open_on(&self, terms: Terms) -> bool {
        is_same_access(terms.access, self.access) && is_same_share(terms.share, self.share)
    }

    // Whether an Open on these terms gives the open up: it is parked, and on other ones.
    fn is_given_up_for(&self, terms: Terms) -> bool {
        self.handles.asking().is_none() && !self.is_open_on(terms) && self.handles.count() == 0
    }

    // While an entry asks for more, every Open is refused.
    fn open(&mut self, file: FileNo, key: LeaseKey, terms: Terms, given: &mut Given) -> Result<(), Memory> {
        if self.handles.asking().is_some() {
            given.begin(Answer::Refused(Refusal::Busy));
            return Ok(());
        }
        if self.is_open_on(terms) {
            self.add_handle(given);
            return Ok(());
        }
        self.ask_for_more(file, key, terms, given)
    }

    // One handle more on the open's own terms.
    fn add_handle(&mut self, given: &mut Given) {
        if self.handles.count() == u32::MAX {
            given.begin(Answer::Refused(Refusal::UsedUp));
            return;
        }
        self.handles = self.handles.with_more();
        given.begin(Answer::Done);
    }

    // What the open has and what is asked for together.
    fn joint_terms(&self, terms: Terms) -> Terms {
        Terms {
            access: either_access(self.access, terms.access),
            share: both_share(self.share, terms.share),
            want: terms.want,
            durable: terms.durable || self.durable,
        }
    }

    // A second create under the entry's key; the entry goes on until it is answered.
    // docs/DECISIONS.md: "The order of refusals".
    fn ask_for_more(&mut self, file: FileNo, key: LeaseKey, terms: Terms, given: &mut Given) -> Result<(), Memory> {
        if self.handles.count() == u32::MAX {
            given.begin(Answer::Refused(Refusal::UsedUp));
            return Ok(());
        }
        let terms = self.joint_terms(terms);
        let alloc = *given.requests.allocator();
        given.begin(Answer::Waiting);
        given.requests.push(requests::open(alloc, file, key, terms)?)?;
        self.handles = self.handles.with_asked(Asked { access: terms.access, share: terms.share });
        Ok(())
    }
}
