// Made by tools/plain_rust from crates/machines_c/src/manager/coming.rt. Changes belong there.

use smblease::proved::break_timers::BreakNo;
use smblease::proved::lease_manager::{Ask, ClientNo, Extent, FileNo, Tag};
use smblease::proved::lease_state::{FileId, LeaseKey, LeaseState};
use smblease::proved::waiting_changes::Change;

/// What comes to a manager.
#[derive(Clone, Copy, Debug)]
pub enum Coming {
    /// A client connects.
    Joins(ClientNo),
    /// A client asks something of a file, under a tag.
    Asks(ClientNo, Tag, Ask),
    /// A client acknowledges a break of its lease of this key, with this state.
    Acknowledges(ClientNo, LeaseKey, LeaseState),
    /// A client sends an acknowledgment that can't be read.
    IsMalformed(ClientNo),
    /// A client's connection is lost.
    IsCut(ClientNo),
    /// The timer of the break of a client's lease runs out.
    Expires(ClientNo, LeaseKey),
    /// The timer of this number, of a break, runs out.
    RunsOut(BreakNo),
    /// The timer of a durable open runs out.
    Scavenges(FileId),
    /// A request that waits on the file is taken back.
    Withdraws(FileNo, ClientNo, Tag),
    /// Other keys on a file than this one of the client's, or all, are to give up what they hold.
    GivesUp(ClientNo, Option<LeaseKey>, FileNo, Extent),
    /// A change is asked for that no open of a client asks for.
    Changes(Change),
}
