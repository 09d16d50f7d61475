//! Events of a run that do nothing, and what stands in their way.

use smblease_std::alloc::Global;
use smblease_std::test::passes;

use crate::running::runs::{open, setup, write};
use smblease::proved::lease_client::{Command, Refusal};
use smblease::proved::lease_state::{ClientNo, FileNo, Rules};
use smblease::proved::lease_world::{Event, Idle, Kept, Obstacle, run, run_under};
use smblease_std::test::Fail;

// Two clients of one file. Of the events in between each changes something: the connects, the open with its way to the server
// and back, the write, the first flush, and the cut.
#[test]
fn dead_events_are_told() {
    passes(|| -> Result<(), Fail> {
        let alloc = Global;
        let (one, two, file) = (ClientNo(1), ClientNo(2), FileNo(1));
        let events = [
            Event::ClientTakes(one),
            Event::Connect(one),
            Event::Connect(one),
            Event::Notice(one),
            Event::Cut(ClientNo(3)),
            open(1, 7),
            Event::ServerTakes(one),
            Event::ServerTakes(one),
            Event::ClientTakes(one),
            write(alloc, 1, 9)?,
            Event::App(one, Command::Flush { file }),
            Event::App(one, Command::Flush { file }),
            Event::Expire(one, file),
            Event::Expire(one, FileNo(2)),
            Event::Cut(one),
            Event::Connect(one),
            Event::Scavenge(two, file),
            Event::App(two, Command::Read { file }),
            Event::Cut(two),
        ];
        let told = run_under(alloc, Rules::profile(), Kept::all(), &setup(alloc, 1, 2)?, &events)?;
        let alone = run(alloc, &setup(alloc, 1, 2)?, &events)?;
        assert!(told.facts.as_slice() == alone.as_slice());
        assert_eq!(told.messages.len(), 2);
        // Facts: the start, joined; opened, sent; took, believes; wrote; dropped.
        let wanted = [
            (0, 1, Obstacle::NoReply(one)),
            (2, 2, Obstacle::Connected(one)),
            (3, 2, Obstacle::Connected(one)),
            (4, 2, Obstacle::NoClient(ClientNo(3))),
            (7, 4, Obstacle::NoRequest(one)),
            (11, 7, Obstacle::NothingUnsent(one, file)),
            (12, 7, Obstacle::NoBreak(one, file)),
            (13, 7, Obstacle::NoFile(FileNo(2))),
            (15, 8, Obstacle::Unnoticed(one)),
            (16, 8, Obstacle::NoOpen(two, file)),
            (17, 8, Obstacle::Refused(Refusal::NotOpen)),
            (18, 8, Obstacle::NotConnected(two)),
        ];
        assert_eq!(told.idle.len(), wanted.len());
        for (place, (event, facts, obstacle)) in wanted.iter().enumerate() {
            let idle = Idle { event: *event, facts: *facts, obstacle: *obstacle };
            assert!(told.idle.get(place) == Some(&idle));
        }
        Ok(())
    })
}
