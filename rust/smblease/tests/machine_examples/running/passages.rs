//! What becomes of the requests of a run.

use smblease_std::alloc::Global;
use smblease_std::test::passes;

use crate::running::runs::{open, setup};
use smblease::proved::lease_state::{ClientNo, Rules};
use smblease::proved::lease_world::{Event, Kept, Passage, run_under};
use smblease_std::test::Fail;

const ONE: ClientNo = ClientNo(1);

#[test]
fn requests_are_taken() {
    passes(|| -> Result<(), Fail> {
        let alloc = Global;
        let events = [Event::Connect(ONE), open(1, 7), Event::ServerTakes(ONE)];
        let told = run_under(alloc, Rules::profile(), Kept::all(), &setup(alloc, 1, 1)?, &events)?;
        // Facts: the start and joined, then what the server does.
        assert_eq!(told.passages.len(), 2);
        let taken = Passage::Taken { client: ONE, facts: 2 };
        assert!(told.passages.get(1) == Some(&taken));
        Ok(())
    })
}

#[test]
fn requests_are_lost() {
    passes(|| -> Result<(), Fail> {
        let alloc = Global;
        let events = [Event::Connect(ONE), open(1, 7), Event::Cut(ONE)];
        let told = run_under(alloc, Rules::profile(), Kept::all(), &setup(alloc, 1, 1)?, &events)?;
        assert_eq!(told.passages.len(), 2);
        let lost = Passage::Lost { client: ONE, facts: 2 };
        assert!(told.passages.get(1) == Some(&lost));
        Ok(())
    })
}
