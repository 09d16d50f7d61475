//! Reads from a client's cache, in runs: what is seen is kept, and shared by the facts that show it.

use smblease_std::prelude::Vec;
use smblease_std::test::passes;

use crate::running::runs::{open, setup, write};
use crate::running::words::{believes, buffered, changed, joined, opened, read, record, sent, settled, start, took};
use smblease::proved::lease_client::{Command, Settlement};
use smblease::proved::lease_state::{ClientNo, FileNo};
use smblease::proved::lease_world::{Event, Fact, Verdict, judge, run};
use smblease_std::alloc::Global;
use smblease_std::test::Fail;

fn read_file() -> Event {
    Event::App(ClientNo(1), Command::Read { file: FileNo(1) })
}

// The one client opens the file, is granted all and is told the bytes. It reads them twice from its
// cache; writes, and reads; has the write sent, and reads before it is answered and after that.
fn cached_reads(alloc: Global) -> Result<Vec<Fact>, Fail> {
    let one = ClientNo(1);
    let events = [
        Event::Connect(one),
        open(1, 7),
        Event::ServerTakes(one),
        Event::ClientTakes(one),
        read_file(),
        Event::ServerTakes(one),
        Event::ClientTakes(one),
        read_file(),
        read_file(),
        write(alloc, 1, 9)?,
        read_file(),
        Event::App(one, Command::Flush { file: FileNo(1) }),
        read_file(),
        Event::ServerTakes(one),
        Event::ClientTakes(one),
        read_file(),
    ];
    Ok(run(alloc, &setup(alloc, 1, 1)?, &events)?)
}

#[test]
fn cached_reads_show_the_file_with_the_writes() {
    passes(|| -> Result<(), Fail> {
        let alloc = Global;
        let facts = cached_reads(alloc)?;
        let wanted = record(
            alloc,
            [
                start(alloc, 1, &[0, 7]),
                joined(1),
                opened(1, 1),
                sent(1),
                took(1),
                believes(1, 1, 7),
                sent(1),
                took(1),
                read(alloc, 1, 1, &[0, 7]),
                read(alloc, 1, 1, &[0, 7]),
                buffered(alloc, 1, 1, 1, 0, 9),
                read(alloc, 1, 1, &[9, 7]),
                read(alloc, 1, 1, &[9, 7]),
                changed(alloc, 1, 1, 1, 0, 9),
                sent(1),
                took(1),
                settled(1, 1, Settlement::Done),
                read(alloc, 1, 1, &[9, 7]),
            ],
        )?;
        assert!(facts.as_slice() == wanted.as_slice());
        assert_eq!(judge(alloc, &facts)?, Verdict::Safe);
        Ok(())
    })
}
