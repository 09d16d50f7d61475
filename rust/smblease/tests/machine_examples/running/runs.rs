//! Runs: which are refused, and the records of the others.

use smblease_std::prelude::Vec;
use smblease_std::test::passes;

use crate::running::words::{believes, buffered, changed, joined, opened, patch, record, sent, settled, start, took};
use smblease::proved::lease_client::{Command, Settlement};
use smblease::proved::lease_state::{
    Access, Bytes, ClientNo, Content, FileId, FileNo, LeaseState, Order, Reply, Rise, Rules, Share,
};
use smblease::proved::lease_world::{Event, Fact, Kept, RunFault, Setup, Verdict, judge, run, run_under};
use smblease_std::alloc::Global;
use smblease_std::test::Fail;

/// So many files, and so many clients of whose ClientGuids each has another first byte.
pub fn setup(alloc: Global, files: u8, clients: u8) -> Result<Setup, Fail> {
    let mut setup = Setup { files: Vec::new(alloc), clients: Vec::new(alloc) };
    for file in 0..files {
        let bytes = Vec::from_slice(alloc, &[file, 7])?;
        if let Ok(content) = Content::new(bytes) {
            setup.files.push(content)?;
        }
    }
    for client in 0..clients {
        let mut guid = [0; 16];
        guid[0] = client;
        setup.clients.push(guid)?;
    }
    Ok(setup)
}

/// The client opens the first file, and asks for the lease state that the wire's number names.
pub fn open(client: u8, want: u32) -> Event {
    open_for(client, Access::ReadWrite, want)
}

fn open_for(client: u8, access: Access, want: u32) -> Event {
    Event::App(
        ClientNo(client),
        Command::Open { file: FileNo(1), access, share: Share::ReadWrite, want: LeaseState::from_wire(want), durable: false },
    )
}

/// The client writes this byte at the beginning of the first file.
pub fn write(alloc: Global, client: u8, byte: u8) -> Result<Event, Fail> {
    let patch = patch(alloc, 0, &[byte])?;
    let file = FileNo(1);
    Ok(Event::App(ClientNo(client), Command::Write { file, patch }))
}

fn fault(alloc: Global, setup: &Setup, events: &[Event]) -> Option<RunFault> {
    run(alloc, setup, events).err()
}

#[test]
fn setups_have_limits() {
    passes(|| -> Result<(), Fail> {
        let alloc = Global;
        let bad = Some(RunFault::BadSetup);
        assert_eq!(fault(alloc, &setup(alloc, 8, 16)?, &[]), None);
        assert_eq!(fault(alloc, &setup(alloc, 9, 1)?, &[]), bad);
        assert_eq!(fault(alloc, &setup(alloc, 1, 17)?, &[]), bad);
        let mut twice = setup(alloc, 1, 3)?;
        twice.clients.push([0; 16])?;
        assert_eq!(fault(alloc, &twice, &[]), bad);
        Ok(())
    })
}

#[test]
fn events_have_a_limit() {
    passes(|| -> Result<(), Fail> {
        let alloc = Global;
        let mut events = Vec::new(alloc);
        for _ in 0..10_000 {
            events.push(Event::Notice(ClientNo(1)))?;
        }
        let small = setup(alloc, 1, 1)?;
        assert_eq!(fault(alloc, &small, &events), None);
        events.push(Event::Notice(ClientNo(1)))?;
        assert_eq!(fault(alloc, &small, &events), Some(RunFault::TooMany));
        // A bad setup is reported first.
        let bad = setup(alloc, 9, 1)?;
        assert_eq!(fault(alloc, &bad, &events), Some(RunFault::BadSetup));
        Ok(())
    })
}

#[test]
fn a_run_without_events_has_its_starts() {
    passes(|| -> Result<(), Fail> {
        let alloc = Global;
        let facts = run(alloc, &setup(alloc, 2, 1)?, &[Event::ServerTakes(ClientNo(9))])?;
        let wanted = record(alloc, [start(alloc, 1, &[0, 7]), start(alloc, 2, &[1, 7])])?;
        assert!(facts.as_slice() == wanted.as_slice());
        Ok(())
    })
}

// The context of a lease that is granted reading, writing and handles: its header, name and data.
const GRANTED: [u8; 56] = [
    0, 0, 0, 0, 16, 0, 4, 0, 0, 0, 24, 0, 32, 0, 0, 0, 82, 113, 76, 115, 0, 0, 0, 0, 0, 0, 0, 0, 0, 0, 0, 0, 0, 0, 0, 0, 1, 0, 0,
    0, 7, 0, 0, 0, 0, 0, 0, 0, 0, 0, 0, 0, 0, 0, 0, 0,
];

// The break of that lease to reading and handles, which has to be acknowledged.
const BREAK: [u8; 44] = [
    44, 0, 0, 0, 1, 0, 0, 0, 0, 0, 0, 0, 0, 0, 0, 0, 0, 0, 0, 0, 1, 0, 0, 0, 7, 0, 0, 0, 3, 0, 0, 0, 0, 0, 0, 0, 0, 0, 0, 0, 0,
    0, 0, 0,
];

// A client opens a file and is granted all; then another one opens it, and the first takes the
// break. The contexts and the break are those of MS-SMB2 2.2.14.2.10 and 2.2.23.2, written by hand:
// the key is the client's GUID with the file's number after its first twelve bytes.
#[test]
fn a_run_gives_what_is_in_its_messages() {
    passes(|| -> Result<(), Fail> {
        let alloc = Global;
        let (one, two) = (ClientNo(1), ClientNo(2));
        let events = [
            Event::Connect(one),
            Event::Connect(two),
            open(1, 7),
            Event::ServerTakes(one),
            Event::ClientTakes(one),
            open(2, 1),
            Event::ServerTakes(two),
            Event::ClientTakes(one),
        ];
        let kept = Kept { messages: true, idle: false, passages: false };
        let told = run_under(alloc, Rules::profile(), kept, &setup(alloc, 1, 2)?, &events)?;
        let alone = run(alloc, &setup(alloc, 1, 2)?, &events)?;
        assert!(told.facts.as_slice() == alone.as_slice());
        assert!(told.idle.is_empty() && told.passages.is_empty());
        let messages = told.messages;
        assert_eq!(messages.len(), 4);
        let contexts = Vec::from_slice(alloc, &GRANTED)?;
        let created = Reply::Created { file: FileNo(1), fid: FileId(1), contexts: Bytes::new(contexts) };
        assert!(messages[0] == created);
        assert!(messages[1] == created);
        assert!(messages[2] == Reply::Break(BREAK));
        assert!(messages[3] == Reply::Break(BREAK));
        Ok(())
    })
}

// What client 1 believes in the end of a lease of R that asks for all beside another client's lease.
fn risen(alloc: Global, rules: Rules) -> Result<LeaseState, Fail> {
    let (one, two) = (ClientNo(1), ClientNo(2));
    let events = [
        Event::Connect(one),
        Event::Connect(two),
        open_for(1, Access::Read, 1),
        Event::ServerTakes(one),
        Event::ClientTakes(one),
        open(2, 7),
        Event::ServerTakes(two),
        Event::ClientTakes(two),
        open(1, 7),
        Event::ServerTakes(one),
        Event::ClientTakes(one),
    ];
    let told = run_under(alloc, rules, Kept::nothing(), &setup(alloc, 1, 2)?, &events)?;
    let all = run_under(alloc, rules, Kept::all(), &setup(alloc, 1, 2)?, &events)?;
    if told.facts.as_slice() != all.facts.as_slice() || all.messages.len() != 6 {
        return Err(Fail::from("another run"));
    }
    if !told.messages.is_empty() || !told.idle.is_empty() || !told.passages.is_empty() {
        return Err(Fail::from("more than the record"));
    }
    let mut believed = LeaseState::NONE;
    for fact in told.facts.as_slice() {
        if let Fact::Believes(ClientNo(1), _, state) = fact {
            believed = *state;
        }
    }
    Ok(believed)
}

#[test]
fn a_lease_rises_by_the_rules_of_its_server() {
    passes(|| -> Result<(), Fail> {
        let (as_free, whole) = (LeaseState::from_wire(3), LeaseState::from_wire(1));
        for order in [Order::ByClient, Order::ByKey] {
            for (rise, state) in [(Rise::AsFree, as_free), (Rise::Whole, whole)] {
                assert_eq!(risen(Global, Rules { order, rise })?, state);
            }
        }
        Ok(())
    })
}

// A client opens, is granted all, and buffers a write. Another one opens: the break goes to the first, which sends its write and
// acknowledges, and then the second is answered.
#[test]
fn two_clients_take_turns() {
    passes(|| -> Result<(), Fail> {
        let alloc = Global;
        let (one, two) = (ClientNo(1), ClientNo(2));
        let events = [
            Event::Connect(one),
            Event::Connect(two),
            open(1, 7),
            Event::ServerTakes(one),
            Event::ClientTakes(one),
            write(alloc, 1, 9)?,
            open(2, 1),
            Event::ServerTakes(two),
            Event::ClientTakes(one),
            Event::ServerTakes(one),
            Event::ServerTakes(one),
            Event::ClientTakes(one),
            Event::ClientTakes(two),
            Event::App(two, Command::Read { file: FileNo(1) }),
        ];
        let facts = run(alloc, &setup(alloc, 1, 2)?, &events)?;
        let wanted = record(
            alloc,
            [
                start(alloc, 1, &[0, 7]),
                joined(1),
                joined(2),
                opened(1, 1),
                sent(1),
                took(1),
                believes(1, 1, 7),
                buffered(alloc, 1, 1, 1, 0, 9),
                sent(1),
                took(1),
                believes(1, 1, 3),
                changed(alloc, 1, 1, 1, 0, 9),
                sent(1),
                sent(1),
                opened(1, 2),
                sent(2),
                took(1),
                settled(1, 1, Settlement::Done),
                took(2),
                believes(2, 1, 1),
            ],
        )?;
        assert!(facts.as_slice() == wanted.as_slice());
        assert_eq!(judge(alloc, &facts)?, Verdict::Safe);
        Ok(())
    })
}
