use smblease_std::alloc::Global;
use smblease_std::prelude::Vec;
use smblease_std::test::passes;
mod breaks;
mod calls;
mod durable;
mod words;

use smblease::proved::lease_state::{
    Access, Bytes, ClientNo, Content, FileNo, LeaseKey, LeaseState, Order, Request, Rise, Rules, Share,
};
use smblease::proved::lease_wire::{CreateAsk, write_create_ask};
use smblease::proved::share_server::{Out, Server};
use smblease_std::test::Fail;
use words::{KEY, two_files};

const WANTED_AND_GIVEN: [(u32, u32); 5] = [(7, 7), (5, 5), (6, 0), (2, 0), (4, 0)];

#[test]
fn a_new_server_has_its_files_and_nothing_else() {
    passes(|| -> Result<(), Fail> {
        let server = two_files(Global)?;
        assert_eq!(server.content(FileNo(1)).ok_or("file 1")?, b"abc".as_slice());
        assert_eq!(server.content(FileNo(2)).ok_or("file 2")?, b"".as_slice());
        assert!(server.content(FileNo(0)).is_none());
        assert!(server.content(FileNo(3)).is_none());
        assert_eq!(server.kept(ClientNo(1), FileNo(1)), None);
        assert!(!server.breaking(ClientNo(1), KEY));
        for (want, given) in WANTED_AND_GIVEN {
            assert_eq!(
                server.allowed(ClientNo(1), Some(KEY), FileNo(1), LeaseState::from_wire(want)),
                LeaseState::from_wire(given)
            );
        }
        Ok(())
    })
}

#[test]
fn a_server_has_the_rules_that_it_was_given() {
    passes(|| -> Result<(), Fail> {
        let alloc = Global;
        let rules = Rules { order: Order::ByKey, rise: Rise::Whole };
        assert_eq!(Server::with_rules(alloc, rules, Vec::new(alloc))?.rules(), rules);
        assert_eq!(two_files(alloc)?.rules(), Rules::profile());
        Ok(())
    })
}

#[test]
fn a_client_joins_once() {
    passes(|| -> Result<(), Fail> {
        let server = two_files(Global)?;
        let (server, outs) = server.join(ClientNo(1))?;
        assert!(outs.is_empty());
        let (server, outs) = server.join(ClientNo(1))?;
        assert!(outs.is_empty());
        assert_eq!(server.content(FileNo(1)).ok_or("file 1")?, b"abc".as_slice());
        Ok(())
    })
}

// The example at the top of lib.rt, with counters in place of connections, a journal and a disk.
#[test]
fn the_example_holds() {
    passes(|| -> Result<(), Fail> {
        let alloc = Global;
        let mut contexts = Vec::new(alloc);
        let lease = Some((LeaseKey([7; 16]), LeaseState::from_wire(7)));
        let ask = CreateAsk { lease, durable: false, reconnect: None };
        write_create_ask(&ask, &mut contexts)?;
        let contexts = Bytes::new(contexts);
        let (access, share) = (Access::ReadWrite, Share::ReadWrite);
        let create = Request::Create { file: FileNo(1), access, share, contexts };

        let mut files = Vec::new(alloc);
        files.push(Content::new(Vec::from_slice(alloc, b"abc")?)?)?;
        let (server, _) = Server::new(alloc, files)?.join(ClientNo(1))?;
        let (server, outs) = server.receive(ClientNo(1), create)?;
        assert_eq!(count_outs(outs), (1, 1, 0));
        let others = server.allowed(ClientNo(2), None, FileNo(1), LeaseState::from_wire(7));
        assert_eq!(others, LeaseState::from_wire(3));
        Ok(())
    })
}

// How many replies are sent, files opened and files changed.
fn count_outs(outs: Vec<Out>) -> (u32, u32, u32) {
    let (mut sent, mut opened, mut changed) = (0u32, 0u32, 0u32);
    for out in outs {
        match out {
            Out::Sent(..) => sent = sent.saturating_add(1),
            Out::Opened(..) => opened = opened.saturating_add(1),
            Out::Changed(..) => changed = changed.saturating_add(1),
        }
    }
    (sent, opened, changed)
}
