//! Asking for more under one key.

use crate::caching::setting::{
    FILE, after, answers, asked, believes, bytes, cached_read, connected, create, create_failed, created, created_in_break, open,
    opened, opened_as, read, read_done, refuses, told, write, write_failed,
};
use smblease::proved::lease_client::{Answer, Client, Command, Note, Refusal, Settlement};
use smblease::proved::lease_state::{Access, FileId, LeaseState, Request, Share, Status};
use smblease_std::alloc::Global;
use smblease_std::test::Fail;
use smblease_std::test::passes;

// Open for reads under R, with a base, and asking to write.
fn asking(alloc: Global) -> Result<Client, Fail> {
    let client = after(opened_as(alloc, Access::Read, 1)?, read())?;
    let client = told(client, read_done(alloc, 1, b"abc")?)?;
    after(client, open(1, Access::Write, Share::Read, 7, false))
}

#[test]
fn asks_for_what_both_have() {
    passes(|| -> Result<(), Fail> {
        let alloc = Global;
        let first = open(1, Access::ReadWrite, Share::Nothing, 7, false);
        let client = told(after(connected(alloc)?, first)?, created(alloc, 1, 7)?)?;
        let contexts = asked(alloc, 7)?;
        let client = answers(alloc, Answer::Waiting)
            .sends(create(Access::ReadWrite, Share::Nothing, contexts))?
            .app(client, open(1, Access::Read, Share::Read, 7, false))?;
        let client =
            answers(alloc, Answer::Failed(Status::SharingViolation)).take(client, create_failed(Status::SharingViolation))?;
        assert_eq!(client.belief(FILE), LeaseState::from_wire(7));
        Ok(())
    })
}

#[test]
fn refuses_while_it_asks() {
    passes(|| -> Result<(), Fail> {
        let alloc = Global;
        let same = open(1, Access::Read, Share::ReadWrite, 1, false);
        let client = refuses(asking(alloc)?, same, Refusal::Busy)?;
        let client = refuses(client, Command::Close { file: FILE }, Refusal::Busy)?;
        answers(alloc, Answer::Bytes(bytes(alloc, b"abc")?, true)).notes(cached_read(alloc, b"abc")?)?.app(client, read())?;
        Ok(())
    })
}

#[test]
fn sends_no_read_while_it_asks() {
    passes(|| -> Result<(), Fail> {
        let alloc = Global;
        let client = opened_as(alloc, Access::Read, 1)?;
        let client = after(client, open(1, Access::Write, Share::Read, 7, false))?;
        refuses(client, read(), Refusal::Busy)?;
        Ok(())
    })
}

#[test]
fn is_granted_more() {
    passes(|| -> Result<(), Fail> {
        let alloc = Global;
        let client = answers(alloc, Answer::Done)
            .sends(Request::Close { fid: FileId(1) })?
            .notes(believes(7))?
            .take(asking(alloc)?, created(alloc, 2, 7)?)?;
        let client = after(client, write(alloc, 0, b"X")?)?;
        answers(alloc, Answer::Bytes(bytes(alloc, b"Xbc")?, true)).notes(cached_read(alloc, b"Xbc")?)?.app(client, read())?;
        Ok(())
    })
}

#[test]
fn is_granted_nothing_in_a_break() {
    passes(|| -> Result<(), Fail> {
        let alloc = Global;
        let client = answers(alloc, Answer::Done)
            .sends(Request::Close { fid: FileId(1) })?
            .take(asking(alloc)?, created_in_break(alloc, 2, 7)?)?;
        assert_eq!(client.belief(FILE), LeaseState::READ_CACHING);
        Ok(())
    })
}

// The old open is gone: the entry waits for the create that is under way.
#[test]
fn is_told_file_closed() {
    passes(|| -> Result<(), Fail> {
        let alloc = Global;
        let client = after(opened(alloc, 7)?, write(alloc, 0, b"X")?)?;
        let client = after(client, Command::Flush { file: FILE })?;
        let client = after(client, open(1, Access::Read, Share::ReadWrite, 7, false))?;
        let client = after(client, write(alloc, 1, b"Y")?)?;
        let client = answers(alloc, Answer::Failed(Status::FileClosed))
            .notes(Note::Settled(1, Settlement::Failed))?
            .notes(Note::Settled(2, Settlement::Failed))?
            .notes(believes(0))?
            .take(client, write_failed(1, 1, Status::FileClosed))?;
        answers(alloc, Answer::Done).notes(believes(3))?.take(client, created(alloc, 2, 3)?)?;
        Ok(())
    })
}

#[test]
fn forgets_at_a_notice_that_it_asked() {
    passes(|| -> Result<(), Fail> {
        let alloc = Global;
        let client = answers(alloc, Answer::Quiet).notes(believes(0))?.notice(asking(alloc)?)?;
        answers(alloc, Answer::Quiet).take(client, created(alloc, 2, 7)?)?;
        Ok(())
    })
}

// A parked entry gives its open up for one on other terms.
#[test]
fn opens_a_parked_file_anew() {
    passes(|| -> Result<(), Fail> {
        let alloc = Global;
        let client = after(opened(alloc, 7)?, Command::Close { file: FILE })?;
        let contexts = asked(alloc, 1)?;
        answers(alloc, Answer::Waiting)
            .sends(Request::Close { fid: FileId(1) })?
            .sends(create(Access::Read, Share::Read, contexts))?
            .notes(believes(0))?
            .app(client, open(1, Access::Read, Share::Read, 1, false))?;
        Ok(())
    })
}
