//! Lost connections: what is kept, and what becomes of it.

use crate::caching::setting::{
    FILE, after, answers, asked_again, asked_durable, believes, connected, create, create_failed, created, open_all, opened,
    opened_durable, read, read_done, read_request, refuses, told, write, write_request,
};
use smblease::proved::lease_client::{Answer, Client, Command, Note, Refusal, Settlement};
use smblease::proved::lease_state::{Access, Bytes, FileId, Reply, Share, Status};
use smblease_std::alloc::Global;
use smblease_std::prelude::Vec;
use smblease_std::test::Fail;
use smblease_std::test::passes;

// Durable under RWH, with a sent and an unsent write, and then the connection lost and made again.
fn reconnecting(alloc: Global) -> Result<Client, Fail> {
    let client = after(opened_durable(alloc, 7)?, write(alloc, 0, b"X")?)?;
    let client = after(client, Command::Flush { file: FILE })?;
    let client = after(client, write(alloc, 1, b"Y")?)?;
    let step = client.notice()?.client.connect()?;
    Ok(step.client)
}

#[test]
fn asks_for_a_durable_open() {
    passes(|| -> Result<(), Fail> {
        let alloc = Global;
        let contexts = asked_durable(alloc, 7)?;
        answers(alloc, Answer::Waiting)
            .sends(create(Access::ReadWrite, Share::ReadWrite, contexts))?
            .app(connected(alloc)?, open_all(7, true))?;
        Ok(())
    })
}

#[test]
fn keeps_buffered_writes_over_a_lost_connection() {
    passes(|| -> Result<(), Fail> {
        let alloc = Global;
        let client = after(opened_durable(alloc, 7)?, write(alloc, 0, b"X")?)?;
        let client = answers(alloc, Answer::Quiet).notes(believes(0))?.notice(client)?;
        let client = refuses(client, open_all(7, false), Refusal::Offline)?;
        let contexts = asked_again(alloc, 1)?;
        let client =
            answers(alloc, Answer::Quiet).sends(create(Access::ReadWrite, Share::ReadWrite, contexts))?.connect(client)?;
        refuses(client, open_all(7, false), Refusal::Busy)?;
        Ok(())
    })
}

#[test]
fn sends_kept_writes_again() {
    passes(|| -> Result<(), Fail> {
        let alloc = Global;
        let client = answers(alloc, Answer::Done).notes(believes(7))?.take(reconnecting(alloc)?, created(alloc, 1, 7)?)?;
        answers(alloc, Answer::Waiting)
            .sends(write_request(alloc, 1, 1, 0, b"X")?)?
            .sends(write_request(alloc, 1, 2, 1, b"Y")?)?
            .app(client, Command::Flush { file: FILE })?;
        Ok(())
    })
}

// Without W what was kept is given up, be it that the open came back so or not at all.
#[test]
fn gives_kept_writes_up() {
    passes(|| -> Result<(), Fail> {
        let alloc = Global;
        answers(alloc, Answer::Failed(Status::ObjectNameNotFound))
            .notes(Note::Settled(1, Settlement::Lost))?
            .notes(Note::Settled(2, Settlement::Lost))?
            .take(reconnecting(alloc)?, create_failed(Status::ObjectNameNotFound))?;
        answers(alloc, Answer::Done)
            .notes(Note::Settled(1, Settlement::Lost))?
            .notes(Note::Settled(2, Settlement::Lost))?
            .notes(believes(3))?
            .take(reconnecting(alloc)?, created(alloc, 1, 3)?)?;
        Ok(())
    })
}

// A reply without RqLs gives no belief.
#[test]
fn is_answered_without_a_lease() {
    passes(|| -> Result<(), Fail> {
        let alloc = Global;
        let reply = Reply::Created { file: FILE, fid: FileId(1), contexts: Bytes::new(Vec::new(alloc)) };
        answers(alloc, Answer::Done)
            .notes(Note::Settled(1, Settlement::Lost))?
            .notes(Note::Settled(2, Settlement::Lost))?
            .take(reconnecting(alloc)?, reply)?;
        Ok(())
    })
}

// Under RH no write is kept.
#[test]
fn keeps_no_write_under_reads() {
    passes(|| -> Result<(), Fail> {
        let alloc = Global;
        let client = after(opened_durable(alloc, 3)?, write(alloc, 0, b"X")?)?;
        answers(alloc, Answer::Quiet).notes(Note::Settled(1, Settlement::Unknown))?.notes(believes(0))?.notice(client)?;
        Ok(())
    })
}

// Nor is a base kept.
#[test]
fn keeps_no_base() {
    passes(|| -> Result<(), Fail> {
        let alloc = Global;
        let client = after(opened_durable(alloc, 3)?, read())?;
        let client = told(client, read_done(alloc, 1, b"abc")?)?;
        let client = client.notice()?.client.connect()?.client;
        let client = told(client, created(alloc, 1, 3)?)?;
        answers(alloc, Answer::Waiting).sends(read_request(1))?.app(client, read())?;
        Ok(())
    })
}

#[test]
fn an_open_that_is_not_durable_ends() {
    passes(|| -> Result<(), Fail> {
        let alloc = Global;
        let client = after(opened(alloc, 7)?, write(alloc, 0, b"X")?)?;
        let client =
            answers(alloc, Answer::Quiet).notes(Note::Settled(1, Settlement::Unknown))?.notes(believes(0))?.notice(client)?;
        answers(alloc, Answer::Quiet).connect(client)?;
        Ok(())
    })
}
