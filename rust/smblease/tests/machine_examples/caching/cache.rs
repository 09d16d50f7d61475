//! One file's life: opened, written and read under RWH, broken and closed.

use crate::caching::setting::{
    FILE, ack, after, answers, asked, believes, break_to, bytes, cached_read, connected, create, created, open_all, opened,
    patch, read, read_done, read_request, told, write, write_done, write_request,
};
use smblease::proved::lease_client::{Answer, Command, Note, Refusal, Settlement};
use smblease::proved::lease_state::{Access, FileId, LeaseState, Request, Share};
use smblease_std::alloc::Global;
use smblease_std::test::Fail;
use smblease_std::test::passes;

#[test]
fn opens_a_file() {
    passes(|| -> Result<(), Fail> {
        let alloc = Global;
        let request = create(Access::ReadWrite, Share::ReadWrite, asked(alloc, 7)?);
        let client = answers(alloc, Answer::Waiting).sends(request)?.app(connected(alloc)?, open_all(7, false))?;
        let client = answers(alloc, Answer::Done).notes(believes(7))?.take(client, created(alloc, 1, 7)?)?;
        assert_eq!(client.belief(FILE), LeaseState::from_wire(7));
        Ok(())
    })
}

#[test]
fn buffers_writes() {
    passes(|| -> Result<(), Fail> {
        let alloc = Global;
        let client = answers(alloc, Answer::Done)
            .notes(Note::Wrote(FILE, 1, patch(alloc, 0, b"X")?, true))?
            .app(opened(alloc, 7)?, write(alloc, 0, b"X")?)?;
        answers(alloc, Answer::Done)
            .notes(Note::Wrote(FILE, 2, patch(alloc, 4, b"Y")?, true))?
            .app(client, write(alloc, 4, b"Y")?)?;
        Ok(())
    })
}

#[test]
fn reads_its_own_writes() {
    passes(|| -> Result<(), Fail> {
        let alloc = Global;
        let client = after(opened(alloc, 7)?, write(alloc, 0, b"X")?)?;
        let client = after(client, write(alloc, 4, b"Y")?)?;
        let client = answers(alloc, Answer::Waiting).sends(read_request(1))?.app(client, read())?;
        let client = answers(alloc, Answer::Bytes(bytes(alloc, b"Xbc\0Y")?, false)).take(client, read_done(alloc, 1, b"abc")?)?;
        answers(alloc, Answer::Bytes(bytes(alloc, b"Xbc\0Y")?, true))
            .notes(cached_read(alloc, b"Xbc\0Y")?)?
            .app(client, read())?;
        Ok(())
    })
}

#[test]
fn flushes_before_it_acknowledges() {
    passes(|| -> Result<(), Fail> {
        let alloc = Global;
        let client = after(opened(alloc, 7)?, write(alloc, 0, b"X")?)?;
        let client = after(client, write(alloc, 4, b"Y")?)?;
        let client = answers(alloc, Answer::Quiet)
            .sends(write_request(alloc, 1, 1, 0, b"X")?)?
            .sends(write_request(alloc, 1, 2, 4, b"Y")?)?
            .sends(ack(3))?
            .notes(believes(3))?
            .take(client, break_to(7, 3, 1))?;
        let client = answers(alloc, Answer::Quiet).notes(Note::Settled(1, Settlement::Done))?.take(client, write_done(1, 1))?;
        answers(alloc, Answer::Quiet).take(client, write_done(1, 1))?;
        Ok(())
    })
}

#[test]
fn a_done_write_stays_in_the_base() {
    passes(|| -> Result<(), Fail> {
        let alloc = Global;
        let client = after(opened(alloc, 3)?, read())?;
        let client = told(client, read_done(alloc, 1, b"abc")?)?;
        let client = answers(alloc, Answer::Waiting)
            .sends(write_request(alloc, 1, 1, 1, b"Y")?)?
            .notes(Note::Wrote(FILE, 1, patch(alloc, 1, b"Y")?, false))?
            .app(client, write(alloc, 1, b"Y")?)?;
        let client = told(client, write_done(1, 1))?;
        answers(alloc, Answer::Bytes(bytes(alloc, b"aYc")?, true)).notes(cached_read(alloc, b"aYc")?)?.app(client, read())?;
        Ok(())
    })
}

// R alone goes without an acknowledgment, and the cache with it.
#[test]
fn a_break_of_reads_drops_the_cache() {
    passes(|| -> Result<(), Fail> {
        let alloc = Global;
        let client = after(opened(alloc, 1)?, read())?;
        let client = told(client, read_done(alloc, 1, b"abc")?)?;
        let client = answers(alloc, Answer::Quiet).notes(believes(0))?.take(client, break_to(1, 0, 0))?;
        answers(alloc, Answer::Waiting).sends(read_request(1))?.app(client, read())?;
        Ok(())
    })
}

// A parked entry that loses its handles closes its open in place of an acknowledgment, and accepts
// no further break.
#[test]
fn a_break_of_handles_closes_a_parked_entry() {
    passes(|| -> Result<(), Fail> {
        let alloc = Global;
        let client = after(opened(alloc, 7)?, write(alloc, 0, b"X")?)?;
        let client = answers(alloc, Answer::Done).app(client, Command::Close { file: FILE })?;
        let client = answers(alloc, Answer::Refused(Refusal::NotOpen)).app(client, read())?;
        let client = answers(alloc, Answer::Quiet)
            .sends(write_request(alloc, 1, 1, 0, b"X")?)?
            .sends(Request::Close { fid: FileId(1) })?
            .notes(believes(0))?
            .take(client, break_to(7, 5, 1))?;
        answers(alloc, Answer::Quiet).take(client, break_to(7, 5, 1))?;
        Ok(())
    })
}

#[test]
fn the_last_close_sends_what_is_unsent() {
    passes(|| -> Result<(), Fail> {
        let alloc = Global;
        let client = after(opened(alloc, 5)?, open_all(7, false))?;
        let client = after(client, write(alloc, 0, b"X")?)?;
        let client = answers(alloc, Answer::Done).app(client, Command::Close { file: FILE })?;
        answers(alloc, Answer::Done)
            .sends(write_request(alloc, 1, 1, 0, b"X")?)?
            .sends(Request::Close { fid: FileId(1) })?
            .notes(believes(0))?
            .app(client, Command::Close { file: FILE })?;
        Ok(())
    })
}
