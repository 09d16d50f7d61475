//! What replies do, and why commands are refused.

use crate::caching::setting::{
    FILE, ack, after, answers, believes, break_to, connected, create_failed, created, created_in_break, open_all, opened,
    opened_as, read, read_done, refuses, told, write, write_failed, write_request,
};
use smblease::proved::lease_client::{Answer, Command, Note, Refusal, Settlement};
use smblease::proved::lease_state::{Access, Bytes, FileId, FileNo, LeaseState, Reply, Status};
use smblease_std::alloc::Global;
use smblease_std::prelude::Vec;
use smblease_std::test::Fail;
use smblease_std::test::passes;

#[test]
fn a_file_that_is_not_open_hears_an_open() {
    passes(|| -> Result<(), Fail> {
        let alloc = Global;
        refuses(connected(alloc)?, read(), Refusal::NotOpen)?;
        let opening = after(connected(alloc)?, open_all(7, false))?;
        refuses(opening, open_all(7, false), Refusal::Busy)?;
        let unknown = Command::Flush { file: FileNo(2) };
        refuses(opened(alloc, 7)?, unknown, Refusal::NotOpen)?;
        Ok(())
    })
}

#[test]
fn access_goes_before_length() {
    passes(|| -> Result<(), Fail> {
        let alloc = Global;
        refuses(opened_as(alloc, Access::Write, 7)?, read(), Refusal::Denied)?;
        let long = write(alloc, 4_294_967_295, b"X")?;
        refuses(opened_as(alloc, Access::Read, 7)?, long, Refusal::Denied)?;
        let long = write(alloc, 1_048_576, b"X")?;
        refuses(opened(alloc, 7)?, long, Refusal::TooLong)?;
        let empty = write(alloc, 1_048_577, b"")?;
        refuses(opened(alloc, 7)?, empty, Refusal::TooLong)?;
        Ok(())
    })
}

#[test]
fn the_last_handle_waits_for_answers() {
    passes(|| -> Result<(), Fail> {
        let alloc = Global;
        let reading = after(opened(alloc, 1)?, read())?;
        refuses(reading, Command::Close { file: FILE }, Refusal::Busy)?;
        let writing = after(opened(alloc, 1)?, write(alloc, 0, b"X")?)?;
        refuses(writing, Command::Close { file: FILE }, Refusal::Busy)?;
        Ok(())
    })
}

#[test]
fn a_break_in_progress_grants_nothing() {
    passes(|| -> Result<(), Fail> {
        let alloc = Global;
        let client = after(connected(alloc)?, open_all(7, false))?;
        let client = answers(alloc, Answer::Done).take(client, created_in_break(alloc, 1, 7)?)?;
        assert_eq!(client.belief(FILE), LeaseState::NONE);
        Ok(())
    })
}

#[test]
fn a_refused_create_closes_the_entry() {
    passes(|| -> Result<(), Fail> {
        let alloc = Global;
        let client = after(connected(alloc)?, open_all(7, false))?;
        let client =
            answers(alloc, Answer::Failed(Status::SharingViolation)).take(client, create_failed(Status::SharingViolation))?;
        refuses(client, Command::Close { file: FILE }, Refusal::NotOpen)?;
        Ok(())
    })
}

// The open is gone: what was sent has failed, and so has what wasn't.
#[test]
fn file_closed_fails_every_write() {
    passes(|| -> Result<(), Fail> {
        let alloc = Global;
        let client = after(opened(alloc, 7)?, write(alloc, 0, b"X")?)?;
        let client = answers(alloc, Answer::Waiting)
            .sends(write_request(alloc, 1, 1, 0, b"X")?)?
            .app(client, Command::Flush { file: FILE })?;
        let client = after(client, write(alloc, 1, b"Y")?)?;
        let client = answers(alloc, Answer::Failed(Status::FileClosed))
            .notes(Note::Settled(1, Settlement::Failed))?
            .notes(Note::Settled(2, Settlement::Failed))?
            .notes(believes(0))?
            .take(client, write_failed(1, 1, Status::FileClosed))?;
        refuses(client, Command::Flush { file: FILE }, Refusal::NotOpen)?;
        Ok(())
    })
}

// Another status, or FILE_CLOSED of another FileId, leaves the open as it is.
#[test]
fn a_failed_write_leaves_the_open() {
    passes(|| -> Result<(), Fail> {
        let alloc = Global;
        for (fid, status) in [(1, Status::AccessDenied), (2, Status::FileClosed)] {
            let client = after(opened(alloc, 1)?, write(alloc, 0, b"X")?)?;
            let client = answers(alloc, Answer::Failed(status))
                .notes(Note::Settled(1, Settlement::Failed))?
                .take(client, write_failed(fid, 1, status))?;
            assert_eq!(client.belief(FILE), LeaseState::READ_CACHING);
        }
        Ok(())
    })
}

#[test]
fn a_failed_read_is_answered_once() {
    passes(|| -> Result<(), Fail> {
        let alloc = Global;
        let client = after(opened(alloc, 1)?, read())?;
        let failed = Reply::ReadFailed { fid: FileId(1), status: Status::AccessDenied };
        let client = answers(alloc, Answer::Failed(Status::AccessDenied)).take(client, failed)?;
        answers(alloc, Answer::Quiet).take(client, read_done(alloc, 1, b"abc")?)?;
        Ok(())
    })
}

// What fits no entry is passed over: another file, a second create, another FileId, bytes that
// can't be read.
#[test]
fn passes_over_what_fits_nothing() {
    passes(|| -> Result<(), Fail> {
        let alloc = Global;
        let mut strange = Vec::new(alloc);
        strange.push(Reply::Created { file: FileNo(9), fid: FileId(1), contexts: Bytes::new(Vec::new(alloc)) })?;
        strange.push(created(alloc, 2, 7)?)?;
        strange.push(read_done(alloc, 2, b"abc")?)?;
        strange.push(Reply::Break([0; 44]))?;
        strange.push(Reply::Closed { fid: FileId(1) })?;
        strange.push(Reply::AckDone([0; 36]))?;
        for reply in strange {
            let client = answers(alloc, Answer::Quiet).take(opened(alloc, 7)?, reply)?;
            assert_eq!(client.belief(FILE), LeaseState::from_wire(7));
        }
        Ok(())
    })
}

#[test]
fn hears_a_break_only_while_it_is_live() {
    passes(|| -> Result<(), Fail> {
        let alloc = Global;
        answers(alloc, Answer::Quiet).take(connected(alloc)?, break_to(7, 3, 1))?;
        let opening = after(connected(alloc)?, open_all(7, false))?;
        answers(alloc, Answer::Quiet).take(opening, break_to(7, 3, 1))?;
        Ok(())
    })
}

// The belief goes down to what it has in common with the notification.
#[test]
fn a_break_leaves_what_both_have() {
    passes(|| -> Result<(), Fail> {
        let alloc = Global;
        answers(alloc, Answer::Quiet).sends(ack(1))?.notes(believes(1))?.take(opened(alloc, 3)?, break_to(7, 5, 1))?;
        Ok(())
    })
}

// A second handle on the same terms needs no message.
#[test]
fn opens_one_file_twice() {
    passes(|| -> Result<(), Fail> {
        let alloc = Global;
        let client = answers(alloc, Answer::Done).app(opened(alloc, 3)?, open_all(0, true))?;
        let client = answers(alloc, Answer::Done).app(client, Command::Close { file: FILE })?;
        let client = told(client, created(alloc, 9, 7)?)?;
        assert_eq!(client.belief(FILE), LeaseState::from_wire(3));
        Ok(())
    })
}
