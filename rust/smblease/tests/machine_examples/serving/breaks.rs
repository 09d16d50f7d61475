use super::words::Ask::{Ack, Close, Create, Open, Read, Write};
use super::words::Text::{Leased, Nothing};
use super::words::Told::{
    AckDone, AckFailed, Broken, Changed, Closed, CreateFailed, Created, Opened, ReadDone, ReadFailed, Taken, WriteDone,
    WriteFailed,
};
use super::words::{KEY, LATER_KEY, R, RH, RWH, after, expect_outs, three_joined};
use smblease::proved::lease_state::{Access, ClientNo, FileNo, Share, Status};
use smblease_std::alloc::Global;
use smblease_std::test::Fail;
use smblease_std::test::passes;

// Client 2 opens before client 1, and client 1 under the later of its two keys before the earlier. A write
// breaks each key once, in the order of the clients and then of the keys' bytes, and goes on.
#[test]
fn a_write_breaks_keys_in_order_and_goes_on() {
    passes(|| -> Result<(), Fail> {
        let alloc = Global;
        let server = three_joined(alloc)?;
        let given = [Opened(1, 2), Created(2, 1, 1, Leased(KEY, RH))];
        let server = after(alloc, server, 2, Open(1, Leased(KEY, RH)), &given)?;
        let given = [Opened(1, 1), Created(1, 1, 2, Leased(LATER_KEY, RH))];
        let server = after(alloc, server, 1, Open(1, Leased(LATER_KEY, RH)), &given)?;
        let given = [Opened(1, 1), Created(1, 1, 3, Leased(KEY, RH))];
        let server = after(alloc, server, 1, Open(1, Leased(KEY, RH)), &given)?;
        let given = [Opened(1, 3), Created(3, 1, 4, Nothing)];
        let server = after(alloc, server, 3, Open(1, Nothing), &given)?;
        let done = [
            Broken(1, KEY, RH, 0),
            Broken(1, LATER_KEY, RH, 0),
            Broken(2, KEY, RH, 0),
            Changed(1, 3, 1, 0, b"X"),
            WriteDone(3, 4, 1),
        ];
        let server = after(alloc, server, 3, Write(4, 1, 0, b"X"), &done)?;
        assert_eq!(server.content(FileNo(1)).ok_or("file 1")?, b"Xbc".as_slice());
        let again = [Changed(1, 3, 2, 4, b"Y"), WriteDone(3, 4, 2)];
        let server = after(alloc, server, 3, Write(4, 2, 4, b"Y"), &again)?;
        let whole = [ReadDone(3, 4, b"Xbc\0Y")];
        let _server = after(alloc, server, 3, Read(4), &whole)?;
        Ok(())
    })
}

// A lease of reads alone is broken at once, before the change, and there is nothing to acknowledge.
#[test]
fn reads_are_broken_at_once() {
    passes(|| -> Result<(), Fail> {
        let alloc = Global;
        let server = three_joined(alloc)?;
        let given = [Opened(1, 1), Created(1, 1, 1, Leased(KEY, R))];
        let request = Create(1, Access::Read, Share::ReadWrite, Leased(KEY, R));
        let server = after(alloc, server, 1, request, &given)?;
        let given = [Opened(1, 2), Created(2, 1, 2, Nothing)];
        let server = after(alloc, server, 2, Open(1, Nothing), &given)?;
        let done = [Taken(1, KEY, R), Changed(1, 2, 1, 0, b"X"), WriteDone(2, 2, 1)];
        let server = after(alloc, server, 2, Write(2, 1, 0, b"X"), &done)?;
        let nothing = [AckFailed(1, Status::Unsuccessful)];
        let _server = after(alloc, server, 1, Ack(KEY, 0), &nothing)?;
        Ok(())
    })
}

// A lease that is breaking from RH to R holds a write. The acknowledgment lets it go: what is left of the
// lease is broken before the change, and the create that broke the handles is refused only then.
#[test]
fn a_break_to_reads_holds_a_write() {
    passes(|| -> Result<(), Fail> {
        let alloc = Global;
        let server = three_joined(alloc)?;
        let given = [Opened(1, 1), Created(1, 1, 1, Leased(KEY, RH))];
        let request = Create(1, Access::Read, Share::ReadWrite, Leased(KEY, RH));
        let server = after(alloc, server, 1, request, &given)?;
        let given = [Opened(1, 3), Created(3, 1, 2, Nothing)];
        let server = after(alloc, server, 3, Open(1, Nothing), &given)?;
        let request = Create(1, Access::Read, Share::Nothing, Nothing);
        let break_sent = [Broken(1, KEY, RH, R)];
        let server = after(alloc, server, 2, request, &break_sent)?;
        let server = after(alloc, server, 3, Write(2, 1, 0, b"X"), &[])?;
        let done = [
            AckDone(1, KEY, R),
            CreateFailed(2, 1, Status::SharingViolation),
            Taken(1, KEY, R),
            Changed(1, 3, 1, 0, b"X"),
            WriteDone(3, 2, 1),
        ];
        let _server = after(alloc, server, 1, Ack(KEY, R), &done)?;
        Ok(())
    })
}

// The create of client 1 waits for two leases, the write of client 2 for one of them, and the close of client
// 2 behind its write. The acknowledgment of client 3 lets a first pass answer the write and the close; a
// second pass finds nobody left who could give up handles, and refuses the create.
#[test]
fn passes_until_one_answers_nothing() {
    passes(|| -> Result<(), Fail> {
        let alloc = Global;
        let server = three_joined(alloc)?;
        let given = [Opened(1, 2), Created(2, 1, 1, Leased(KEY, RH))];
        let server = after(alloc, server, 2, Open(1, Leased(KEY, RH)), &given)?;
        let given = [Opened(1, 3), Created(3, 1, 2, Leased(KEY, RH))];
        let server = after(alloc, server, 3, Open(1, Leased(KEY, RH)), &given)?;
        let breaks = [Broken(2, KEY, RH, R), Broken(3, KEY, RH, R)];
        let request = Create(1, Access::ReadWrite, Share::Nothing, Nothing);
        let server = after(alloc, server, 1, request, &breaks)?;
        let server = after(alloc, server, 2, Write(1, 1, 0, b"X"), &[])?;
        let server = after(alloc, server, 2, Close(1), &[])?;
        let done = [
            AckDone(3, KEY, R),
            Taken(3, KEY, R),
            Changed(1, 2, 1, 0, b"X"),
            WriteDone(2, 1, 1),
            Closed(2, 1),
            CreateFailed(1, 1, Status::SharingViolation),
        ];
        let _server = after(alloc, server, 3, Ack(KEY, R), &done)?;
        Ok(())
    })
}

// Client 1 has RH, and is sent nothing for writes and reads that are denied or end past the limit.
#[test]
fn denied_requests_break_nothing() {
    passes(|| -> Result<(), Fail> {
        let alloc = Global;
        let server = three_joined(alloc)?;
        let given = [Opened(1, 1), Created(1, 1, 1, Leased(KEY, RH))];
        let server = after(alloc, server, 1, Open(1, Leased(KEY, RH)), &given)?;
        let given = [Opened(1, 2), Created(2, 1, 2, Nothing)];
        let request = Create(1, Access::Read, Share::ReadWrite, Nothing);
        let server = after(alloc, server, 2, request, &given)?;
        let denied = [WriteFailed(2, 2, 1, Status::AccessDenied)];
        let server = after(alloc, server, 2, Write(2, 1, 0, b"X"), &denied)?;
        let given = [Opened(1, 2), Created(2, 1, 3, Nothing)];
        let request = Create(1, Access::Write, Share::ReadWrite, Nothing);
        let server = after(alloc, server, 2, request, &given)?;
        let denied = [ReadFailed(2, 3, Status::AccessDenied)];
        let server = after(alloc, server, 2, Read(3), &denied)?;
        let too_long = [WriteFailed(2, 3, 2, Status::InvalidParameter)];
        let server = after(alloc, server, 2, Write(3, 2, 1_048_576, b"X"), &too_long)?;
        let too_long = [WriteFailed(2, 3, 3, Status::InvalidParameter)];
        let _server = after(alloc, server, 2, Write(3, 3, 1_048_577, b""), &too_long)?;
        Ok(())
    })
}

// The timer of a break runs out, and the create that waited for it is answered. From then on the key is
// granted nothing, until its client has connected again.
#[test]
fn an_expired_key_is_granted_nothing_until_its_client_joins() {
    passes(|| -> Result<(), Fail> {
        let alloc = Global;
        let server = three_joined(alloc)?;
        let given = [Opened(1, 1), Created(1, 1, 1, Leased(KEY, RWH))];
        let server = after(alloc, server, 1, Open(1, Leased(KEY, RWH)), &given)?;
        let break_sent = [Broken(1, KEY, RWH, RH)];
        let server = after(alloc, server, 2, Open(1, Nothing), &break_sent)?;
        let (server, outs) = server.expire(ClientNo(1), LATER_KEY)?;
        assert!(outs.is_empty());
        let (server, outs) = server.expire(ClientNo(1), KEY)?;
        let given = [Opened(1, 2), Created(2, 1, 2, Nothing)];
        expect_outs(alloc, outs.as_slice(), &given)?;
        let (server, outs) = server.cut(ClientNo(2))?;
        assert!(outs.is_empty());
        let given = [Opened(1, 1), Created(1, 1, 3, Leased(KEY, 0))];
        let server = after(alloc, server, 1, Open(1, Leased(KEY, RWH)), &given)?;
        let (server, _) = server.cut(ClientNo(1))?;
        let (server, _) = server.join(ClientNo(1))?;
        let given = [Opened(1, 1), Created(1, 1, 4, Leased(KEY, RWH))];
        let _server = after(alloc, server, 1, Open(1, Leased(KEY, RWH)), &given)?;
        Ok(())
    })
}
