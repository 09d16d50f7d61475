use super::words::Ask::{Ack, Close, Create, NoAck, Open, Write};
use super::words::Text::{Bits, Leased, Nothing};
use super::words::Told::{AckDone, AckFailed, Broken, CloseFailed, Closed, CreateFailed, Created, Opened, WriteFailed};
use super::words::{KEY, R, RH, RWH, after, expect_outs, three_joined, two_files};
use smblease::proved::lease_state::{Access, ClientNo, FileNo, LeaseKey, LeaseState, Share, Status};
use smblease::proved::share_server::Server;
use smblease_std::alloc::Global;
use smblease_std::test::Fail;
use smblease_std::test::passes;

fn allowed(server: &Server, client: u8, key: Option<LeaseKey>) -> LeaseState {
    server.allowed(ClientNo(client), key, FileNo(1), LeaseState::from_wire(7))
}

// Client 1 has RWH; client 2 opens for reading, which breaks that to RH, and waits for the
// acknowledgment.
fn shared(alloc: Global) -> Result<Server, Fail> {
    let server = three_joined(alloc)?;
    let server = after(alloc, server, 1, Open(1, Leased(KEY, RWH)), &[Opened(1, 1), Created(1, 1, 1, Leased(KEY, RWH))])?;
    let server = after(alloc, server, 2, Create(1, Access::Read, Share::ReadWrite, Nothing), &[Broken(1, KEY, RWH, RH)])?;
    assert!(server.breaking(ClientNo(1), KEY));
    let server = after(alloc, server, 1, Ack(KEY, RH), &[AckDone(1, KEY, RH), Opened(1, 2), Created(2, 1, 2, Nothing)])?;
    assert!(!server.breaking(ClientNo(1), KEY));
    Ok(server)
}

#[test]
fn one_list_of_opens() {
    passes(|| -> Result<(), Fail> {
        let alloc = Global;
        let server = shared(alloc)?;
        assert_eq!(allowed(&server, 1, Some(KEY)), LeaseState::from_wire(3));
        let server = after(alloc, server, 2, Write(2, 1, 0, b"Y"), &[WriteFailed(2, 2, 1, Status::AccessDenied)])?;
        let server = after(alloc, server, 2, Close(2), &[Closed(2, 2)])?;
        let failed = [CloseFailed(2, 2, Status::FileClosed)];
        let server = after(alloc, server, 2, Close(2), &failed)?;
        let server = after(alloc, server, 1, Open(1, Leased(KEY, RWH)), &[Opened(1, 1), Created(1, 1, 3, Leased(KEY, RWH))])?;
        let elsewhere = [CreateFailed(1, 2, Status::InvalidParameter)];
        let server = after(alloc, server, 1, Open(2, Leased(KEY, RWH)), &elsewhere)?;
        let unknown = [CreateFailed(1, 3, Status::ObjectNameNotFound)];
        let server = after(alloc, server, 1, Open(3, Leased(KEY, RWH)), &unknown)?;
        only_the_key_may_cache_writes(alloc, server)
    })
}

// While client 1 has opens under its key, others may have no `WRITE_CACHING`; once they are closed anybody
// may.
fn only_the_key_may_cache_writes(alloc: Global, server: Server) -> Result<(), Fail> {
    assert_eq!(allowed(&server, 1, Some(KEY)), LeaseState::from_wire(7));
    assert_eq!(allowed(&server, 2, None), LeaseState::from_wire(3));
    let server = after(alloc, server, 1, Close(1), &[Closed(1, 1)])?;
    assert_eq!(allowed(&server, 1, Some(KEY)), LeaseState::from_wire(7));
    assert_eq!(allowed(&server, 2, None), LeaseState::from_wire(3));
    let server = after(alloc, server, 1, Close(3), &[Closed(1, 3)])?;
    assert_eq!(allowed(&server, 2, None), LeaseState::from_wire(7));
    Ok(())
}

#[test]
fn acknowledgments_of_a_breaking_lease() {
    passes(|| -> Result<(), Fail> {
        let alloc = Global;
        let server = three_joined(alloc)?;
        let given = [Opened(1, 1), Created(1, 1, 1, Leased(KEY, RWH))];
        let server = after(alloc, server, 1, Open(1, Leased(KEY, RWH)), &given)?;
        let break_sent = [Broken(1, KEY, RWH, RH)];
        let server = after(alloc, server, 2, Open(1, Leased(KEY, RWH)), &break_sent)?;
        let above = [AckFailed(1, Status::RequestNotAccepted)];
        let server = after(alloc, server, 1, Ack(KEY, RWH), &above)?;
        let unreadable = [AckFailed(1, Status::InvalidParameter)];
        let server = after(alloc, server, 1, NoAck, &unreadable)?;
        let unknown = [AckFailed(1, Status::ObjectNameNotFound)];
        let server = after(alloc, server, 1, Ack(LeaseKey([9; 16]), RH), &unknown)?;
        let done = [AckDone(1, KEY, RH), Opened(1, 2), Created(2, 1, 2, Leased(KEY, RH))];
        let server = after(alloc, server, 1, Ack(KEY, RH), &done)?;
        let again = [AckFailed(1, Status::Unsuccessful)];
        let _server = after(alloc, server, 1, Ack(KEY, RH), &again)?;
        Ok(())
    })
}

const ODD_STATES: [([u8; 4], u8); 5] =
    [([2, 0, 0, 0], 0), ([4, 0, 0, 0], 0), ([6, 0, 0, 0], 0), ([5, 0, 0, 0], 5), ([0xff, 0xff, 0xff, 0xff], RWH)];

#[test]
fn grants_of_odd_states() {
    passes(|| -> Result<(), Fail> {
        let alloc = Global;
        for (bits, given) in ODD_STATES {
            let (server, _) = two_files(alloc)?.join(ClientNo(1))?;
            let wanted = [Opened(1, 1), Created(1, 1, 1, Leased(KEY, given))];
            let _server = after(alloc, server, 1, Open(1, Bits(KEY, bits)), &wanted)?;
        }
        Ok(())
    })
}

// Client 1 has RWH on both files. Client 2 waits on the second, then client 3 on the first; once client 1
// is gone the first file comes first.
#[test]
fn files_in_the_order_of_their_numbers() {
    passes(|| -> Result<(), Fail> {
        let alloc = Global;
        let other = LeaseKey([7; 16]);
        let server = three_joined(alloc)?;
        let first = [Opened(1, 1), Created(1, 1, 1, Leased(KEY, RWH))];
        let server = after(alloc, server, 1, Open(1, Leased(KEY, RWH)), &first)?;
        let second = [Opened(2, 1), Created(1, 2, 2, Leased(other, RWH))];
        let server = after(alloc, server, 1, Open(2, Leased(other, RWH)), &second)?;
        let break_sent = [Broken(1, other, RWH, RH)];
        let server = after(alloc, server, 2, Open(2, Leased(KEY, R)), &break_sent)?;
        let break_sent = [Broken(1, KEY, RWH, RH)];
        let server = after(alloc, server, 3, Open(1, Leased(KEY, R)), &break_sent)?;
        let (server, outs) = server.cut(ClientNo(1))?;
        let wanted = [Opened(1, 3), Created(3, 1, 3, Leased(KEY, R)), Opened(2, 2), Created(2, 2, 4, Leased(KEY, R))];
        expect_outs(alloc, outs.as_slice(), &wanted)?;
        let (_server, outs) = server.cut(ClientNo(1))?;
        assert!(outs.is_empty());
        Ok(())
    })
}

#[test]
fn nobody_hears_a_client_that_is_not_connected() {
    passes(|| -> Result<(), Fail> {
        let alloc = Global;
        let server = two_files(alloc)?;
        let server = after(alloc, server, 1, Open(1, Nothing), &[])?;
        let _server = after(alloc, server, 1, Ack(KEY, RH), &[])?;
        Ok(())
    })
}
