use super::words::Ask::{Create, Open, Read, Write};
use super::words::Text::{DurableAnswer, DurableAsk, Leased, Nothing, Reconnect};
use super::words::Told::{Broken, Changed, CreateFailed, Created, Opened, ReadDone, WriteDone};
use super::words::{KEY, LATER_KEY, R, RH, RWH, Text, after, three_joined};
use smblease::proved::lease_state::{Access, ClientNo, FileId, FileNo, Share, Status};
use smblease::proved::share_server::Server;
use smblease_std::alloc::Global;
use smblease_std::test::Fail;
use smblease_std::test::passes;

// An open is durable where that is asked and its lease holds H: not under R, but also under a lease that is
// breaking to nothing, since it still holds H.
#[test]
fn an_open_is_durable_where_its_lease_holds_handles() {
    passes(|| -> Result<(), Fail> {
        let alloc = Global;
        let server = three_joined(alloc)?;
        let given = [Opened(1, 1), Created(1, 1, 1, Leased(KEY, R))];
        let server = after(alloc, server, 1, Open(1, DurableAsk(KEY, R)), &given)?;
        let given = [Opened(1, 1), Created(1, 1, 2, Leased(KEY, RH))];
        let server = after(alloc, server, 1, Open(1, Leased(KEY, RH)), &given)?;
        let given = [Opened(1, 2), Created(2, 1, 3, Nothing)];
        let server = after(alloc, server, 2, Open(1, Nothing), &given)?;
        let done = [Broken(1, KEY, RH, 0), Changed(1, 2, 1, 0, b"X"), WriteDone(2, 3, 1)];
        let server = after(alloc, server, 2, Write(3, 1, 0, b"X"), &done)?;
        let given = [Opened(1, 1), Created(1, 1, 4, DurableAnswer(KEY, RH, 2))];
        let server = after(alloc, server, 1, Open(1, DurableAsk(KEY, RH)), &given)?;
        // The lease is breaking, so not even the durable open outlives the connection.
        let (server, outs) = server.cut(ClientNo(1))?;
        assert!(outs.is_empty());
        assert_eq!(server.kept(ClientNo(1), FileNo(1)), None);
        Ok(())
    })
}

// Client 1 has a durable open under RWH, which outlived its connection, and is connected again.
fn kept_for_its_client(alloc: Global) -> Result<Server, Fail> {
    let server = three_joined(alloc)?;
    let given = [Opened(1, 1), Created(1, 1, 1, DurableAnswer(KEY, RWH, 0))];
    let server = after(alloc, server, 1, Open(1, DurableAsk(KEY, RWH)), &given)?;
    let connected = [CreateFailed(1, 1, Status::ObjectNameNotFound)];
    let server = after(alloc, server, 1, Open(1, Reconnect(KEY, 1)), &connected)?;
    let (server, outs) = server.cut(ClientNo(1))?;
    assert!(outs.is_empty());
    assert_eq!(server.kept(ClientNo(1), FileNo(1)), Some(FileId(1)));
    assert!(!server.is_connected(ClientNo(1)));
    assert!(server.has_left_behind(FileId(1)));
    assert!(!server.has_left_behind(FileId(2)));
    let (server, _) = server.join(ClientNo(1))?;
    Ok(server)
}

// Client, file and contexts of a reconnect: another client, another file, another key, another FileId.
const REFUSED: [(u8, u8, Text); 4] =
    [(2, 1, Reconnect(KEY, 1)), (1, 2, Reconnect(KEY, 1)), (1, 1, Reconnect(LATER_KEY, 1)), (1, 1, Reconnect(KEY, 2))];

#[test]
fn reconnects_are_refused_where_anything_differs() {
    passes(|| -> Result<(), Fail> {
        let alloc = Global;
        let mut server = kept_for_its_client(alloc)?;
        for (client, file, contexts) in REFUSED {
            let refused = [CreateFailed(client, file, Status::ObjectNameNotFound)];
            server = after(alloc, server, client, Open(file, contexts), &refused)?;
        }
        Ok(())
    })
}

// It is connected again as it was, whatever else the create asks for; once more is refused.
#[test]
fn a_kept_open_is_connected_again_once() {
    passes(|| -> Result<(), Fail> {
        let alloc = Global;
        let server = kept_for_its_client(alloc)?;
        let again = [Created(1, 1, 1, Leased(KEY, RWH))];
        let request = Create(1, Access::Read, Share::Nothing, Reconnect(KEY, 1));
        let server = after(alloc, server, 1, request, &again)?;
        let whole = [ReadDone(1, 1, b"abc")];
        let server = after(alloc, server, 1, Read(1), &whole)?;
        let once = [CreateFailed(1, 1, Status::ObjectNameNotFound)];
        let _server = after(alloc, server, 1, Open(1, Reconnect(KEY, 1)), &once)?;
        Ok(())
    })
}

// A connected open is not scavenged. Once its client's connection is lost it is, and can't be connected
// again.
#[test]
fn a_scavenge_closes_a_disconnected_open() {
    passes(|| -> Result<(), Fail> {
        let alloc = Global;
        let server = three_joined(alloc)?;
        let given = [Opened(1, 1), Created(1, 1, 1, DurableAnswer(KEY, RWH, 0))];
        let server = after(alloc, server, 1, Open(1, DurableAsk(KEY, RWH)), &given)?;
        let (server, outs) = server.scavenge(FileId(1))?;
        assert!(outs.is_empty());
        let whole = [ReadDone(1, 1, b"abc")];
        let server = after(alloc, server, 1, Read(1), &whole)?;
        let (server, _) = server.cut(ClientNo(1))?;
        let (server, outs) = server.scavenge(FileId(1))?;
        assert!(outs.is_empty());
        let (server, _) = server.join(ClientNo(1))?;
        let gone = [CreateFailed(1, 1, Status::ObjectNameNotFound)];
        let _server = after(alloc, server, 1, Open(1, Reconnect(KEY, 1)), &gone)?;
        Ok(())
    })
}

// What waits for its client is closed at once where another client's create breaks it.
#[test]
fn a_kept_open_is_closed_by_what_breaks_it() {
    passes(|| -> Result<(), Fail> {
        let alloc = Global;
        let server = three_joined(alloc)?;
        let given = [Opened(1, 1), Created(1, 1, 1, DurableAnswer(KEY, RWH, 0))];
        let server = after(alloc, server, 1, Open(1, DurableAsk(KEY, RWH)), &given)?;
        let (server, _) = server.cut(ClientNo(1))?;
        let given = [Opened(1, 2), Created(2, 1, 2, Leased(KEY, RWH))];
        let server = after(alloc, server, 2, Open(1, Leased(KEY, RWH)), &given)?;
        assert_eq!(server.kept(ClientNo(1), FileNo(1)), None);
        Ok(())
    })
}
