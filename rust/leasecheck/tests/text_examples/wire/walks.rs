//! Captures of two clients, as the notes of their messages, and what they show of leases.

use crate::wire::KEY;
use leasecheck::proved::capture_judge::{Change, Charge, Level, Placing, judge_placing};
use leasecheck::proved::capture_walk::{
    Asked, BreakNote, CreateAsked, CreateGiven, Event, Frame, FrameFault, Index, KeyLevel, LeaseGiven, Loss, NotJudged, Note,
    OpenName, Seen, TreeAsked, TreeGiven, Walk, chains_on, closed_behind, ids_of, level_of, note_of, read_frame,
};
use smblease::proved::capture_wire::{Guid, Smb2FileId};
use smblease::proved::lease_state::{LeaseKey, LeaseState, Memory};
use smblease::proved::lease_wire::WireFault;
use smblease_std::alloc::Global;
use smblease_std::prelude::Vec;
use smblease_std::test::Fail;
use smblease_std::test::passes;

// The client at each end of a connection has a key and a session of its own, both by the connection's number.
pub(super) fn key(connection: u8) -> LeaseKey {
    let mut key = KEY;
    key.0[0] = connection;
    key
}

// A state of that level.
pub(super) fn state_at(level: Level) -> LeaseState {
    LeaseState::from_wire(match level {
        Level::Nothing => 0,
        Level::Something => 1,
        Level::Writes => 5,
    })
}

pub(super) fn open_name(id: u64, connection: u8) -> OpenName {
    OpenName { id, session: u64::from(connection), file_id: Smb2FileId { persistent: u64::from(connection), volatile: 5 } }
}

// A message with a number: its client sent it just before the position that is twice that, and the server at it.
pub(super) fn seen<'a>(number: u64, connection: u8, note: Note<'a>) -> Seen<'a> {
    let position = number.saturating_mul(2);
    let at = match note {
        Note::TreeGiven(_) | Note::CreateGiven(_) | Note::Break(_) | Note::Done(_) => position,
        _ => position.saturating_sub(1),
    };
    Seen { number, connection: u64::from(connection), server: 1, earliest: at, latest: at, note }
}

// A client connects.
pub(super) fn join(walk: &mut Walk, number: u64, connection: u8, client: u8) -> Result<(), Memory> {
    let mut guid = Guid(*b"guid of a client");
    guid.0[0] = client;
    walk.take(&seen(number, connection, Note::Negotiate(guid)))
}

// A client connects, and asks for a lease on a file: four messages from a number on.
pub(super) fn ask(walk: &mut Walk, number: u64, connection: u8, name: &[u8]) -> Result<(), Memory> {
    join(walk, number, connection, connection)?;
    let asked = TreeAsked { id: 1, path: b"\\\0s\0" };
    walk.take(&seen(number.saturating_add(1), connection, Note::TreeAsked(asked)))?;
    let given = TreeGiven { id: 1, session: u64::from(connection), tree: 7 };
    walk.take(&seen(number.saturating_add(2), connection, Note::TreeGiven(given)))?;
    let asked = CreateAsked { id: 2, tree: 7, name, key: Some(key(connection)), unnamed: false, closes: false, application: None };
    walk.take(&seen(number.saturating_add(3), connection, Note::CreateAsked(asked)))
}

// The server grants it.
pub(super) fn grant(walk: &mut Walk, number: u64, connection: u8, level: Level) -> Result<(), Memory> {
    grant_numbered(walk, number, connection, level, None)
}

// The same with an epoch, where the lease is of version 2.
fn grant_numbered(walk: &mut Walk, number: u64, connection: u8, level: Level, epoch: Option<u16>) -> Result<(), Memory> {
    let name = open_name(0, connection);
    let lease = LeaseGiven { key: key(connection), state: state_at(level), level, breaking: false, epoch };
    let given = CreateGiven {
        id: 2,
        session: name.session,
        file_id: name.file_id,
        is_new: false,
        creation_time: 0,
        on_disk: None,
        lease: Some(lease),
    };
    walk.take(&seen(number, connection, Note::CreateGiven(given)))
}

// The client uses what it opened, so that it has the lease.
pub(super) fn ask_by_open(walk: &mut Walk, number: u64, connection: u8) -> Result<(), Memory> {
    walk.take(&seen(number, connection, Note::OnOpen(open_name(number, connection))))
}

// The server does what a request asks that had the number as its MessageId.
pub(super) fn answer(walk: &mut Walk, number: u64, connection: u8, id: u64) -> Result<(), Memory> {
    walk.take(&seen(number, connection, Note::Done(id)))
}

// The client uses what it opened, and the server does what it asks: two messages from a number on.
pub(super) fn use_open(walk: &mut Walk, number: u64, connection: u8) -> Result<(), Memory> {
    ask_by_open(walk, number, connection)?;
    answer(walk, number.saturating_add(1), connection, number)
}

fn certain(level: Level, first: u64, last: u64) -> Change {
    Change { level, first, last: Some(last) }
}

fn possible(level: Level, first: u64) -> Change {
    Change { level, first, last: None }
}

// The changes of the only lease on a file.
fn only_chain(alloc: Global, walk: &Walk, file: u64) -> Result<Option<Vec<Change>>, Memory> {
    let mut chains = chains_on(alloc, file, walk.events(), &Index::of(alloc, walk.events())?)?;
    if chains.len() != 1 {
        return Ok(None);
    }
    Ok(chains.pop().map(|chain| chain.changes))
}

// A file that one client writes and another reads, without a break between: both have their leases by 25, and the server does what
// both ask after that.
#[test]
fn a_lease_beside_a_writers_is_unsafe() {
    passes(|| -> Result<(), Fail> {
        let alloc = Global;
        let mut walk = Walk::new(alloc);
        ask(&mut walk, 1, 1, b"f\0")?;
        grant(&mut walk, 5, 1, Level::Writes)?;
        use_open(&mut walk, 6, 1)?;
        ask(&mut walk, 8, 2, b"f\0")?;
        grant(&mut walk, 12, 2, Level::Something)?;
        use_open(&mut walk, 13, 2)?;
        use_open(&mut walk, 15, 1)?;
        assert_eq!(Index::of(alloc, walk.events())?.files(), [5].as_slice());
        let name = walk.place_of(5).map(|place| place.name);
        assert_eq!(name, Some(b"f\0".as_slice()));
        let chains = chains_on(alloc, 5, walk.events(), &Index::of(alloc, walk.events())?)?;
        let placing = judge_placing(alloc, &chains)?;
        assert!(matches!(placing, Placing::Unsafe(Charge { position: 25, .. })));
        Ok(())
    })
}

// The same of two files: neither client has a lease on the other's.
#[test]
fn names_tell_files_apart() {
    passes(|| -> Result<(), Fail> {
        let alloc = Global;
        let mut walk = Walk::new(alloc);
        ask(&mut walk, 1, 1, b"f\0")?;
        grant(&mut walk, 5, 1, Level::Writes)?;
        ask(&mut walk, 7, 2, b"F\0")?;
        grant(&mut walk, 11, 2, Level::Something)?;
        assert_eq!(Index::of(alloc, walk.events())?.files(), [5, 11].as_slice());
        Ok(())
    })
}

// The writer's lease is broken to R, and the break is acknowledged, before the reader gets its lease.
#[test]
fn a_break_makes_room() {
    passes(|| -> Result<(), Fail> {
        let alloc = Global;
        let mut walk = Walk::new(alloc);
        ask(&mut walk, 1, 1, b"f\0")?;
        grant(&mut walk, 5, 1, Level::Writes)?;
        use_open(&mut walk, 6, 1)?;
        ask(&mut walk, 8, 2, b"f\0")?;
        walk.take(&seen(12, 1, break_to(Level::Something, 0)))?;
        walk.take(&seen(13, 1, keeps(13, Level::Something)))?;
        answer(&mut walk, 14, 1, 13)?;
        grant(&mut walk, 15, 2, Level::Something)?;
        use_open(&mut walk, 16, 2)?;
        use_open(&mut walk, 18, 1)?;
        let chains = chains_on(alloc, 5, walk.events(), &Index::of(alloc, walk.events())?)?;
        assert!(matches!(judge_placing(alloc, &chains)?, Placing::Clean(_)));
        Ok(())
    })
}

// The grant counts from 10 on, and up to the use at 11; the CLOSE at 15 ends it, and shows that the open was there until then.
#[test]
fn the_last_close_ends_a_lease() {
    passes(|| -> Result<(), Fail> {
        let alloc = Global;
        let mut walk = Walk::new(alloc);
        ask(&mut walk, 1, 1, b"f\0")?;
        grant(&mut walk, 5, 1, Level::Writes)?;
        use_open(&mut walk, 6, 1)?;
        walk.take(&seen(8, 1, Note::Close(open_name(8, 1))))?;
        answer(&mut walk, 9, 1, 8)?;
        let wanted = [certain(Level::Writes, 10, 11), possible(Level::Nothing, 15), certain(Level::Nothing, 15, 15)];
        let changes = only_chain(alloc, &walk, 5)?;
        assert!(changes.is_some_and(|changes| changes.as_slice() == wanted.as_slice()));
        Ok(())
    })
}

// A break that nobody acknowledges: the lease may be lost since the last request that the server did before it, at 11.
#[test]
fn a_break_that_is_not_acknowledged_is_a_doubt() {
    passes(|| -> Result<(), Fail> {
        let alloc = Global;
        let mut walk = Walk::new(alloc);
        ask(&mut walk, 1, 1, b"f\0")?;
        grant(&mut walk, 5, 1, Level::Writes)?;
        use_open(&mut walk, 6, 1)?;
        walk.take(&seen(8, 1, break_to(Level::Something, 0)))?;
        use_open(&mut walk, 9, 1)?;
        let wanted = [certain(Level::Writes, 10, 11), possible(Level::Nothing, 11)];
        let changes = only_chain(alloc, &walk, 5)?;
        assert!(changes.is_some_and(|changes| changes.as_slice() == wanted.as_slice()));
        Ok(())
    })
}

// What a gap may hide isn't held against anybody, and what a name leads to after a rename isn't known.
#[test]
fn gaps_and_renames_are_not_judged() {
    passes(|| -> Result<(), Fail> {
        let alloc = Global;
        let mut walk = Walk::new(alloc);
        ask(&mut walk, 1, 1, b"f\0")?;
        grant(&mut walk, 5, 1, Level::Writes)?;
        walk.take(&seen(6, 1, Note::RenameAsked(9)))?;
        ask(&mut walk, 7, 2, b"f\0")?;
        grant(&mut walk, 11, 2, Level::Something)?;
        assert_eq!(Index::of(alloc, walk.events())?.files(), [5, 11].as_slice());
        walk.take(&seen(12, 1, Note::Gap))?;
        let loss = Loss { client: 1, since: 10, reason: NotJudged::Missing };
        assert_eq!(walk.events().last(), Some(&Event::Lost(loss)));
        let wanted = [possible(Level::Writes, 10), possible(Level::Nothing, 10)];
        let changes = only_chain(alloc, &walk, 5)?;
        assert!(changes.is_some_and(|changes| changes.as_slice() == wanted.as_slice()));
        Ok(())
    })
}

// A frame of a CREATE and a related CLOSE, by the FileId that means the one before it: what they open is closed.
#[test]
fn compounds_go_by_the_ids_of_the_first() {
    passes(|| -> Result<(), Fail> {
        let alloc = Global;
        let mut bytes = Vec::from_slice(alloc, b"\xfeSMB\x40\0\0\0\0\0\0\0\x05\0\0\0\0\0\0\0\x78\0\0\0")?;
        bytes.extend_from_slice(b"\0\0\0\0\0\0\0\0\0\0\0\0\x07\0\0\0\x03\0\0\0\0\0\0\0")?;
        bytes.extend_from_slice(&[0; 16])?;
        bytes.extend_from_slice(b"\x39\0")?;
        bytes.extend_from_slice(&[0; 54])?;
        bytes.extend_from_slice(b"\xfeSMB\x40\0\0\0\0\0\0\0\x06\0\0\0\x04\0\0\0\0\0\0\0")?;
        bytes.extend_from_slice(&[0; 40])?;
        bytes.extend_from_slice(b"\x18\0\0\0\0\0\0\0")?;
        bytes.extend_from_slice(&[0xff; 16])?;
        let messages = read_frame(alloc, &bytes)?;
        assert_eq!(messages.len(), 2);
        let Some((first, later)) = messages.split_first() else {
            return Ok(());
        };
        let ids = ids_of(first, None);
        assert_eq!(ids.session, 3);
        assert!(closed_behind(later));
        for message in later {
            let related = ids_of(message, Some(ids));
            assert_eq!(related, ids);
            assert!(matches!(note_of(message, related, false), Note::Other));
        }
        Ok(())
    })
}

// The same, as they are taken, and where the frame is cut off.
#[test]
fn frames_are_taken_whole() {
    passes(|| -> Result<(), Fail> {
        let alloc = Global;
        let mut bytes = Vec::from_slice(alloc, b"\xfeSMB\x40\0\0\0\0\0\0\0\x06\0\0\0\0\0\0\0\0\0\0\0")?;
        bytes.extend_from_slice(&[0; 40])?;
        bytes.extend_from_slice(b"\x18\0\0\0\0\0\0\0")?;
        bytes.extend_from_slice(&[1; 16])?;
        let messages = read_frame(alloc, &bytes)?;
        assert_eq!(level_of(LeaseState::from_wire(3)), Level::Something);

        let mut walk = Walk::new(alloc);
        let frame = Frame { number: 1, connection: 1, server: 1, earliest: 1, latest: 1 };
        walk.take_frame(&frame, &messages)?;
        let asked = Asked { lease: None, opened: 0, connection: 1, id: 0, position: 1 };
        assert_eq!(walk.events(), [Event::Asked(asked)].as_slice());
        assert!(walk.place_of(1).is_none());
        let cut = Vec::from_slice(alloc, b"\xfeSMB\x40")?;
        let short = FrameFault::Header(WireFault::Short(0));
        assert_eq!(read_frame(alloc, &cut).err(), Some(short));
        Ok(())
    })
}

// The grant at 10 isn't used, but the break that follows it is acknowledged at 13, and that is accepted. Before it is accepted
// nothing is sure.
#[test]
fn an_acknowledgment_shows_what_was_taken() {
    passes(|| -> Result<(), Fail> {
        let alloc = Global;
        let mut walk = Walk::new(alloc);
        ask(&mut walk, 1, 1, b"f\0")?;
        grant(&mut walk, 5, 1, Level::Writes)?;
        walk.take(&seen(6, 1, break_to(Level::Something, 0)))?;
        walk.take(&seen(7, 1, keeps(7, Level::Something)))?;
        let changes = only_chain(alloc, &walk, 5)?;
        let wanted = [possible(Level::Writes, 10)];
        assert!(changes.is_some_and(|changes| changes.as_slice() == wanted.as_slice()));
        answer(&mut walk, 8, 1, 7)?;
        let wanted = [
            certain(Level::Writes, 10, 13),
            possible(Level::Nothing, 13),
            certain(Level::Something, 12, 13),
            possible(Level::Nothing, 13),
        ];
        let changes = only_chain(alloc, &walk, 5)?;
        assert!(changes.is_some_and(|changes| changes.as_slice() == wanted.as_slice()));
        Ok(())
    })
}

// The first client's acknowledgment of a break.
pub(super) fn keeps<'a>(id: u64, level: Level) -> Note<'a> {
    Note::Acknowledge(KeyLevel { id, key: key(1), level })
}

// A break of the first client's lease.
pub(super) fn break_to<'a>(level: Level, epoch: u16) -> Note<'a> {
    Note::Break(BreakNote { key: key(1), state: state_at(level), level, acknowledged: true, epoch })
}

fn is_dispute(event: &Event) -> bool {
    matches!(event, Event::Lost(loss) if loss.reason == NotJudged::Disputed)
}

// A client of two connections: the break at 7 comes after the grant by its epoch, and the one at 8 may have come before it.
#[test]
fn epochs_order_connections() {
    passes(|| -> Result<(), Fail> {
        let mut walk = Walk::new(Global);
        ask(&mut walk, 1, 1, b"f\0")?;
        grant_numbered(&mut walk, 5, 1, Level::Writes, Some(65535))?;
        join(&mut walk, 6, 2, 1)?;
        walk.take(&seen(7, 2, break_to(Level::Something, 0)))?;
        assert!(!walk.events().iter().any(is_dispute));
        let last = walk.events().last();
        assert!(matches!(last, Some(Event::Broken(broken)) if broken.epoch == Some(0)));
        walk.take(&seen(8, 1, break_to(Level::Nothing, 65535)))?;
        assert!(walk.events().iter().any(is_dispute));
        Ok(())
    })
}

// Without epochs a break over another connection has no place.
#[test]
fn leases_of_version_1_have_no_order_between_connections() {
    passes(|| -> Result<(), Fail> {
        let mut walk = Walk::new(Global);
        ask(&mut walk, 1, 1, b"f\0")?;
        grant(&mut walk, 5, 1, Level::Writes)?;
        join(&mut walk, 6, 2, 1)?;
        walk.take(&seen(7, 2, break_to(Level::Something, 0)))?;
        assert!(walk.events().iter().any(is_dispute));
        Ok(())
    })
}

// A break on the grant's connection that has the grant's epoch: its order is known, and its number is wrong.
#[test]
fn an_epoch_that_does_not_follow_on_is_shown() {
    passes(|| -> Result<(), Fail> {
        let mut walk = Walk::new(Global);
        ask(&mut walk, 1, 1, b"f\0")?;
        grant_numbered(&mut walk, 5, 1, Level::Writes, Some(3))?;
        walk.take(&seen(6, 1, break_to(Level::Something, 3)))?;
        let shown = |event: &Event| {
            matches!(
                event,
                Event::Misnumbered(one) if one.before == 3 && one.epoch == 3 && one.position == 12
            )
        };
        assert!(walk.events().iter().any(shown));
        assert!(!walk.events().iter().any(is_dispute));
        Ok(())
    })
}

// At a capture made at the client, the grant at 10 was taken where the capture has it. It is sure once it is shown to be there.
#[test]
fn a_client_takes_what_its_capture_has() {
    passes(|| -> Result<(), Fail> {
        let alloc = Global;
        let mut walk = Walk::new(alloc);
        ask(&mut walk, 1, 1, b"f\0")?;
        grant(&mut walk, 5, 1, Level::Writes)?;
        let mut taken = seen(5, 1, Note::Taken);
        taken.latest = 10;
        walk.take(&taken)?;
        use_open(&mut walk, 6, 1)?;
        let wanted = [certain(Level::Writes, 10, 10), possible(Level::Nothing, 11)];
        let changes = only_chain(alloc, &walk, 5)?;
        assert!(changes.is_some_and(|changes| changes.as_slice() == wanted.as_slice()));
        Ok(())
    })
}

// The client sent its last request before the gap at 15: the grant at 10 was taken by 11. What the capture has of the break
// at 18 and its acknowledgment comes after what may be missing.
#[test]
fn a_gap_cuts_chains_off() {
    passes(|| -> Result<(), Fail> {
        let alloc = Global;
        let mut walk = Walk::new(alloc);
        ask(&mut walk, 1, 1, b"f\0")?;
        grant(&mut walk, 5, 1, Level::Writes)?;
        use_open(&mut walk, 6, 1)?;
        ask_by_open(&mut walk, 8, 1)?;
        walk.take(&seen(9, 1, break_to(Level::Something, 0)))?;
        walk.take(&seen(10, 1, Note::Gap))?;
        walk.take(&seen(11, 1, keeps(11, Level::Something)))?;
        answer(&mut walk, 12, 1, 11)?;
        let wanted = [certain(Level::Writes, 10, 11), possible(Level::Nothing, 11), possible(Level::Nothing, 15)];
        let changes = only_chain(alloc, &walk, 5)?;
        assert!(changes.is_some_and(|changes| changes.as_slice() == wanted.as_slice()));
        Ok(())
    })
}

// The gap may hide a request that changes names, so that the name leads to another file after it.
#[test]
fn a_gap_may_hide_a_rename() {
    passes(|| -> Result<(), Fail> {
        let alloc = Global;
        let mut walk = Walk::new(alloc);
        ask(&mut walk, 1, 1, b"f\0")?;
        grant(&mut walk, 5, 1, Level::Writes)?;
        join(&mut walk, 6, 3, 3)?;
        walk.take(&seen(7, 3, Note::Gap))?;
        ask(&mut walk, 8, 2, b"f\0")?;
        grant(&mut walk, 12, 2, Level::Something)?;
        assert_eq!(Index::of(alloc, walk.events())?.files(), [5, 12].as_slice());
        Ok(())
    })
}

// A connection that began before the capture is anybody's at its server: what is missing on it may have given the lease up.
#[test]
fn a_gap_of_a_stranger_may_be_of_any_lease() {
    passes(|| -> Result<(), Fail> {
        let alloc = Global;
        let mut walk = Walk::new(alloc);
        ask(&mut walk, 1, 1, b"f\0")?;
        grant(&mut walk, 5, 1, Level::Writes)?;
        let mut elsewhere = seen(6, 9, Note::Gap);
        elsewhere.server = 2;
        walk.take(&elsewhere)?;
        assert!(!walk.events().iter().any(|event| matches!(event, Event::Lost(_))));
        walk.take(&seen(7, 9, Note::Gap))?;
        let loss = Loss { client: 1, since: 0, reason: NotJudged::Missing };
        assert_eq!(walk.events().last(), Some(&Event::Lost(loss)));
        Ok(())
    })
}

// What has no place in the order may have come first, so that no change of the client is sure.
#[test]
fn a_dispute_leaves_no_chain() {
    passes(|| -> Result<(), Fail> {
        let alloc = Global;
        let mut walk = Walk::new(alloc);
        ask(&mut walk, 1, 1, b"f\0")?;
        grant(&mut walk, 5, 1, Level::Writes)?;
        use_open(&mut walk, 6, 1)?;
        join(&mut walk, 7, 2, 1)?;
        walk.take(&seen(8, 2, break_to(Level::Something, 0)))?;
        assert_eq!(chains_on(alloc, 5, walk.events(), &Index::of(alloc, walk.events())?)?.len(), 0);
        Ok(())
    })
}

// The header of a message of the server.
fn response_header(command: u8, id: [u8; 8]) -> [u8; 64] {
    let mut header = [0; 64];
    header[..6].copy_from_slice(b"\xfeSMB\x40\0");
    header[12] = command;
    header[16] = 1;
    header[24..32].copy_from_slice(&id);
    header
}

// A response that grants RW by a lease of version 2 with Epoch 7, and a notification with NewEpoch 8 that breaks it to R.
#[test]
fn epochs_come_from_frames() {
    passes(|| -> Result<(), Fail> {
        let alloc = Global;
        let mut bytes = Vec::from_slice(alloc, &response_header(5, [2, 0, 0, 0, 0, 0, 0, 0]))?;
        bytes.extend_from_slice(b"\x59\0\xff\0\x01\0\0\0")?;
        bytes.extend_from_slice(&[0; 72])?;
        bytes.extend_from_slice(b"\x98\0\0\0\x50\0\0\0")?;
        bytes.extend_from_slice(b"\0\0\0\0\x10\0\x04\0\0\0\x18\0\x34\0\0\0RqLs\0\0\0\0")?;
        bytes.extend_from_slice(&KEY.0)?;
        bytes.extend_from_slice(b"\x05\0\0\0\0\0\0\0\0\0\0\0\0\0\0\0")?;
        bytes.extend_from_slice(b"pppppppppppppppp\x07\0\0\0\0\0\0\0")?;
        let lease = LeaseGiven { key: KEY, state: LeaseState::from_wire(5), level: Level::Writes, breaking: false, epoch: Some(7) };
        for message in &read_frame(alloc, &bytes)? {
            let note = note_of(message, ids_of(message, None), false);
            assert!(matches!(note, Note::CreateGiven(given) if given.lease == Some(lease)));
        }

        let mut bytes = Vec::from_slice(alloc, &response_header(18, [0xff; 8]))?;
        bytes.extend_from_slice(b"\x2c\0\x08\0\x01\0\0\0")?;
        bytes.extend_from_slice(&KEY.0)?;
        bytes.extend_from_slice(b"\x05\0\0\0\x01\0\0\0\0\0\0\0\0\0\0\0\0\0\0\0")?;
        let reads = LeaseState::from_wire(1);
        let wanted = BreakNote { key: KEY, state: reads, level: Level::Something, acknowledged: true, epoch: 8 };
        for message in &read_frame(alloc, &bytes)? {
            let note = note_of(message, ids_of(message, None), false);
            assert_eq!(note, Note::Break(wanted));
        }
        Ok(())
    })
}

// A break of no open that is known may be of the one whose response comes later over another connection.
#[test]
fn a_stray_break_is_a_dispute() {
    passes(|| -> Result<(), Fail> {
        let mut walk = Walk::new(Global);
        ask(&mut walk, 1, 1, b"f\0")?;
        join(&mut walk, 5, 2, 1)?;
        walk.take(&seen(6, 2, break_to(Level::Something, 9)))?;
        assert!(matches!(walk.events().last(), Some(Event::Stray(_))));
        grant_numbered(&mut walk, 7, 1, Level::Writes, Some(8))?;
        assert!(walk.events().iter().any(is_dispute));
        Ok(())
    })
}

// But not if the client asks for that one later.
#[test]
fn a_stray_break_before_the_request_is_none() {
    passes(|| -> Result<(), Fail> {
        let mut walk = Walk::new(Global);
        join(&mut walk, 1, 2, 1)?;
        walk.take(&seen(2, 2, break_to(Level::Something, 9)))?;
        ask(&mut walk, 3, 1, b"f\0")?;
        grant_numbered(&mut walk, 7, 1, Level::Writes, Some(8))?;
        assert!(!walk.events().iter().any(is_dispute));
        Ok(())
    })
}
