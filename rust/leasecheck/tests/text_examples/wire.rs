use smblease_std::alloc::Global;
use smblease_std::prelude::{Vec, format};
use smblease_std::test::passes;
mod capture_lines;
mod captures;
mod contents;
mod messages;
mod records_of_captures;
mod requests;
mod tables;
mod walks;
mod words;

use smblease::proved::lease_state::{FileId, LeaseKey, LeaseState};
use smblease::proved::lease_wire::{
    Acknowledgment, BreakResponse, Context, CreateAnswer, CreateAsk, Notification, WireFault, contexts, fill_create_ask,
    fill_create_reply, read_context_at, read_create, read_create_reply, write_create_ask, write_create_reply,
};
use smblease_std::test::Fail;

const KEY: LeaseKey = LeaseKey([0, 1, 2, 3, 4, 5, 6, 7, 8, 9, 10, 11, 12, 13, 14, 15]);

// A request for RH under the key and for a durable open: Next 56 and 0, the names RqLs and DHnQ.
const ASK: &[u8; 96] = b"\x38\0\0\0\x10\0\x04\0\0\0\x18\0\x20\0\0\0RqLs\0\0\0\0\
\0\x01\x02\x03\x04\x05\x06\x07\x08\x09\x0a\x0b\x0c\x0d\x0e\x0f\x03\0\0\0\0\0\0\0\0\0\0\0\0\0\0\0\
\0\0\0\0\x10\0\x04\0\0\0\x18\0\x10\0\0\0DHnQ\0\0\0\0\0\0\0\0\0\0\0\0\0\0\0\0\0\0\0\0";

// The example at the top of the crate.
#[test]
fn the_example_holds() {
    passes(|| -> Result<(), Fail> {
        let message = Notification {
            ack_required: true,
            key: LeaseKey([7; 16]),
            current: LeaseState::from_wire(7),
            new: LeaseState::from_wire(3),
        };
        let bytes = message.encode();
        assert_eq!(Notification::decode(&bytes), Ok((message, b"".as_slice())));
        assert_eq!(Notification::decode(&bytes[1..]), Err(WireFault::Short(0)));

        let mut contexts = Vec::new(Global);
        let ask = CreateAsk { lease: Some((message.key, message.new)), durable: true, reconnect: None };
        write_create_ask(&ask, &mut contexts)?;
        assert_eq!(read_create(contexts.as_slice()), Ok(ask));
        Ok(())
    })
}

#[test]
fn writes_a_request() {
    passes(|| -> Result<(), Fail> {
        let ask = CreateAsk { lease: Some((KEY, LeaseState::from_wire(3))), durable: true, reconnect: None };
        let mut out = Vec::new(Global);
        out.push(7)?;
        write_create_ask(&ask, &mut out)?;
        assert_eq!(&out[1..], ASK.as_slice());
        assert_eq!(read_create(&out[1..]).ok(), Some(ask));
        Ok(())
    })
}

#[test]
fn writes_a_reconnect_and_nothing() {
    passes(|| -> Result<(), Fail> {
        let mut ask = CreateAsk { lease: None, durable: false, reconnect: Some(FileId(1)) };
        let mut out = Vec::new(Global);
        write_create_ask(&ask, &mut out)?;
        let text = b"\0\0\0\0\x10\0\x04\0\0\0\x18\0\x10\0\0\0DHnC\0\0\0\0\x01\0\0\0\0\0\0\0\x01\0\0\0\0\0\0\0";
        assert_eq!(out.as_slice(), text.as_slice());
        ask.reconnect = None;
        out.clear();
        write_create_ask(&ask, &mut out)?;
        assert_eq!(out.len(), 0);
        Ok(())
    })
}

#[test]
fn writes_a_response() {
    passes(|| -> Result<(), Fail> {
        let answer = CreateAnswer { lease: Some((KEY, LeaseState::from_wire(3), true)), durable: false };
        let mut out = Vec::new(Global);
        write_create_reply(&answer, &mut out)?;
        let text = b"\0\0\0\0\x10\0\x04\0\0\0\x18\0\x20\0\0\0RqLs\0\0\0\0\
\0\x01\x02\x03\x04\x05\x06\x07\x08\x09\x0a\x0b\x0c\x0d\x0e\x0f\x03\0\0\0\x02\0\0\0\0\0\0\0\0\0\0\0";
        assert_eq!(out.as_slice(), text.as_slice());
        assert_eq!(read_create_reply(out.as_slice()).ok(), Some(answer));
        let durable = CreateAnswer { lease: None, durable: true };
        out.clear();
        write_create_reply(&durable, &mut out)?;
        let text = b"\0\0\0\0\x10\0\x04\0\0\0\x18\0\x08\0\0\0DHnQ\0\0\0\0\0\0\0\0\0\0\0\0";
        assert_eq!(out.as_slice(), text.as_slice());
        Ok(())
    })
}

#[test]
fn fills_room_that_is_long_enough() {
    let ask = CreateAsk { lease: Some((KEY, LeaseState::from_wire(3))), durable: true, reconnect: None };
    let mut room = [7u8; 98];
    assert_eq!(fill_create_ask(&ask, &mut room[..95]), 96);
    assert!(room == [7; 98]);
    assert_eq!(fill_create_ask(&ask, &mut room[..96]), 96);
    assert!(room.starts_with(ASK.as_slice()));
    assert_eq!(&room[96..], [7, 7].as_slice());
    let durable = CreateAnswer { lease: None, durable: true };
    assert_eq!(fill_create_reply(&durable, &mut room), 32);
    let text = b"\0\0\0\0\x10\0\x04\0\0\0\x18\0\x08\0\0\0DHnQ\0\0\0\0\0\0\0\0\0\0\0\0";
    assert!(room.starts_with(text.as_slice()));
}

#[test]
fn reads_the_context_at_a_place() {
    let text = ASK.as_slice();
    let durable = Context { place: 56, name: b"DHnQ", body: &text[80..] };
    assert_eq!(read_context_at(text, 56), Ok((durable, 0)));
    assert_eq!(read_context_at(text, 97), Err(WireFault::Short(97)));
    assert_eq!(read_context_at(text, 0).ok().map(|read| read.1), Some(56));
}

#[test]
fn answers_a_break_that_asks_for_it() {
    let mut message =
        Notification { ack_required: true, key: KEY, current: LeaseState::from_wire(7), new: LeaseState::from_wire(3) };
    let state = LeaseState::from_wire(3);
    assert_eq!(Acknowledgment::due(&message), Some(Acknowledgment { key: KEY, state }));
    message.ack_required = false;
    assert_eq!(Acknowledgment::due(&message), None);
}

#[test]
fn borrows_the_parts_of_contexts() {
    passes(|| -> Result<(), Fail> {
        let text = ASK.as_slice();
        let mut all: Vec<Context> = Vec::new(Global);
        for item in contexts(text) {
            all.push(item?)?;
        }
        let lease = Context { place: 0, name: b"RqLs", body: &text[24..56] };
        let durable = Context { place: 56, name: b"DHnQ", body: &text[80..] };
        assert_eq!(all.as_slice(), [lease, durable].as_slice());
        assert_eq!(contexts(b"").next(), None);
        let mut cut = contexts(&text[..60]);
        assert_eq!(cut.size_hint(), (0, Some(4)));
        assert_eq!(cut.next(), Some(Ok(lease)));
        assert_eq!(cut.next(), Some(Err(WireFault::Short(56))));
        assert_eq!((cut.next(), cut.size_hint()), (None, (0, Some(0))));
        assert_eq!(cut.next(), None);
        Ok(())
    })
}

#[test]
fn writes_break_messages() {
    let notification =
        Notification { ack_required: true, key: KEY, current: LeaseState::from_wire(7), new: LeaseState::from_wire(3) };
    let bytes = notification.encode();
    let text = b"\x2c\0\0\0\x01\0\0\0\0\x01\x02\x03\x04\x05\x06\x07\x08\x09\x0a\x0b\x0c\x0d\x0e\x0f\
        \x07\0\0\0\x03\0\0\0\0\0\0\0\0\0\0\0\0\0\0\0";
    assert!(bytes == *text);
    let message = b"\x24\0\0\0\0\0\0\0\0\x01\x02\x03\x04\x05\x06\x07\x08\x09\x0a\x0b\x0c\x0d\x0e\x0f\x03\0\0\0\0\0\0\0\0\0\0\0";
    let state = LeaseState::from_wire(3);
    assert!(Acknowledgment { key: KEY, state }.encode() == *message);
    assert!(BreakResponse { key: KEY, state }.encode() == *message);
}

#[test]
fn writes_a_request_for_a_lease() {
    passes(|| -> Result<(), Fail> {
        let ask = CreateAsk { lease: Some((KEY, LeaseState::from_wire(7))), durable: false, reconnect: None };
        let mut out = Vec::new(Global);
        write_create_ask(&ask, &mut out)?;
        let text = b"\0\0\0\0\x10\0\x04\0\0\0\x18\0\x20\0\0\0RqLs\0\0\0\0\
\0\x01\x02\x03\x04\x05\x06\x07\x08\x09\x0a\x0b\x0c\x0d\x0e\x0f\x07\0\0\0\0\0\0\0\0\0\0\0\0\0\0\0";
        assert_eq!(out.as_slice(), text.as_slice());
        Ok(())
    })
}

#[test]
fn reads_back_each_kind_of_request() {
    passes(|| -> Result<(), Fail> {
        let mut out = Vec::new(Global);
        for kinds in 0..8u8 {
            let (leased, durable, reconnects) = (kinds & 1 == 1, kinds & 2 == 2, kinds & 4 == 4);
            let ask = CreateAsk {
                lease: leased.then_some((KEY, LeaseState::from_wire(5))),
                durable,
                reconnect: reconnects.then_some(FileId(258)),
            };
            out.clear();
            write_create_ask(&ask, &mut out)?;
            let length = 56 * usize::from(leased) + 40 * usize::from(durable) + 40 * usize::from(reconnects);
            assert_eq!(out.len(), length, "of {ask:?}");
            assert_eq!(read_create(out.as_slice()), Ok(ask));
        }
        Ok(())
    })
}

#[test]
fn reads_back_each_kind_of_response() {
    passes(|| -> Result<(), Fail> {
        let mut out = Vec::new(Global);
        for kinds in 0..4u8 {
            let (leased, durable) = (kinds & 1 == 1, kinds & 2 == 2);
            let answer = CreateAnswer { lease: leased.then_some((KEY, LeaseState::from_wire(1), false)), durable };
            out.clear();
            write_create_reply(&answer, &mut out)?;
            let length = 56 * usize::from(leased) + 32 * usize::from(durable);
            assert_eq!(out.len(), length, "of {answer:?}");
            assert_eq!(read_create_reply(out.as_slice()), Ok(answer));
        }
        Ok(())
    })
}

#[test]
fn faults_tell_number_name_and_place() {
    passes(|| -> Result<(), Fail> {
        let faults = [
            (WireFault::Short(0), "1 Short at 0"),
            (WireFault::WrongSize(0), "2 WrongSize at 0"),
            (WireFault::BadNext(56), "3 BadNext at 56"),
            (WireFault::BadName(8), "4 BadName at 8"),
            (WireFault::BadData(80), "5 BadData at 80"),
            (WireFault::BadLength(40), "6 BadLength at 40"),
            (WireFault::Twice(112), "7 Twice at 112"),
        ];
        for (fault, text) in faults {
            let told = format!(in Global; "{fault}")?;
            assert_eq!(told.as_str(), text);
        }
        let fault = WireFault::BadNext(56);
        assert_eq!((fault.number(), fault.name(), fault.place()), (3, "BadNext", 56));
        Ok(())
    })
}

// A vector that a writer appends to: where the writer is refused memory, nothing was appended.
// `tests/refused_growths` runs this with each allocation refused.
#[test]
fn a_refused_writer_leaves_the_vector() {
    passes(|| -> Result<(), Fail> {
        let ask = CreateAsk { lease: Some((KEY, LeaseState::from_wire(3))), durable: true, reconnect: None };
        let answer = CreateAnswer { lease: Some((KEY, LeaseState::from_wire(3), true)), durable: true };
        let mut asked = Vec::new(Global);
        asked.push(7)?;
        match write_create_ask(&ask, &mut asked) {
            Ok(()) => assert_eq!(&asked[1..], ASK.as_slice()),
            Err(_) => assert_eq!(asked.as_slice(), [7].as_slice()),
        }
        let mut answered = Vec::new(Global);
        answered.push(7)?;
        match write_create_reply(&answer, &mut answered) {
            Ok(()) => assert_eq!(read_create_reply(&answered[1..]).ok(), Some(answer)),
            Err(_) => assert_eq!(answered.as_slice(), [7].as_slice()),
        }
        Ok(())
    })
}
