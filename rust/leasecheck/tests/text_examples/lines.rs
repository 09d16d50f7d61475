use leasecheck::proved::lease_texts::{
    Arrival, Complaint, Field, Fields, LineFault, Part, Said, complaint_about, fact_table, outcome_word, part_table,
    push_complaint, push_complaint_line, push_event, push_fact, push_line, push_quoted, push_setup, read_arrival, read_fact,
    read_part, read_schedule, reply_table, request_table, rules_in,
};
use leasecheck::proved::text_laws::judged_run;
use smblease::proved::lease_client::{Command, Settlement, SharedBytes};
use smblease::proved::lease_state::{
    Access, Bytes, ClientNo, FileId, FileNo, LeaseState, Order, Patch, Reply, Request, Rise, Rules, Share, Status,
};
use smblease::proved::lease_world::{Event, Fact};
use smblease_std::alloc::Global;
use smblease_std::prelude::{String, Vec};
use smblease_std::test::Fail;
use smblease_std::test::passes;

mod machines;

fn bytes(alloc: Global, list: &[u8]) -> Result<Bytes, Fail> {
    Ok(Bytes::new(Vec::from_slice(alloc, list)?))
}

fn patch(alloc: Global, offset: u32, list: &[u8]) -> Result<Patch, Fail> {
    Ok(Patch { offset, bytes: bytes(alloc, list)? })
}

fn facts(alloc: Global) -> Result<Vec<Fact>, Fail> {
    let (first, last) = (ClientNo(1), ClientNo(255));
    let file = FileNo(200);
    let mut all = Vec::new(alloc);
    all.push(Fact::Start(file, bytes(alloc, b"")?))?;
    all.push(Fact::Start(FileNo(1), bytes(alloc, b"\x00\x0a\xff")?))?;
    all.push(Fact::Joined(first))?;
    all.push(Fact::Dropped(last))?;
    all.push(Fact::Expired(first, file))?;
    all.push(Fact::Sent(last))?;
    all.push(Fact::Took(first))?;
    all.push(Fact::Opened(file, last))?;
    all.push(Fact::Changed(file, first, 0, patch(alloc, 0, b"")?))?;
    all.push(Fact::Changed(file, last, u64::MAX, patch(alloc, u32::MAX, b"\xab")?))?;
    all.push(Fact::Wrote(first, file, 10, patch(alloc, 7, b"xy")?, true))?;
    all.push(Fact::Wrote(last, file, 1, patch(alloc, 10, b"")?, false))?;
    for outcome in [Settlement::Done, Settlement::Failed, Settlement::Unknown, Settlement::Lost] {
        all.push(Fact::Settled(first, 99, outcome))?;
    }
    for bits in 0..8u32 {
        all.push(Fact::Believes(last, file, LeaseState::from_wire(bits)))?;
    }
    all.push(Fact::CachedRead(first, file, SharedBytes::new(bytes(alloc, b"Z")?)?))?;
    all.push(Fact::CachedRead(first, file, SharedBytes::new(bytes(alloc, b"")?)?))?;
    all.push(Fact::Strayed(last))?;
    Ok(all)
}

// The line of each fact is read as that fact, also with other letters in its digits.
#[test]
fn lines_are_read_back() {
    passes(|| -> Result<(), Fail> {
        let alloc = Global;
        for fact in facts(alloc)? {
            let mut text = String::new(alloc);
            push_fact(&mut text, &fact)?;
            let Some(line) = text.as_str().strip_suffix('\n') else {
                panic!("no line feed behind {fact:?}");
            };
            let read = read_fact(alloc, line.as_bytes())?;
            assert!(read == fact, "{line} is read as {read:?}");
        }
        let upper = read_fact(alloc, b"changed 200 255 18446744073709551615 4294967295 AB")?;
        let lower = read_fact(alloc, b"changed 200 255 18446744073709551615 4294967295 ab")?;
        assert!(upper == lower);
        let other: &[u8] = b"changed 200 255 1 4294967296 ab";
        assert!(matches!(read_fact(alloc, other), Err(LineFault::Refused)));
        Ok(())
    })
}

// A schedule of three lines, of which one counts for nothing.
#[test]
fn a_schedule_is_read() {
    passes(|| -> Result<(), Fail> {
        let text = b"file 616263\n# a remark\nclient 11111111111111111111111111111111\ncut 1";
        let schedule = read_schedule(Global, text)?;
        assert_eq!(schedule.setup.files.len(), 1);
        assert_eq!(schedule.setup.clients.as_slice(), [[0x11; 16]].as_slice());
        assert_eq!(schedule.events.as_slice(), [Event::Cut(ClientNo(1))].as_slice());
        Ok(())
    })
}

fn opening(want: u32, durable: bool) -> Command {
    Command::Open {
        file: FileNo(1),
        access: Access::ReadWrite,
        share: Share::Nothing,
        want: LeaseState::from_wire(want),
        durable,
    }
}

fn requests(alloc: Global) -> Result<Vec<Request>, Fail> {
    let mut all = Vec::new(alloc);
    all.push(Request::Create { file: FileNo(2), access: Access::Write, share: Share::ReadWrite, contexts: bytes(alloc, b"")? })?;
    all.push(Request::Read { fid: FileId(u64::MAX) })?;
    all.push(Request::Write { fid: FileId(0), number: 7, patch: patch(alloc, 3, b"xy")? })?;
    all.push(Request::Close { fid: FileId(1) })?;
    all.push(Request::Ack([0xa5; 36]))?;
    Ok(all)
}

fn events(alloc: Global) -> Result<Vec<Event>, Fail> {
    let (first, last) = (ClientNo(1), ClientNo(255));
    let file = FileNo(1);
    let mut all = Vec::new(alloc);
    all.push(Event::Connect(first))?;
    all.push(Event::App(first, opening(7, true)))?;
    all.push(Event::App(last, opening(0, false)))?;
    all.push(Event::ServerTakes(first))?;
    all.push(Event::ClientTakes(last))?;
    all.push(Event::App(first, Command::Write { file, patch: patch(alloc, 0, b"")? }))?;
    all.push(Event::App(first, Command::Read { file }))?;
    all.push(Event::App(first, Command::Flush { file }))?;
    all.push(Event::App(first, Command::Close { file }))?;
    all.push(Event::Cut(first))?;
    all.push(Event::Notice(first))?;
    all.push(Event::Expire(last, file))?;
    all.push(Event::Scavenge(last, file))?;
    for asked in requests(alloc)? {
        all.push(Event::Raw(first, asked))?;
    }
    Ok(all)
}

const WRITTEN: &str = "file 616263
file -
client 11111111-1111-1111-1111-111111111111
client 00010203-0405-0607-0809-0a0b0c0d0e0f
connect 1
open 1 1 rw - RWH durable
open 255 1 rw - none
serve 1
take 255
write 1 1 0 -
read 1 1
flush 1 1
close 1 1
cut 1
notice 1
expire 255 1
scavenge 255 1
raw 1 create 2 w rw -
raw 1 read 18446744073709551615
raw 1 write 0 7 3 7879
raw 1 close 1
raw 1 ack a5a5a5a5a5a5a5a5a5a5a5a5a5a5a5a5a5a5a5a5a5a5a5a5a5a5a5a5a5a5a5a5a5a5a5a5
";

// The lines of a setup and of each event, and the schedule that they are read as.
#[test]
fn a_schedule_is_written_and_read_back() {
    passes(|| -> Result<(), Fail> {
        let alloc = Global;
        let setup = read_schedule(
            alloc,
            b"file 616263\nfile -\nclient 11111111111111111111111111111111
client {00010203-0405-0607-0809-0A0B0C0D0E0F}",
        )?
        .setup;
        let mut text = String::new(alloc);
        push_setup(&mut text, &setup)?;
        let events = events(alloc)?;
        for event in &events {
            push_event(&mut text, event)?;
        }
        assert_eq!(text.as_str(), WRITTEN);
        let schedule = read_schedule(alloc, text.as_str().as_bytes())?;
        assert_eq!(schedule.events.as_slice(), events.as_slice());
        assert_eq!(schedule.setup.clients.as_slice(), setup.clients.as_slice());
        assert_eq!(schedule.setup.files.len(), 2);
        Ok(())
    })
}

// The record of a run of which a replay's print is judged to be safe.
#[test]
fn a_run_is_judged() {
    passes(|| -> Result<(), Fail> {
        let alloc = Global;
        let text = b"file 616263\nclient 11111111111111111111111111111111\nconnect 1\nnotice 1";
        let schedule = read_schedule(alloc, text)?;
        let (setup, events) = (&schedule.setup, schedule.events.as_slice());
        let facts = judged_run(alloc, Rules::profile(), setup, events)?;
        let mut expected = Vec::new(alloc);
        expected.push(Fact::Start(FileNo(1), bytes(alloc, b"abc")?))?;
        expected.push(Fact::Joined(ClientNo(1)))?;
        assert!(facts == expected);
        let rules = Rules { order: Order::ByKey, rise: Rise::Whole };
        let facts = judged_run(alloc, rules, setup, events)?;
        assert!(facts == expected);
        Ok(())
    })
}

fn said(alloc: Global, complaint: Option<Complaint<'_>>) -> Result<String, Fail> {
    let mut text = String::new(alloc);
    if let Some(complaint) = complaint {
        push_complaint(alloc, &mut text, &complaint)?;
    }
    Ok(text)
}

#[test]
fn refused_facts_are_complained_of() {
    passes(|| -> Result<(), Fail> {
        let alloc = Global;
        let state = said(alloc, complaint_about(alloc, fact_table(), b"believes 1 1 HR")?)?;
        let wanted = "field 4: a state, which is none or letters of RWH in that order; it is \"HR\"";
        assert_eq!(state.as_str(), wanted);
        let short = said(alloc, complaint_about(alloc, fact_table(), b"settled 1 7")?)?;
        let wanted = "field 4: an outcome, which is done, failed, unknown or lost; the line ends before it";
        assert_eq!(short.as_str(), wanted);
        let long = said(alloc, complaint_about(alloc, fact_table(), b"sent 1 ")?)?;
        assert_eq!(long.as_str(), "field 3: the line's end; the line ends with a space");
        assert_eq!(said(alloc, complaint_about(alloc, fact_table(), b"sent 1")?)?.as_str(), "");
        Ok(())
    })
}

#[test]
fn refused_parts_are_complained_of() {
    passes(|| -> Result<(), Fail> {
        let alloc = Global;
        let word = said(alloc, complaint_about(alloc, part_table(), b"open 1 1 r r none always")?)?;
        let wanted = "field 7: the word durable or the line's end; it is \"always\"";
        assert_eq!(word.as_str(), wanted);
        let asked = said(alloc, complaint_about(alloc, part_table(), b"raw 1 ask")?)?;
        let wanted = "field 3: a request, which is create, read, close, write or ack; it is \"ask\"";
        assert_eq!(asked.as_str(), wanted);
        let open = complaint_about(alloc, part_table(), b"open 1 1 r r none")?;
        assert_eq!(said(alloc, open)?.as_str(), "");
        Ok(())
    })
}

#[test]
fn a_complaint_has_the_number_of_its_line() {
    passes(|| -> Result<(), Fail> {
        let alloc = Global;
        let mut text = String::new(alloc);
        if let Some(complaint) = complaint_about(alloc, part_table(), b"serve")? {
            push_complaint_line(alloc, &mut text, 12, &complaint)?;
        }
        let wanted = "line 12, field 2: a client, which is a number from 1 to 255 without leading zeros; \
        the line ends before it\n";
        assert_eq!(text.as_str(), wanted);
        Ok(())
    })
}

#[test]
fn bytes_are_quoted() {
    passes(|| -> Result<(), Fail> {
        let alloc = Global;
        let mut text = String::new(alloc);
        push_quoted(alloc, &mut text, b"a\"\\\xff\n")?;
        assert_eq!(text.as_str(), "\"a\\x22\\x5c\\xff\\x0a\"");
        Ok(())
    })
}

#[test]
fn a_line_is_written_field_by_field() {
    passes(|| -> Result<(), Fail> {
        let alloc = Global;
        let mut text = String::new(alloc);
        let told = Reply::CreateFailed { file: FileNo(2), status: Status::SharingViolation };
        push_line(&mut text, "sent", &[Said::Client(ClientNo(1)), Said::Reply(&told)])?;
        assert_eq!(text.as_str(), "sent 1 createfailed 2 STATUS_SHARING_VIOLATION\n");
        assert_eq!(outcome_word(Settlement::Lost), "lost");
        Ok(())
    })
}

#[test]
fn a_word_stands_for_rules() {
    passes(|| -> Result<(), Fail> {
        let rules = Rules { order: Order::ByKey, rise: Rise::AsFree };
        assert_eq!(rules_in(b"by-key,as-free"), Some(rules));
        assert_eq!(rules_in(b"by-key"), None);
        Ok(())
    })
}

#[test]
fn one_line_is_read() {
    passes(|| -> Result<(), Fail> {
        let alloc = Global;
        let Ok(Part::Happens(event)) = read_part(alloc, b"cut 2") else {
            return Err(Fail::from("no event"));
        };
        assert!(event == Event::Cut(ClientNo(2)));
        let wanted =
            Arrival { reply: Reply::CloseFailed { fid: FileId(4), status: Status::Unsuccessful }, other: Some(0xC000_0011) };
        let arrival = read_arrival(alloc, &mut Fields::of(b"closefailed 4 c0000011"));
        assert!(arrival == Ok(wanted));
        Ok(())
    })
}

#[test]
fn tables_have_the_lines_of_their_kinds() {
    passes(|| -> Result<(), Fail> {
        let rows = request_table().1;
        assert_eq!(rows.len(), 5);
        assert_eq!(rows[1].0, "read");
        assert_eq!(rows[1].1, [Field::FileId].as_slice());
        assert_eq!(reply_table().1.len(), 11);
        Ok(())
    })
}

#[test]
fn the_laws_of_lines_do_nothing() {
    passes(|| -> Result<(), Fail> { Ok(()) })
}
