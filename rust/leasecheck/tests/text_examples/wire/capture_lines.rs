//! Captures as lines: two clients that ask for leases on a file, and what is found of them.

use crate::wire::KEY;
use leasecheck::proved::capture_texts::{
    Capture, CaptureVerdict, ClientName, EpochFinding, Judged, LineFault, Report, Side, push_counts, push_epoch, push_file,
    push_lost,
};
use leasecheck::proved::capture_walk::NotJudged;
use smblease::proved::lease_state::Bytes;
use smblease_std::alloc::Global;
use smblease_std::prelude::{String, Vec, format};
use smblease_std::test::Fail;
use smblease_std::test::passes;

// A message with this command, as a request or a response, on the session 1 and its tree connect 7 (MS-SMB2 2.2.1.2).
fn message(alloc: Global, command: u8, response: bool, id: u8, body: &[&[u8]]) -> Result<Vec<u8>, Fail> {
    message_before(alloc, 0, (command, response, id), body)
}

// The same in a compound, with the next message so many bytes after its header's start.
fn message_before(alloc: Global, next: u8, (command, response, id): (u8, bool, u8), body: &[&[u8]]) -> Result<Vec<u8>, Fail> {
    let mut bytes = Vec::from_slice(alloc, b"\xfeSMB\x40\0\0\0\0\0\0\0")?;
    bytes.extend_from_slice(&[command, 0, 0, 0, u8::from(response), 0, 0, 0])?;
    bytes.extend_from_slice(&[next, 0, 0, 0, id, 0, 0, 0, 0, 0, 0, 0])?;
    bytes.extend_from_slice(b"\0\0\0\0\x07\0\0\0\x01\0\0\0\0\0\0\0")?;
    bytes.extend_from_slice(&[0; 16])?;
    for part in body {
        bytes.extend_from_slice(part)?;
    }
    Ok(bytes)
}

// A frame's line.
fn frame(alloc: Global, packet: u64, connection: u8, from: &str, acknowledged: u8, bytes: &[u8]) -> Result<String, Fail> {
    let digits = smblease_std::ports::hex::encode(alloc, bytes)?;
    Ok(format!(in alloc;
        "frame {packet} {packet}.25 {connection} 10.0.0.{connection}:50000 10.0.0.9:445 {from} {acknowledged} {digits}"
    )?)
}

// The messages of a client, by the number of its connection: the ClientGuid and the FileId are by that too.

fn negotiate(alloc: Global, connection: u8) -> Result<Vec<u8>, Fail> {
    let head = b"\x24\0\x01\0\0\0\0\0\0\0\0\0guid of a clien";
    let body = [head.as_slice(), &[connection], b"\0\0\0\0\0\0\0\0\x10\x02"];
    message(alloc, 0, false, 0, &body)
}

fn tree_connect(alloc: Global) -> Result<Vec<u8>, Fail> {
    message(alloc, 3, false, 1, &[b"\x09\0\0\0\x48\0\x04\0\\\0s\0"])
}

fn tree_connected(alloc: Global) -> Result<Vec<u8>, Fail> {
    message(alloc, 3, true, 1, &[b"\x10\0\x01\0\0\0\0\0\0\0\0\0\xff\x01\x1f\0"])
}

const RQLS: &[u8; 24] = b"\0\0\0\0\x10\0\x04\0\0\0\x18\0\x20\0\0\0RqLs\0\0\0\0";

// Of the file f, for RW.
fn create(alloc: Global) -> Result<Vec<u8>, Fail> {
    let fixed = b"\0\0\0\0\0\0\0\0\x07\0\0\0\x01\0\0\0\0\0\0\0\x78\0\x02\0\x80\0\0\0\x38\0\0\0f\0\0\0\0\0\0\0";
    let state = b"\x05\0\0\0\0\0\0\0\0\0\0\0\0\0\0\0";
    let body = [b"\x39\0\0\xff\x02\0\0\0".as_slice(), &[0; 16], fixed, RQLS, &KEY.0, state];
    message(alloc, 5, false, 2, &body)
}

fn file_id(connection: u8) -> [u8; 16] {
    [connection, 0, 0, 0, 0, 0, 0, 0, 5, 0, 0, 0, 0, 0, 0, 0]
}

// A grant of RW.
fn created(alloc: Global, connection: u8) -> Result<Vec<u8>, Fail> {
    let place = b"\x98\0\0\0\x38\0\0\0";
    let state = b"\x05\0\0\0\0\0\0\0\0\0\0\0\0\0\0\0";
    let body = [b"\x59\0\xff\0\x01\0\0\0".as_slice(), &[0; 56], &file_id(connection), place, RQLS, &KEY.0, state];
    message(alloc, 5, true, 2, &body)
}

fn read(alloc: Global, connection: u8) -> Result<Vec<u8>, Fail> {
    let head = b"\x31\0\x50\0\0\x02\0\0\0\0\0\0\0\0\0\0";
    message(alloc, 8, false, 3, &[head.as_slice(), &file_id(connection), &[0; 17]])
}

// A READ and an ECHO in one frame.
pub(super) fn read_and_echo(alloc: Global, connection: u8) -> Result<Vec<u8>, Fail> {
    let head = b"\x31\0\x50\0\0\x02\0\0\0\0\0\0\0\0\0\0";
    let read = [head.as_slice(), &file_id(connection), &[0; 24]];
    let mut bytes = message_before(alloc, 120, (8, false, 3), &read)?;
    bytes.extend_from_slice(&message(alloc, 13, false, 4, &[b"\x04\0\0\0"])?)?;
    Ok(bytes)
}

pub(super) fn close(alloc: Global, connection: u8) -> Result<Vec<u8>, Fail> {
    message(alloc, 6, false, 4, &[b"\x18\0\0\0\0\0\0\0".as_slice(), &file_id(connection)])
}

// A client connects and asks for a lease, which is granted: five lines from a number on.
pub(super) fn ask(capture: &mut Capture, alloc: Global, packet: u64, connection: u8) -> Result<(), Fail> {
    let messages = [
        ("from-client", negotiate(alloc, connection)?),
        ("from-client", tree_connect(alloc)?),
        ("from-server", tree_connected(alloc)?),
        ("from-client", create(alloc)?),
        ("from-server", created(alloc, connection)?),
    ];
    let mut packet = packet;
    for (from, bytes) in &messages {
        let line = frame(alloc, packet, connection, from, 0, bytes)?;
        capture.take_line(line.as_bytes())?;
        packet = packet.saturating_add(1);
    }
    Ok(())
}

// A client sends this, and its host has acknowledged so many frames.
pub(super) fn send(
    capture: &mut Capture,
    alloc: Global,
    (packet, connection, acknowledged): (u64, u8, u8),
    bytes: &[u8],
) -> Result<(), Fail> {
    let line = frame(alloc, packet, connection, "from-client", acknowledged, bytes)?;
    capture.take_line(line.as_bytes())?;
    Ok(())
}

// The server does what a request with this MessageId asks.
pub(super) fn answer(
    capture: &mut Capture,
    alloc: Global,
    (packet, connection): (u64, u8),
    (command, id): (u8, u8),
) -> Result<(), Fail> {
    let bytes = message(alloc, command, true, id, &[])?;
    let line = frame(alloc, packet, connection, "from-server", 0, &bytes)?;
    capture.take_line(line.as_bytes())?;
    Ok(())
}

// A client reads what it opened, and the server answers: two lines from a number on.
pub(super) fn use_open(capture: &mut Capture, alloc: Global, packet: u64, connection: u8) -> Result<(), Fail> {
    let bytes = read(alloc, connection)?;
    send(capture, alloc, (packet, connection, 0), &bytes)?;
    answer(capture, alloc, (packet.saturating_add(1), connection), (8, 3))
}

// Two clients with RW at once: both read by it, and then the first one does once more.
pub(super) fn ask_at_once(capture: &mut Capture, alloc: Global) -> Result<(), Fail> {
    ask(capture, alloc, 11, 1)?;
    use_open(capture, alloc, 16, 1)?;
    ask(capture, alloc, 21, 2)?;
    use_open(capture, alloc, 26, 2)?;
    use_open(capture, alloc, 28, 1)
}

// What is decided of the only file.
fn decided(report: &Report) -> Option<&Judged> {
    match report.files.as_slice() {
        [finding] => Some(&finding.judged),
        _ => None,
    }
}

// The packet of the charge on the only file.
fn charged_packet(report: &Report) -> Option<u64> {
    match decided(report) {
        Some(Judged::Unsafe(clash)) => clash.moment.as_ref().map(|moment| moment.packet),
        _ => None,
    }
}

// Both clients have RW at once, as the second one's READ shows.
#[test]
fn a_lease_beside_a_writers_is_unsafe_at_its_packet() {
    passes(|| -> Result<(), Fail> {
        let alloc = Global;
        let mut capture = Capture::new(alloc, Side::Server);
        ask_at_once(&mut capture, alloc)?;
        let report = capture.report(alloc)?;
        assert_eq!(report.verdict(), CaptureVerdict::Unsafe);
        assert_eq!(charged_packet(&report), Some(26));
        Ok(())
    })
}

// Both have it at 30 at the latest, where the capture is made at their ends: the READs after that show that it was there still.
#[test]
fn a_client_takes_a_lease_at_its_packet() {
    passes(|| -> Result<(), Fail> {
        let alloc = Global;
        let mut capture = Capture::new(alloc, Side::Client);
        ask(&mut capture, alloc, 11, 1)?;
        ask(&mut capture, alloc, 26, 2)?;
        use_open(&mut capture, alloc, 31, 1)?;
        use_open(&mut capture, alloc, 33, 2)?;
        let report = capture.report(alloc)?;
        assert_eq!(charged_packet(&report), Some(30));
        Ok(())
    })
}

// The first client closes after the second one has its lease. What it had acknowledged by then decides whether it can have sent
// that before.
fn closed_late(alloc: Global, acknowledged: u8) -> Result<Report, Fail> {
    let mut capture = Capture::new(alloc, Side::Server);
    ask(&mut capture, alloc, 11, 1)?;
    use_open(&mut capture, alloc, 16, 1)?;
    ask(&mut capture, alloc, 21, 2)?;
    use_open(&mut capture, alloc, 26, 2)?;
    answer(&mut capture, alloc, (28, 1), (8, 9))?;
    send(&mut capture, alloc, (29, 1, acknowledged), &close(alloc, 1)?)?;
    answer(&mut capture, alloc, (30, 1), (6, 4))?;
    Ok(capture.report(alloc)?)
}

// It may have sent it before the second one had its lease; but the server granted that before it had the CLOSE.
#[test]
fn a_close_may_have_been_sent_before_it_came() {
    passes(|| -> Result<(), Fail> {
        let report = closed_late(Global, 3)?;
        let Some(Judged::Granted(clash)) = decided(&report) else {
            return Err(Fail::new("it is the server's grants"));
        };
        assert!(clash.moment.as_ref().is_some_and(|moment| moment.packet == 25));
        Ok(())
    })
}

#[test]
fn a_close_was_sent_after_what_its_host_acknowledged() {
    passes(|| -> Result<(), Fail> {
        let report = closed_late(Global, 4)?;
        assert_eq!(report.verdict(), CaptureVerdict::Unsafe);
        assert!(matches!(decided(&report), Some(Judged::Unsafe(_))));
        Ok(())
    })
}

// The first client closes what it opened before the second one has a lease.
#[test]
fn a_lease_after_a_close_is_safe() {
    passes(|| -> Result<(), Fail> {
        let alloc = Global;
        let mut capture = Capture::new(alloc, Side::Server);
        ask(&mut capture, alloc, 11, 1)?;
        send(&mut capture, alloc, (16, 1, 0), &close(alloc, 1)?)?;
        ask(&mut capture, alloc, 21, 2)?;
        send(&mut capture, alloc, (26, 2, 0), &read(alloc, 2)?)?;
        let report = capture.report(alloc)?;
        assert_eq!(report.verdict(), CaptureVerdict::Safe);
        assert!(matches!(decided(&report), Some(Judged::Safe)));
        Ok(())
    })
}

// An encrypted frame hides what the client of a lease does.
#[test]
fn a_client_with_an_encrypted_frame_is_not_judged() {
    passes(|| -> Result<(), Fail> {
        let alloc = Global;
        let mut capture = Capture::new(alloc, Side::Server);
        ask(&mut capture, alloc, 11, 1)?;
        send(&mut capture, alloc, (16, 1, 0), b"\xfdSMB")?;
        let report = capture.report(alloc)?;
        assert_eq!(report.verdict(), CaptureVerdict::NothingJudged);
        assert!(matches!(decided(&report), Some(Judged::NoClient)));
        assert_eq!(report.clients.len(), 1);
        for finding in &report.clients {
            assert_eq!(finding.reason, NotJudged::Missing);
            let mut text = String::new(alloc);
            push_lost(alloc, &mut text, finding)?;
            let wanted = "client 10.0.0.1:50000: not judged, something of it is missing or can't be read";
            assert_eq!(text.as_str(), wanted);
        }
        assert_eq!(report.counts.frames, 6);
        assert_eq!(report.counts.unread, 1);
        Ok(())
    })
}

// A frame that is encrypted.
const FRAME: &[u8] = b"frame 1 0.5 3 10.0.0.3:50000 10.0.0.9:445 from-server 0 fd534d42";

// What a capture without lines answers to one.
fn taken(alloc: Global, line: &[u8]) -> Result<(), LineFault> {
    Capture::new(alloc, Side::Server).take_line(line)
}

#[test]
fn lines_of_each_kind_are_taken() {
    passes(|| -> Result<(), Fail> {
        let alloc = Global;
        let mut capture = Capture::new(alloc, Side::Client);
        let lines = [
            b"".as_slice(),
            b"# a remark",
            b"gap 1 0 3",
            FRAME,
            b"frame 2 1700000000.123456789 3 10.0.0.3:50000 10.0.0.9:445 from-client 7 -",
            b"end 18446744073709551615 3.5 18446744073709551615",
        ];
        for line in lines {
            assert_eq!(capture.take_line(line), Ok(()));
        }
        assert_eq!(capture.report(alloc)?.counts.frames, 2);
        Ok(())
    })
}

#[test]
fn a_line_is_refused_that_is_of_no_kind() {
    assert_eq!(taken(Global, b"packet 1 0.5 3"), Err(LineFault::Refused));
    assert_eq!(taken(Global, b" gap 1 0.5 3"), Err(LineFault::Refused));
}

#[test]
fn a_line_is_refused_that_lacks_its_connection() {
    assert_eq!(taken(Global, b"gap 1 0.5"), Err(LineFault::Refused));
    assert_eq!(taken(Global, b"gap 1 0.5 "), Err(LineFault::Refused));
}

#[test]
fn a_line_is_refused_whose_packet_is_no_number_of_64_bits() {
    assert_eq!(taken(Global, b"gap one 0.5 3"), Err(LineFault::Refused));
    assert_eq!(taken(Global, b"gap 18446744073709551616 0.5 3"), Err(LineFault::Refused));
}

#[test]
fn a_line_is_refused_whose_time_is_no_number_of_seconds() {
    assert_eq!(taken(Global, b"gap 1 noon 3"), Err(LineFault::Refused));
    assert_eq!(taken(Global, b"gap 1 .5 3"), Err(LineFault::Refused));
    assert_eq!(taken(Global, b"gap 1 0. 3"), Err(LineFault::Refused));
    assert_eq!(taken(Global, b"gap 1 0.5.5 3"), Err(LineFault::Refused));
}

#[test]
fn a_line_is_refused_whose_time_has_ten_digits_after_the_point() {
    assert_eq!(taken(Global, b"gap 1 0.0123456789 3"), Err(LineFault::Refused));
}

#[test]
fn a_frame_is_refused_that_lacks_its_bytes() {
    assert_eq!(taken(Global, b"frame 1 0.5 3 c s from-client 0"), Err(LineFault::Refused));
    assert_eq!(taken(Global, b"frame 1 0.5 3 c s from-client 0 "), Err(LineFault::Refused));
}

#[test]
fn a_frame_is_refused_that_lacks_an_address() {
    assert_eq!(taken(Global, b"frame 1 0.5 3 c  from-client 0 -"), Err(LineFault::Refused));
}

#[test]
fn a_frame_is_refused_that_neither_side_sent() {
    assert_eq!(taken(Global, b"frame 1 0.5 3 c s from-router 0 -"), Err(LineFault::Refused));
}

#[test]
fn a_frame_is_refused_whose_bytes_are_no_digits() {
    assert_eq!(taken(Global, b"frame 1 0.5 3 c s from-client 0 fe5"), Err(LineFault::Refused));
    assert_eq!(taken(Global, b"frame 1 0.5 3 c s from-client 0 fg"), Err(LineFault::Refused));
}

#[test]
fn a_line_is_refused_that_has_words_after_its_last() {
    assert_eq!(taken(Global, b"end 1 0.5 3 4"), Err(LineFault::Refused));
    assert_eq!(taken(Global, b"frame 1 0.5 3 c s from-client 0 - -"), Err(LineFault::Refused));
}

#[test]
fn a_frame_is_refused_that_has_other_addresses_than_its_connection() {
    passes(|| -> Result<(), Fail> {
        let alloc = Global;
        let mut capture = Capture::new(alloc, Side::Server);
        capture.take_line(FRAME)?;
        let server = b"frame 1 0.5 3 10.0.0.3:50000 10.0.0.8:445 from-server 0 fd534d42";
        assert_eq!(capture.take_line(server), Err(LineFault::Refused));
        let client = b"frame 1 0.5 3 10.0.0.3:50001 10.0.0.9:445 from-server 0 fd534d42";
        assert_eq!(capture.take_line(client), Err(LineFault::Refused));
        capture.take_line(FRAME)?;
        assert_eq!(capture.report(alloc)?.counts.frames, 2);
        Ok(())
    })
}

// What a reader sees of findings.
#[test]
fn findings_are_lines_of_words() {
    passes(|| -> Result<(), Fail> {
        let alloc = Global;
        let mut capture = Capture::new(alloc, Side::Server);
        send(&mut capture, alloc, (10, 3, 0), b"\xfdSMB")?;
        ask_at_once(&mut capture, alloc)?;
        let report = capture.report(alloc)?;
        for finding in &report.files {
            let mut text = String::new(alloc);
            push_file(alloc, &mut text, finding)?;
            let wanted = "file 10.0.0.9:445 \\s\\f: unsafe, packet 26 at 26.25, 10.0.0.1:50000, 10.0.0.2:50000";
            assert_eq!(text.as_str(), wanted);
        }
        let mut text = String::new(alloc);
        push_counts(&mut text, report.counts)?;
        assert_eq!(text.as_str(), "3 connections, 17 frames, 1 of them unreadable");
        assert_eq!(report.verdict(), CaptureVerdict::Unsafe);
        Ok(())
    })
}

// The READ was sent after its host had acknowledged the grant at packet 15: what is missing was sent after that.
#[test]
fn a_client_is_not_judged_after_what_came_before_a_gap() {
    passes(|| -> Result<(), Fail> {
        let alloc = Global;
        let mut capture = Capture::new(alloc, Side::Server);
        ask(&mut capture, alloc, 11, 1)?;
        send(&mut capture, alloc, (16, 1, 2), &read(alloc, 1)?)?;
        capture.take_line(b"gap 17 17.25 1")?;
        let report = capture.report(alloc)?;
        assert_eq!(report.clients.len(), 1);
        for finding in &report.clients {
            let since = finding.since.as_ref();
            assert_eq!(since.map(|moment| moment.packet), Some(15));
        }
        Ok(())
    })
}

#[test]
fn epochs_are_words_too() {
    passes(|| -> Result<(), Fail> {
        let alloc = Global;
        let client = ClientName { number: 1, address: Bytes::new(Vec::new(alloc)) };
        let finding = EpochFinding { client, moment: None, before: 3, epoch: 7 };
        let mut text = String::new(alloc);
        push_epoch(alloc, &mut text, &finding)?;
        assert_eq!(text.as_str(), "client unknown: epoch 7 follows 3");
        Ok(())
    })
}
