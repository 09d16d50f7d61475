//! Records of what is found in a capture, of messages that are laid out by hand.

use crate::wire::capture_lines::{answer, ask, ask_at_once, close, read_and_echo, send, use_open};
use leasecheck::proved::capture_texts::{
    Capture, Judged, MessageName, MessagePart, RecordLine, Report, Side, notes_of, record_of,
};
use smblease::proved::capture_wire::Command;
use leasecheck::proved::lease_texts::push_fact;
use smblease_std::alloc::Global;
use smblease_std::prelude::{String, format};
use smblease_std::test::Fail;
use smblease_std::test::passes;

fn text_of(alloc: Global, lines: &[RecordLine]) -> Result<String, Fail> {
    let mut text = String::new(alloc);
    for line in lines {
        match line {
            RecordLine::Fact(fact) => push_fact(&mut text, fact)?,
            RecordLine::Remark(remark) => writeln!(&mut text, "# {remark}")?,
        }
    }
    Ok(text)
}

fn unsafe_report(alloc: Global) -> Result<Report, Fail> {
    let mut capture = Capture::new(alloc, Side::Server);
    ask_at_once(&mut capture, alloc)?;
    Ok(capture.report(alloc)?)
}

// The first client reads and closes before the second one asks for RW.
fn safe_report(alloc: Global) -> Result<Report, Fail> {
    let mut capture = Capture::new(alloc, Side::Server);
    ask(&mut capture, alloc, 11, 1)?;
    use_open(&mut capture, alloc, 16, 1)?;
    send(&mut capture, alloc, (18, 1, 0), &close(alloc, 1)?)?;
    answer(&mut capture, alloc, (19, 1), (6, 4))?;
    ask(&mut capture, alloc, 21, 2)?;
    use_open(&mut capture, alloc, 26, 2)?;
    Ok(capture.report(alloc)?)
}

const HEAD: &str = r"# file 1 is 10.0.0.9:445 \s\f
start 1 -
# client 1 is 10.0.0.1:50000
joined 1
# client 2 is 10.0.0.2:50000
joined 2
# packet 16 at 16.25, READ request
believes 1 1 RW
";

#[test]
fn the_record_of_an_unsafe_file_leads_to_the_clash() {
    passes(|| -> Result<(), Fail> {
        let alloc = Global;
        let record = record_of(alloc, &unsafe_report(alloc)?)?;
        let text = text_of(alloc, record.as_slice())?;
        let believed = "# packet 26 at 26.25, READ request\nbelieves 2 1 RW\n";
        let wanted = format!(in alloc; "{HEAD}{believed}")?;
        assert_eq!(text.as_str(), wanted.as_str());
        Ok(())
    })
}

// The CLOSE, of which it isn't known when it was sent, may have been sent by 16.
#[test]
fn the_record_of_a_safe_file_has_a_lease_end_before_the_next() {
    passes(|| -> Result<(), Fail> {
        let alloc = Global;
        let record = record_of(alloc, &safe_report(alloc)?)?;
        let text = text_of(alloc, record.as_slice())?;
        let ended = "# packet 16 at 16.25, READ request\nbelieves 1 1 none\n";
        let believed = "# packet 26 at 26.25, READ request\nbelieves 2 1 RW\n";
        let wanted = format!(in alloc; "{HEAD}{ended}{believed}")?;
        assert_eq!(text.as_str(), wanted.as_str());
        Ok(())
    })
}

// The second client reads by its lease in a frame that has another request too.
fn compound_report(alloc: Global) -> Result<Report, Fail> {
    let mut capture = Capture::new(alloc, Side::Server);
    ask(&mut capture, alloc, 11, 1)?;
    use_open(&mut capture, alloc, 16, 1)?;
    ask(&mut capture, alloc, 21, 2)?;
    send(&mut capture, alloc, (26, 2, 0), &read_and_echo(alloc, 2)?)?;
    answer(&mut capture, alloc, (27, 2), (8, 3))?;
    use_open(&mut capture, alloc, 28, 1)?;
    Ok(capture.report(alloc)?)
}

#[test]
fn all_messages_of_a_packet_are_named() {
    passes(|| -> Result<(), Fail> {
        let alloc = Global;
        let report = compound_report(alloc)?;
        let Some(Judged::Unsafe(clash)) = report.files.first().map(|file| &file.judged) else {
            return Err(Fail::new("the file is unsafe"));
        };
        let Some(moment) = &clash.moment else {
            return Err(Fail::new("the packet is known"));
        };
        let name = |command| MessageName { command, part: MessagePart::Request };
        assert_eq!(moment.messages.as_slice(), [name(Command::Read), name(Command::Echo)].as_slice());
        let record = record_of(alloc, &report)?;
        let text = text_of(alloc, record.as_slice())?;
        let believed = "# packet 26 at 26.25, READ request, ECHO request\nbelieves 2 1 RW\n";
        let wanted = format!(in alloc; "{HEAD}{believed}")?;
        assert_eq!(text.as_str(), wanted.as_str());
        Ok(())
    })
}

#[test]
fn notes_say_what_was_found() {
    passes(|| -> Result<(), Fail> {
        let alloc = Global;
        let notes = notes_of(alloc, &unsafe_report(alloc)?)?;
        let text = text_of(alloc, notes.as_slice())?;
        let lease = |client: u8, packet: u8| {
            format!(in alloc; "#     lease of 10.0.0.{client}:50000, ClientGuid 67756964-206f-6620-6120-636c69656e0{client}, \
key 00010203-0405-0607-0809-0a0b0c0d0e0f: RW by packet {packet} at {packet}.25 to 10.0.0.{client}:50000, not broken since\n")
        };
        let (first, second) = (lease(1, 15)?, lease(2, 25)?);
        let file = r"# file 10.0.0.9:445 \s\f: unsafe, packet 26 at 26.25, 10.0.0.1:50000, 10.0.0.2:50000";
        let counts = "# 2 connections, 16 frames, 0 of them unreadable";
        let wanted = format!(in alloc; "{file}\n{first}{second}{counts}\n")?;
        assert_eq!(text.as_str(), wanted.as_str());
        Ok(())
    })
}
