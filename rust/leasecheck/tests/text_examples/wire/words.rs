//! What people read of a capture: words for what is decided of a file, for why a client isn't judged, and for messages.

use leasecheck::proved::capture_texts::{
    Clash, ClientFinding, ClientName, FileFinding, FilePlace, Judged, MessageName, MessagePart, push_file, push_lost,
};
use leasecheck::proved::capture_walk::NotJudged;
use smblease::proved::capture_wire::Command;
use smblease::proved::lease_state::Bytes;
use smblease_std::alloc::Global;
use smblease_std::prelude::{String, Vec, format};
use smblease_std::test::Fail;
use smblease_std::test::passes;

fn said_of(alloc: Global, place: Option<FilePlace>, judged: Judged) -> Result<String, Fail> {
    let file = FileFinding {
        file: 1,
        place,
        judged,
        clients: Vec::new(alloc),
        beliefs: Vec::new(alloc),
        leases: Vec::new(alloc),
    };
    let mut text = String::new(alloc);
    push_file(alloc, &mut text, &file)?;
    Ok(text)
}

#[test]
fn what_is_decided_of_a_file_has_words() {
    passes(|| -> Result<(), Fail> {
        for (judged, words) in [
            (Judged::Safe, "file: safe"),
            (Judged::Unsafe(Clash { position: 1, moment: None }), "file: unsafe"),
            (Judged::Granted(Clash { position: 1, moment: None }), "file: unsafe by the server's grants"),
            (Judged::NoClient, "file: not judged, no client of it is"),
            (Judged::Contradictory, "file: not judged, what is shown can't have happened"),
            (Judged::TooMany, "file: not judged, it can have happened in too many ways"),
        ] {
            assert_eq!(said_of(Global, None, judged)?.as_str(), words);
        }
        Ok(())
    })
}

// A pair of units is one character; half a pair, what nobody sees, what turns the text round, and half a unit are written by numbers.
#[test]
fn names_are_shown_as_they_are_but_for_what_is_not_seen() {
    passes(|| -> Result<(), Fail> {
        let alloc = Global;
        let bytes = |bytes: &[u8]| -> Result<Bytes, Fail> { Ok(Bytes::new(Vec::from_slice(alloc, bytes)?)) };
        for (name, shown) in [
            (&b"a\0\xe9\0"[..], "a\u{e9}"),
            (b"\x3d\xd8\x00\xde", "\u{1f600}"),
            (b"\x3d\xd8a\0", "\\u{d83d}a"),
            (b"\x00\xdea\0", "\\u{de00}a"),
            (b"\x3d\xd8", "\\u{d83d}"),
            (b"\x3d\xd8\x3d\xd8\x00\xde", "\\u{d83d}\u{1f600}"),
            (b"\n\0\x7f\0\x9f\0\xa0\0", "\\u{a}\\u{7f}\\u{9f}\u{a0}"),
            (b"\x0d\x20\x0e\x20\x0f\x20\x10\x20", "\u{200d}\\u{200e}\\u{200f}\u{2010}"),
            (b"\x27\x20\x28\x20\x2e\x20\x2f\x20", "\u{2027}\\u{2028}\\u{202e}\u{202f}"),
            (b"\x65\x20\x66\x20\x69\x20\x6a\x20", "\u{2065}\\u{2066}\\u{2069}\u{206a}"),
            (b"a\0b", "a\\x62"),
            (b"\x3d\xd8\x00", "\\u{d83d}\\x00"),
            (b"", ""),
        ] {
            let place = FilePlace { server: bytes(b"10.0.0.9:445")?, path: bytes(b"s\0")?, name: bytes(name)? };
            let wanted = format!(in alloc; "file 10.0.0.9:445 s\\{shown}: safe")?;
            assert_eq!(said_of(alloc, Some(place), Judged::Safe)?.as_str(), wanted.as_str());
        }
        Ok(())
    })
}

fn unjudged(alloc: Global, reason: NotJudged) -> Result<String, Fail> {
    let client = ClientName { number: 1, address: Bytes::new(Vec::from_slice(alloc, b"10.0.0.1:50000")?) };
    let finding = ClientFinding { client, since: None, reason };
    let mut text = String::new(alloc);
    push_lost(alloc, &mut text, &finding)?;
    Ok(text)
}

#[test]
fn each_reason_why_a_client_is_not_judged_has_words() {
    passes(|| -> Result<(), Fail> {
        let missing = unjudged(Global, NotJudged::Missing)?;
        assert_eq!(missing.as_str(), "client 10.0.0.1:50000: not judged, something of it is missing or can't be read");
        let disputed = unjudged(Global, NotJudged::Disputed)?;
        assert_eq!(
            disputed.as_str(),
            "client 10.0.0.1:50000: not judged, it has one key for two files, or learns of a lease over several connections without an order"
        );
        let stranger = unjudged(Global, NotJudged::Stranger)?;
        assert_eq!(
            stranger.as_str(),
            "client 10.0.0.1:50000: not judged, a break under its key comes over a connection of which it isn't known whose it is"
        );
        Ok(())
    })
}

// The names of MS-SMB2 2.2.1.2.
#[test]
fn messages_have_the_names_of_their_commands() {
    passes(|| -> Result<(), Fail> {
        let alloc = Global;
        for (command, words) in [
            (Command::Negotiate, "NEGOTIATE request"),
            (Command::SessionSetup, "SESSION_SETUP request"),
            (Command::Logoff, "LOGOFF request"),
            (Command::TreeConnect, "TREE_CONNECT request"),
            (Command::TreeDisconnect, "TREE_DISCONNECT request"),
            (Command::Create, "CREATE request"),
            (Command::Close, "CLOSE request"),
            (Command::Flush, "FLUSH request"),
            (Command::Read, "READ request"),
            (Command::Write, "WRITE request"),
            (Command::Lock, "LOCK request"),
            (Command::Ioctl, "IOCTL request"),
            (Command::Cancel, "CANCEL request"),
            (Command::Echo, "ECHO request"),
            (Command::QueryDirectory, "QUERY_DIRECTORY request"),
            (Command::ChangeNotify, "CHANGE_NOTIFY request"),
            (Command::QueryInfo, "QUERY_INFO request"),
            (Command::SetInfo, "SET_INFO request"),
            (Command::OplockBreak, "OPLOCK_BREAK request"),
        ] {
            let name = MessageName { command, part: MessagePart::Request };
            let text = format!(in alloc; "{name}")?;
            assert_eq!(text.as_str(), words);
        }
        let answer = MessageName { command: Command::Create, part: MessagePart::Response };
        let notice = MessageName { command: Command::OplockBreak, part: MessagePart::Notification };
        let text = format!(in alloc; "{answer}, {notice}")?;
        assert_eq!(text.as_str(), "CREATE response, OPLOCK_BREAK notification");
        Ok(())
    })
}
