//! Whole messages of a capture, by bytes that are laid out by hand as MS-SMB2 has them.

use crate::wire::KEY;
use smblease::proved::capture_wire::{
    CloseRequest, Command, Content, CreateContexts, LeaseContext, Message, MessageFault, Request, Response, Smb2FileId,
    Unreadable, read_create_contexts, read_message,
};
use smblease::proved::lease_state::LeaseState;
use smblease::proved::lease_wire::{Acknowledgment, BreakResponse, Direction, Notification, WireFault};
use smblease_std::alloc::Global;
use smblease_std::prelude::Vec;
use smblease_std::test::Fail;
use smblease_std::test::passes;

const FILE_ID: Smb2FileId = Smb2FileId { persistent: 5, volatile: 6 };

// MessageId 9, and that of a message that answers no request.
const ASKED: &[u8; 8] = b"\x09\0\0\0\0\0\0\0";

const UNASKED: &[u8; 8] = &[0xff; 8];

// A message of a command, from the client (0) or the server (1), with this MessageId and this body after its header.
fn message(alloc: Global, command: u8, flags: u8, id: &[u8; 8], body: &[u8]) -> Result<Vec<u8>, Fail> {
    let mut message = Vec::from_slice(alloc, b"\xfeSMB\x40\0\0\0\0\0\0\0")?;
    message.extend_from_slice(&[command, 0, 0, 0, flags, 0, 0, 0, 0, 0, 0, 0])?;
    message.extend_from_slice(id)?;
    message.extend_from_slice(&[0; 32])?;
    message.extend_from_slice(body)?;
    Ok(message)
}

fn content(bytes: &[u8]) -> Result<Content<'_>, Unreadable> {
    read_message(bytes).map(|message: Message<'_>| message.content)
}

#[test]
fn requests_are_read_by_their_command() {
    passes(|| -> Result<(), Fail> {
        // StructureSize 24, Flags, FileId
        let body = b"\x18\0\0\0\0\0\0\0\x05\0\0\0\0\0\0\0\x06\0\0\0\0\0\0\0";
        let close = message(Global, 6, 0, ASKED, body)?;
        let closes = Request::Close(CloseRequest { file_id: FILE_ID });
        assert_eq!(content(&close), Ok(Content::Request(closes)));
        let mut flush = message(Global, 7, 0, ASKED, body)?;
        assert_eq!(content(&flush), Ok(Content::Request(Request::OnOpen(FILE_ID))));
        flush.truncate(87);
        assert_eq!(content(&flush), Err(Unreadable::Message(MessageFault::Short)));
        let echo = message(Global, 13, 0, ASKED, b"\x04\0\0\0")?;
        assert_eq!(content(&echo), Ok(Content::Request(Request::Other)));
        let answer = message(Global, 6, 1, ASKED, body)?;
        assert_eq!(content(&answer), Ok(Content::Response(Response::Other)));
        assert_eq!(Command::of(18), Command::OplockBreak);
        Ok(())
    })
}

#[test]
fn breaks_are_read() {
    passes(|| -> Result<(), Fail> {
        // StructureSize 36, Reserved, Flags, the key, R, LeaseDuration
        let body = b"\x24\0\0\0\0\0\0\0\0\x01\x02\x03\x04\x05\x06\x07\x08\x09\x0a\x0b\x0c\x0d\x0e\x0f\
\x01\0\0\0\0\0\0\0\0\0\0\0";
        let (key, state) = (KEY, LeaseState::from_wire(1));
        let given = message(Global, 18, 0, ASKED, body)?;
        let acknowledges = Request::Acknowledge(Acknowledgment { key, state });
        assert_eq!(content(&given), Ok(Content::Request(acknowledges)));
        let accepted = message(Global, 18, 1, ASKED, body)?;
        let accepts = Response::Accepted(BreakResponse { key, state });
        assert_eq!(content(&accepted), Ok(Content::Response(accepts)));
        // an acknowledgment of an oplock break
        let oplock = message(Global, 18, 0, ASKED, b"\x18\0\x01\0\0\0\0\0aaaaaaaabbbbbbbb")?;
        assert!(matches!(content(&oplock), Ok(Content::Request(Request::Other))));
        Ok(())
    })
}

#[test]
fn a_notification_answers_no_request() {
    passes(|| -> Result<(), Fail> {
        let notification =
            Notification { ack_required: true, key: KEY, current: LeaseState::from_wire(7), new: LeaseState::from_wire(3) };
        let mut body = notification.encode();
        body[2] = 3;
        body[3] = 4;
        let asked = message(Global, 18, 1, ASKED, &body)?;
        assert!(matches!(content(&asked), Ok(Content::Response(Response::Other))));
        let bytes = message(Global, 18, 1, UNASKED, &body)?;
        let breaks = Response::Break(notification, 0x0403);
        assert_eq!(content(&bytes), Ok(Content::Response(breaks)));
        Ok(())
    })
}

// StructureSize 57, and what this test doesn't look at; no name, and 80 bytes of contexts at 120: RqLs of version 2.
#[test]
fn contexts_of_version_2_are_found() {
    passes(|| -> Result<(), Fail> {
        let mut body = Vec::from_slice(Global, b"\x39\0")?;
        body.extend_from_slice(&[0; 46])?;
        body.extend_from_slice(b"\x78\0\0\0\x50\0\0\0")?;
        body.extend_from_slice(
            b"\0\0\0\0\x10\0\x04\0\0\0\x18\0\x34\0\0\0RqLs\0\0\0\0\
\0\x01\x02\x03\x04\x05\x06\x07\x08\x09\x0a\x0b\x0c\x0d\x0e\x0f\x07\0\0\0\0\0\0\0\0\0\0\0\0\0\0\0\
pppppppppppppppp\x02\x01\0\0\0\0\0\0",
        )?;
        let mut bytes = message(Global, 5, 0, ASKED, &body)?;
        let lease = LeaseContext { key: KEY, state: LeaseState::from_wire(7), breaking: false, epoch: Some(0x0102) };
        let wanted = CreateContexts {
            lease: Some(lease),
            durable: false,
            reconnect: false,
            snapshot: false,
            on_disk: None,
            app_instance: None,
        };
        assert_eq!(read_create_contexts(Direction::Request, &bytes), Ok(wanted));
        bytes.truncate(190);
        assert_eq!(read_message(&bytes).err(), Some(Unreadable::Contexts(WireFault::BadData(120))));
        Ok(())
    })
}
