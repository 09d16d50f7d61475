//! What the messages of a capture say, by bytes that are laid out by hand as MS-SMB2 has them.

use crate::wire::KEY;
use smblease::proved::capture_wire::{
    DurableReconnectV2, DurableRequestV2, DurableResponseV2, Guid, Header, LeaseV2, MessageFault, Smb2FileId, TreeOrAsync,
    read_durable_reconnect_v2, read_durable_request_v2, read_durable_response_v2, read_header, read_lease_v2, read_new_epoch,
};
use smblease::proved::lease_state::{LeaseKey, LeaseState};
use smblease::proved::lease_wire::Direction;
use smblease_std::alloc::{AllocError, Global};
use smblease_std::prelude::format;
use smblease_std::test::Fail;
use smblease_std::test::passes;

const GUID: Guid = Guid(*b"guid of a create");

const FILE_ID: Smb2FileId = Smb2FileId { persistent: 0x0102, volatile: 0x0304_0000_0000_0000 };

// LeaseKey; RH; a parent key is set, and a break is in progress; LeaseDuration; ParentLeaseKey; Epoch 0x0201; Reserved.
const LEASE: &[u8; 52] = b"\0\x01\x02\x03\x04\x05\x06\x07\x08\x09\x0a\x0b\x0c\x0d\x0e\x0f\
\x03\0\0\0\x06\0\0\0\0\0\0\0\0\0\0\0parent lease key\x01\x02\0\0";

#[test]
fn leases_of_version_2_are_read() {
    let reply = LeaseV2 {
        key: KEY,
        state: LeaseState::from_wire(3),
        breaking: true,
        parent: Some(LeaseKey(*b"parent lease key")),
        epoch: 0x0201,
    };
    let request = LeaseV2 { breaking: false, ..reply };
    assert_eq!(read_lease_v2(Direction::Reply, LEASE), Ok(reply));
    assert_eq!(read_lease_v2(Direction::Request, LEASE), Ok(request));
    assert_eq!(read_lease_v2(Direction::Request, &LEASE[..32]), Err(MessageFault::WrongLength));
}

#[test]
fn a_parent_key_that_is_not_set_is_none() {
    let mut bytes = *LEASE;
    bytes[20] = 0;
    let parent = read_lease_v2(Direction::Reply, &bytes).map(|lease| lease.parent);
    assert_eq!(parent, Ok(None));
}

#[test]
fn durable_contexts_of_version_2_are_read() {
    let request = DurableRequestV2 { timeout: 60_000, persistent: true, create_guid: GUID };
    let bytes = b"\x60\xea\0\0\x02\0\0\0\0\0\0\0\0\0\0\0guid of a create";
    assert_eq!(read_durable_request_v2(bytes), Ok(request));
    assert_eq!(read_durable_request_v2(&bytes[..8]), Err(MessageFault::WrongLength));

    let response = DurableResponseV2 { timeout: 60_000, persistent: true };
    assert_eq!(read_durable_response_v2(&bytes[..8]), Ok(response));

    let reconnect = DurableReconnectV2 { file_id: FILE_ID, create_guid: GUID, persistent: false };
    let bytes = b"\x02\x01\0\0\0\0\0\0\0\0\0\0\0\0\x04\x03guid of a create\0\0\0\0";
    assert_eq!(read_durable_reconnect_v2(bytes), Ok(reconnect));
}

// ProtocolId, StructureSize, CreditCharge, Status STATUS_PENDING, CREATE, CreditResponse, Flags, NextCommand 128, MessageId;
// AsyncId or Reserved and TreeId; SessionId, Signature.
const HEADER: &[u8; 64] = b"\xfeSMB\x40\0\x01\0\x03\x01\0\0\x05\0\x01\0\x03\0\0\0\x80\0\0\0\
\x09\0\0\0\0\0\0\0\x07\0\0\0\x08\0\0\0\x0a\0\0\0\0\0\0\x0bsignature of it.";

#[test]
fn headers_are_read() {
    let header = Header {
        status: 0x103,
        command: 5,
        response: true,
        related: false,
        next_command: 128,
        message_id: 9,
        tree_or_async: TreeOrAsync::AsyncId(0x8_0000_0007),
        session_id: 0x0b00_0000_0000_000a,
    };
    assert_eq!(read_header(HEADER), Ok(header));

    let mut bytes = *HEADER;
    bytes[16] = 4;
    let request = Header { response: false, related: true, tree_or_async: TreeOrAsync::TreeId(8), ..header };
    assert_eq!(read_header(&bytes), Ok(request));
}

#[test]
fn bytes_without_a_header_are_refused() {
    passes(|| -> Result<(), Fail> {
        let mut bytes = *HEADER;
        assert_eq!(read_header(&bytes[..63]), Err(MessageFault::Short));
        bytes[4] = 65;
        assert_eq!(read_header(&bytes), Err(MessageFault::WrongSize));
        bytes[0] = 0xfd;
        assert_eq!(read_header(&bytes), Err(MessageFault::WrongProtocol));
        let text = format!(in Global; "{}", MessageFault::WrongProtocol)?;
        assert_eq!(text.as_str(), "no SMB2 message");
        Ok(())
    })
}

#[test]
fn the_epoch_after_a_break_is_read() {
    let mut message = [0xee; 108];
    message[64..68].copy_from_slice(b"\x2c\0\x03\x04");
    assert_eq!(read_new_epoch(&message), Ok(0x0403));
    assert_eq!(read_new_epoch(&message[..107]), Err(MessageFault::Short));
}

fn says(alloc: Global, fault: MessageFault, words: &str) -> Result<bool, AllocError> {
    Ok(format!(in alloc; "{fault}")?.as_str() == words)
}

#[test]
fn faults_say_what_is_wrong() {
    passes(|| -> Result<(), Fail> {
        let alloc = Global;
        assert!(says(alloc, MessageFault::Short, "too few bytes")?);
        assert!(says(alloc, MessageFault::WrongProtocol, "no SMB2 message")?);
        assert!(says(alloc, MessageFault::WrongSize, "the StructureSize of another message")?);
        assert!(says(alloc, MessageFault::WrongLength, "data of another length")?);
        assert!(says(alloc, MessageFault::Outside, "a part outside the message")?);
        Ok(())
    })
}
