//! The requests and responses of a capture, by bytes that are laid out by hand as MS-SMB2 has them.

use smblease::proved::capture_wire::{
    CloseRequest, CreateRequest, CreateResponse, Guid, MessageFault, NegotiateRequest, NegotiateResponse, ReadRequest, Rename,
    SessionSetupRequest, SetInfoRequest, Smb2FileId, TreeConnectRequest, WriteRequest, read_close_request, read_create_request,
    read_create_response, read_disposition, read_header, read_negotiate_request, read_negotiate_response, read_read_request,
    read_rename, read_session_setup_request, read_set_info_request, read_tree_connect_request, read_write_request,
};
use smblease_std::alloc::Global;
use smblease_std::prelude::Vec;
use smblease_std::test::Fail;
use smblease_std::test::passes;

const FILE_ID: Smb2FileId = Smb2FileId { persistent: 5, volatile: 6 };

// A message with this body after its header, of which these readers look at nothing.
fn message(alloc: Global, body: &[u8]) -> Result<Vec<u8>, Fail> {
    let mut message = Vec::from_slice(alloc, &[0xee; 64])?;
    message.extend_from_slice(body)?;
    Ok(message)
}

// The example at the top of the crate.
#[test]
fn the_example_of_captures_holds() {
    let mut message = [0; 88];
    message[..6].copy_from_slice(b"\xfeSMB\x40\0");
    message[12] = 6;
    message[64] = 24;
    message[72] = 5;
    assert_eq!(read_header(&message).map(|header| header.command), Ok(6));
    let file_id = Smb2FileId { persistent: 5, volatile: 0 };
    assert_eq!(read_close_request(&message), Ok(CloseRequest { file_id }));
    assert_eq!(read_close_request(&message[..87]), Err(MessageFault::Short));
}

#[test]
fn connections_are_read() {
    passes(|| -> Result<(), Fail> {
        // StructureSize 36, two dialects, SecurityMode, Capabilities, ClientGuid, ClientStartTime, 2.0.2 and 2.1
        let mut request = message(Global, b"\x24\0\x02\0\x01\0\0\0\x7f\0\0\0guid of a client\0\0\0\0\0\0\0\0\x02\x02\x10\x02")?;
        let negotiate = NegotiateRequest { client_guid: Guid(*b"guid of a client"), dialects: b"\x02\x02\x10\x02" };
        assert_eq!(read_negotiate_request(&request), Ok(negotiate));
        assert!(negotiate.offers(0x0210));
        assert!(!negotiate.offers(0x0311));
        request.truncate(103);
        assert_eq!(read_negotiate_request(&request), Err(MessageFault::Outside));

        // StructureSize 65, SecurityMode, DialectRevision 2.1, ServerGuid; Capabilities and sizes, times, the buffer
        let response = message(
            Global,
            b"\x41\0\x01\0\x10\x02\0\0guid of a serverccccttttrrrrwwww\
SYSTEM__START___\x80\0\0\0\0\0\0\0",
        )?;
        let negotiate = NegotiateResponse { dialect_revision: 0x210, server_guid: Guid(*b"guid of a server") };
        assert_eq!(read_negotiate_response(&response), Ok(negotiate));
        assert_eq!(read_negotiate_response(&request), Err(MessageFault::Short));
        Ok(())
    })
}

#[test]
fn sessions_and_trees_are_read() {
    passes(|| -> Result<(), Fail> {
        // StructureSize 25, BINDING, SecurityMode, Capabilities, Channel, the security buffer, PreviousSessionId
        let request = message(Global, b"\x19\0\x01\x02\x01\0\0\0\0\0\0\0\x58\0\0\0\x09\0\0\0\0\0\0\x01")?;
        let session = SessionSetupRequest { binding: true, previous_session_id: 0x0100_0000_0000_0009 };
        assert_eq!(read_session_setup_request(&request), Ok(session));

        // StructureSize 9, Flags, PathOffset 74, PathLength 4, two bytes, the path
        let mut request = message(Global, b"\x09\0\0\0\x4a\0\x04\0--\\\0s\0")?;
        let tree = TreeConnectRequest { path: b"\\\0s\0" };
        assert_eq!(read_tree_connect_request(&request), Ok(tree));
        request.truncate(77);
        assert_eq!(read_tree_connect_request(&request), Err(MessageFault::Outside));
        assert_eq!(read_close_request(&request), Err(MessageFault::Short));
        Ok(())
    })
}

#[test]
fn creates_are_read() {
    passes(|| -> Result<(), Fail> {
        // StructureSize 57, SecurityFlags, a lease, ImpersonationLevel, SmbCreateFlags, Reserved; DesiredAccess, FileAttributes,
        // ShareAccess, CreateDisposition, CreateOptions; NameOffset 120, NameLength 4, no contexts, the name
        let request = message(
            Global,
            b"\x39\0\0\xff\x02\0\0\0ffffffffrrrrrrrr\x89\0\x12\0\x80\0\0\0\x07\0\0\0\
\x03\0\0\0\x60\0\0\0\x78\0\x04\0\0\0\0\0\0\0\0\0n\0e\0",
        )?;
        let create = CreateRequest {
            oplock_level: 0xff,
            desired_access: 0x0012_0089,
            share_access: 7,
            disposition: 3,
            options: 0x60,
            name: b"n\0e\0",
        };
        assert_eq!(read_create_request(&request), Ok(create));
        assert_eq!(read_create_response(&request), Err(MessageFault::Short));

        // StructureSize 89, a lease, Flags, FILE_CREATED; four times, two sizes, FileAttributes, Reserved2; FileId, no contexts
        let response = message(
            Global,
            b"\x59\0\xff\0\x02\0\0\0CREATED_ACCESSEDWRITTEN_CHANGED_allocateend_file\x20\0\0\0\0\0\0\0\
\x05\0\0\0\0\0\0\0\x06\0\0\0\0\0\0\0\0\0\0\0\0\0\0\0",
        )?;
        let create = CreateResponse {
            oplock_level: 0xff,
            action: 2,
            creation_time: 0x5f44_4554_4145_5243,
            attributes: 0x20,
            file_id: FILE_ID,
        };
        assert_eq!(read_create_response(&response), Ok(create));
        assert_eq!(read_create_request(&response), Err(MessageFault::WrongSize));
        Ok(())
    })
}

#[test]
fn reads_writes_and_closes_are_read() {
    passes(|| -> Result<(), Fail> {
        // StructureSize 49, Padding, Flags, Length 0x200, Offset 0x10, FileId, MinimumCount and others
        let mut request = message(
            Global,
            b"\x31\0\x50\0\0\x02\0\0\x10\0\0\0\0\0\0\0\x05\0\0\0\0\0\0\0\x06\0\0\0\0\0\0\0\
mmmmccccrrrriill",
        )?;
        let read = ReadRequest { file_id: FILE_ID, offset: 0x10, length: 0x200 };
        let write = WriteRequest { file_id: FILE_ID, offset: 0x10, length: 0x200 };
        assert_eq!(read_read_request(&request), Ok(read));
        assert_eq!(read_write_request(&request), Ok(write));
        request.truncate(111);
        assert_eq!(read_write_request(&request), Err(MessageFault::Short));

        // StructureSize 24, Flags, Reserved, FileId
        let request = message(Global, b"\x18\0\x01\0rrrr\x05\0\0\0\0\0\0\0\x06\0\0\0\0\0\0\0")?;
        assert_eq!(read_close_request(&request), Ok(CloseRequest { file_id: FILE_ID }));
        Ok(())
    })
}

#[test]
fn renames_are_read() {
    passes(|| -> Result<(), Fail> {
        // StructureSize 33, a file's FileRenameInformation, BufferLength 22, BufferOffset 96, Reserved, AdditionalInformation,
        // FileId; ReplaceIfExists, Reserved, RootDirectory, FileNameLength 2, FileName
        let request = message(
            Global,
            b"\x21\0\x01\x0a\x16\0\0\0\x60\0rraaaa\x05\0\0\0\0\0\0\0\x06\0\0\0\0\0\0\0\
\x01rrrrrrr\0\0\0\0\0\0\0\0\x02\0\0\0m\0",
        )?;
        let buffer = b"\x01rrrrrrr\0\0\0\0\0\0\0\0\x02\0\0\0m\0";
        let set_info = SetInfoRequest { info_type: 1, class: 10, file_id: FILE_ID, buffer };
        assert_eq!(read_set_info_request(&request), Ok(set_info));

        let rename = Rename { replace_if_exists: true, name: b"m\0" };
        assert_eq!(read_rename(buffer), Ok(rename));
        assert_eq!(read_rename(&buffer[..21]), Err(MessageFault::Outside));
        assert_eq!(read_rename(&buffer[..19]), Err(MessageFault::Short));
        Ok(())
    })
}

#[test]
fn deletions_are_read() {
    assert_eq!(read_disposition(&[1]), Ok(true));
    assert_eq!(read_disposition(&[0]), Ok(false));
    assert_eq!(read_disposition(&[]), Err(MessageFault::Short));
}
