// Made by tools/plain_rust from crates/capture_wire/src/contexts.rt. Changes belong there.

use crate::proved::capture_wire::field::{Guid, has_flag, sixteen_at};
use crate::proved::lease_state::{LeaseKey, LeaseState};
use crate::proved::lease_wire::{Context, Contexts, Direction, WireFault, contexts_of_create};
use byteorder::{ByteOrder, LittleEndian};

// SMB2_LEASE_FLAG_BREAK_IN_PROGRESS
const BREAK_IN_PROGRESS: u32 = 2;

// The name of SMB2_CREATE_APP_INSTANCE_ID
const APP_INSTANCE: [u8; 16] = [0x45, 0xbc, 0xa6, 0x6a, 0xef, 0xa7, 0xf7, 0x4a, 0x90, 0x08, 0xfa, 0x46, 0x2e, 0x14, 0x4d, 0x74];

/// What an `RqLs` context of either version says (MS-SMB2 2.2.13.2.8, 2.2.13.2.10, 2.2.14.2.10, 2.2.14.2.11).
#[derive(Clone, Copy, Debug, PartialEq, Eq)]
pub struct LeaseContext {
    pub key: LeaseKey,
    /// The state that is asked for, or the one that the lease has.
    pub state: LeaseState,
    /// SMB2_LEASE_FLAG_BREAK_IN_PROGRESS, which only a response reports.
    pub breaking: bool,
    /// Epoch, where the context is of version 2.
    pub epoch: Option<u16>,
}

/// Which file it is on the server's disk, whatever its name (MS-SMB2 2.2.14.2.9).
#[derive(Clone, Copy, Debug, PartialEq, Eq)]
pub struct FileOnDisk {
    /// DiskFileId.
    pub file: u64,
    /// VolumeId.
    pub volume: u64,
}

/// What the create contexts of a CREATE request ask for, or those of a response grant. Of several of a kind the first one counts.
#[derive(Clone, Copy, Debug, PartialEq, Eq)]
pub struct CreateContexts {
    /// `RqLs` with data of either version; with data of other lengths it is passed over.
    pub lease: Option<LeaseContext>,
    /// `DHnQ` or `DH2Q`: a durable open.
    pub durable: bool,
    /// `DHnC` or `DH2C`: a durable open is to be connected again.
    pub reconnect: bool,
    /// `TWrp`: the file is opened as it was at an earlier time.
    pub snapshot: bool,
    /// `QFid` of a response, with data of 32 bytes: the file that is opened.
    pub on_disk: Option<FileOnDisk>,
    /// SMB2_CREATE_APP_INSTANCE_ID (MS-SMB2 2.2.13.2.13), with data of 20 bytes: the application that asks, wherever it runs.
    pub app_instance: Option<Guid>,
}

// The contexts that are looked for.
#[derive(Clone, Copy, Debug, PartialEq, Eq)]
pub(crate) enum Kind {
    Lease,
    Durable,
    Reconnect,
    Snapshot,
    OnDisk,
    AppInstance,
}

fn is_of_kind(kind: Kind, context: &Context<'_>) -> bool {
    let (name, size) = (context.name, context.body.len());
    match kind {
        Kind::Lease => name == b"RqLs".as_slice() && (size == 32 || size == 52),
        Kind::Durable => name == b"DHnQ".as_slice() || name == b"DH2Q".as_slice(),
        Kind::Reconnect => name == b"DHnC".as_slice() || name == b"DH2C".as_slice(),
        Kind::Snapshot => name == b"TWrp".as_slice(),
        Kind::OnDisk => name == b"QFid".as_slice() && size == 32,
        Kind::AppInstance => name == APP_INSTANCE.as_slice() && size == 20,
    }
}

// The first context of a kind, of those before a fault.
fn find_context<'a>(kind: Kind, contexts: Contexts<'a>) -> Option<Context<'a>> {
    for item in contexts {
        match item {
            Err(_fault) => return None,
            Ok(context) => {
                if is_of_kind(kind, &context) {
                    return Some(context);
                }
            }
        }
    }
    None
}

// The fault that contexts end with.
fn check_contexts(contexts: Contexts<'_>) -> Result<(), WireFault> {
    for item in contexts {
        item?;
    }
    Ok(())
}

fn epoch(body: &[u8]) -> Option<u16> {
    if body.len() == 52 { Some(LittleEndian::read_u16(&body[48..])) } else { None }
}

fn is_breaking(direction: Direction, body: &[u8]) -> bool {
    match direction {
        Direction::Request => false,
        Direction::Reply => has_flag(BREAK_IN_PROGRESS, LittleEndian::read_u32(&body[20..])),
    }
}

fn read_lease(direction: Direction, body: &[u8]) -> LeaseContext {
    LeaseContext {
        key: LeaseKey(sixteen_at(body, 0)),
        state: LeaseState::from_wire(LittleEndian::read_u32(&body[16..])),
        breaking: is_breaking(direction, body),
        epoch: epoch(body),
    }
}

fn lease_of(direction: Direction, contexts: Contexts<'_>) -> Option<LeaseContext> {
    match find_context(Kind::Lease, contexts) {
        Some(context) => Some(read_lease(direction, context.body)),
        None => None,
    }
}

fn on_disk_of(contexts: Contexts<'_>) -> Option<FileOnDisk> {
    let context = find_context(Kind::OnDisk, contexts)?;
    Some(FileOnDisk { file: LittleEndian::read_u64(context.body), volume: LittleEndian::read_u64(&context.body[8..]) })
}

fn app_instance_of(contexts: Contexts<'_>) -> Option<Guid> {
    let context = find_context(Kind::AppInstance, contexts)?;
    Some(Guid(sixteen_at(context.body, 4)))
}

/// What the create contexts of a whole CREATE request or response say (MS-SMB2 2.2.13.2, 2.2.14.2), from its header on.
///
/// # Errors
///
/// Those of `lease_wire::contexts_of_create`, and else the first fault in the layout of the contexts, with its place from the
/// header's start on.
pub fn read_create_contexts(direction: Direction, message: &[u8]) -> Result<CreateContexts, WireFault> {
    check_contexts(contexts_of_create(direction, message)?)?;
    let lease = lease_of(direction, contexts_of_create(direction, message)?);
    let durable = find_context(Kind::Durable, contexts_of_create(direction, message)?).is_some();
    let reconnect = find_context(Kind::Reconnect, contexts_of_create(direction, message)?).is_some();
    let snapshot = find_context(Kind::Snapshot, contexts_of_create(direction, message)?).is_some();
    let on_disk = on_disk_of(contexts_of_create(direction, message)?);
    let app_instance = app_instance_of(contexts_of_create(direction, message)?);
    Ok(CreateContexts { lease, durable, reconnect, snapshot, on_disk, app_instance })
}
