// Made by tools/plain_rust from crates/kept_opens/src/tests.rt. Changes belong there.

use std::prelude::{HostRuntime, Vec, format};

use super::*;
use crate::proved::lease_manager::{Ask, ClientNo, CreateAsk, FileNo, KeptOpen, Manager, Tag};
use crate::proved::lease_state::{Access, FileId, LeaseKey, LeaseState, Memory, Rules, Share};
use sha2::{Digest, Sha256};
use std::alloc::Global;
use std::test::Fail;

const ONE: KeptOpen = KeptOpen {
    file_id: FileId(0x0102_0304_0506_0708),
    client: ClientNo(0x1112_1314_1516_1718),
    file: FileNo(0x2122_2324_2526_2728),
    key: LeaseKey([0x30, 0x31, 0x32, 0x33, 0x34, 0x35, 0x36, 0x37, 0x38, 0x39, 0x3a, 0x3b, 0x3c, 0x3d, 0x3e, 0x3f]),
    access: Access::Write,
    share: Share::Read,
    state: LeaseState::NONE,
};

const LAST: FileId = FileId(0x1122_3344_5566_7788);

// The bytes of `ONE` with a lease of all three rights, from the format by hand; the digest is that of Python's hashlib.
const TEXT: [u8; 72] = [
    0x53, 0x4d, 0x42, 0x4b, 0x45, 0x50, 0x54, 0x31, 0x88, 0x77, 0x66, 0x55, 0x44, 0x33, 0x22, 0x11, 0x01, 0x00, 0x00, 0x00, 0x00,
    0x00, 0x00, 0x00, 0x08, 0x07, 0x06, 0x05, 0x04, 0x03, 0x02, 0x01, 0x18, 0x17, 0x16, 0x15, 0x14, 0x13, 0x12, 0x11, 0x28, 0x27,
    0x26, 0x25, 0x24, 0x23, 0x22, 0x21, 0x30, 0x31, 0x32, 0x33, 0x34, 0x35, 0x36, 0x37, 0x38, 0x39, 0x3a, 0x3b, 0x3c, 0x3d, 0x3e,
    0x3f, 0x02, 0x01, 0x07, 0x00, 0x00, 0x00, 0x00, 0x00,
];

const DIGEST: [u8; 32] = [
    0x58, 0x31, 0x5c, 0x7c, 0x9b, 0x9d, 0x41, 0x4a, 0xea, 0x85, 0x23, 0x77, 0x0a, 0xed, 0xd6, 0x63, 0xaf, 0x95, 0x54, 0x18, 0xef,
    0x61, 0x77, 0x0c, 0x79, 0x97, 0x7e, 0xbc, 0xd5, 0x6a, 0xf8, 0x6f,
];

fn joined(text: &[u8; 72], digest: &[u8; 32]) -> [u8; 104] {
    let mut bytes = [0u8; 104];
    bytes[..72].copy_from_slice(text);
    bytes[72..].copy_from_slice(digest);
    bytes
}

fn bytes_by_hand() -> [u8; 104] {
    joined(&TEXT, &DIGEST)
}

fn one() -> KeptOpen {
    KeptOpen { state: LeaseState::from_wire(7), ..ONE }
}

// The example at the top of the crate.
#[test]
fn the_example_holds() {
    std::test::passes(|| -> Result<(), Fail> {
        let rt = HostRuntime::host();
        let alloc = rt.alloc();
        let other = KeptOpen { file_id: FileId(9), access: Access::ReadWrite, share: Share::Nothing, ..ONE };
        let kept = [one(), other];
        let bytes = write(alloc, FileId(9), &kept)?;
        assert_eq!(bytes.len(), 152);
        let back = read(alloc, bytes.as_slice())?;
        assert_eq!(back.last, FileId(9));
        assert_eq!(back.opens.as_slice(), kept.as_slice());
        Ok(())
    })
}

#[test]
fn bytes_are_as_by_hand() {
    std::test::passes(|| -> Result<(), Fail> {
        let rt = HostRuntime::host();
        let alloc = rt.alloc();
        let by_hand = bytes_by_hand();
        let bytes = write(alloc, LAST, &[one()])?;
        assert_eq!(bytes.as_slice(), by_hand.as_slice());
        let back = read(alloc, &by_hand)?;
        assert_eq!(back.last, LAST);
        assert_eq!(back.opens.as_slice(), [one()].as_slice());
        Ok(())
    })
}

fn is_damaged(rt: &HostRuntime, bytes: &[u8]) -> bool {
    match read(rt.alloc(), bytes) {
        Ok(_) => false,
        Err(error) => error == ReadError::Damaged,
    }
}

#[test]
fn each_damaged_byte_is_refused() {
    let rt = HostRuntime::host();
    for place in 0..104 {
        for change in [1, 0x80, 0xff] {
            let mut bytes = bytes_by_hand();
            bytes[place] ^= change;
            assert!(is_damaged(&rt, &bytes), "{place} by {change}");
        }
    }
}

#[test]
fn bytes_cut_off_or_followed_are_refused() {
    std::test::passes(|| -> Result<(), Fail> {
        let rt = HostRuntime::host();
        let bytes = bytes_by_hand();
        for count in 0..104 {
            assert!(is_damaged(&rt, &bytes[..count]), "{count}");
        }
        let mut more = Vec::from_slice(rt.alloc(), &bytes)?;
        more.push(0)?;
        assert!(is_damaged(&rt, more.as_slice()));
        Ok(())
    })
}

// The bytes by hand with another byte at a place and the digest that they then have.
fn sealed(place: usize, byte: u8) -> [u8; 104] {
    let mut text = TEXT;
    if place < 72 {
        text[place] = byte;
    }
    let mut digest = [0u8; 32];
    digest.copy_from_slice(Sha256::digest(&text).as_slice());
    joined(&text, &digest)
}

#[test]
fn what_no_open_has_is_refused() {
    let rt = HostRuntime::host();
    assert!(!is_damaged(&rt, &sealed(64, 1)));
    // The magic, the number of opens, the access, the share, the state, and the bytes that are 0.
    let cases =
        [(0, 0x73), (7, 0x32), (16, 0), (16, 2), (23, 1), (23, 0xff), (64, 0), (64, 4), (65, 4), (66, 8), (67, 1), (71, 1)];
    for (place, byte) in cases {
        assert!(is_damaged(&rt, &sealed(place, byte)), "{byte} at {place}");
    }
}

#[test]
fn no_opens_are_kept_too() {
    std::test::passes(|| -> Result<(), Fail> {
        let rt = HostRuntime::host();
        let bytes = write(rt.alloc(), FileId(0), &[])?;
        assert_eq!(bytes.len(), 56);
        let back = read(rt.alloc(), bytes.as_slice())?;
        assert_eq!(back.last, FileId(0));
        assert!(back.opens.is_empty());
        Ok(())
    })
}

#[test]
fn errors_have_texts() {
    std::test::passes(|| -> Result<(), Fail> {
        let rt = HostRuntime::host();
        let cases = [(ReadError::Damaged, "1 Damaged"), (ReadError::from(Memory), "2 Memory")];
        for (error, text) in cases {
            let printed = format!(in rt.alloc(); "{error}")?;
            assert_eq!(printed.as_str(), text);
        }
        Ok(())
    })
}

// Callers, for which the contracts of `write` and `read` say enough: what was written is read back, and is never damaged.
fn read_again(alloc: Global, last: FileId, kept: &[KeptOpen]) -> Result<Kept, Memory> {
    let bytes = write(alloc, last, kept)?;
    match read(alloc, bytes.as_slice()) {
        Ok(back) => Ok(back),
        Err(_) => Err(Memory),
    }
}

fn is_read_damaged(alloc: Global, last: FileId, kept: &[KeptOpen]) -> bool {
    match write(alloc, last, kept) {
        Err(_) => false,
        Ok(bytes) => match read(alloc, bytes.as_slice()) {
            Err(ReadError::Damaged) => true,
            _ => false,
        },
    }
}

#[test]
fn callers_read_what_they_wrote() {
    std::test::passes(|| -> Result<(), Fail> {
        let rt = HostRuntime::host();
        let kept = [one(), ONE, one()];
        let back = read_again(rt.alloc(), LAST, &kept)?;
        assert_eq!(back.opens.as_slice(), kept.as_slice());
        assert!(!is_read_damaged(rt.alloc(), LAST, &kept));
        Ok(())
    })
}

const KEY: LeaseKey = LeaseKey([0x4b; 16]);

const FILES: FileNo = FileNo(3);

// A manager with one durable open, of a client that is cut.
fn manager_of_one(alloc: Global) -> Result<Manager, Memory> {
    let mut manager = Manager::with_files(alloc, Rules::profile(), FILES);
    let mut decisions = Vec::new(alloc);
    let ask = CreateAsk { lease: Some((KEY, LeaseState::from_wire(7))), durable: true, reconnect: None };
    let create = Ask::Create { file: FileNo(2), access: Access::ReadWrite, share: Share::Read, ask };
    manager.join(ClientNo(5))?;
    manager.ask(ClientNo(5), Tag(1), create, &mut decisions)?;
    manager.cut(ClientNo(5), &mut decisions)?;
    Ok(manager)
}

#[test]
fn what_is_exported_is_imported() {
    std::test::passes(|| -> Result<(), Fail> {
        let rt = HostRuntime::host();
        let alloc = rt.alloc();
        let manager = manager_of_one(alloc)?;
        let opens = manager.opens()?;
        assert_eq!(opens.len(), 1);
        let bytes = export(alloc, &manager)?;
        let again = import(alloc, manager.rules(), manager.files(), bytes.as_slice())?;
        let back = again.opens()?;
        assert_eq!(back.as_slice(), opens.as_slice());
        assert_eq!(again.last_file_id(), manager.last_file_id());
        let (client, state) = (ClientNo(5), LeaseState::from_wire(7));
        assert_eq!(again.lease(client, KEY).state, state);
        Ok(())
    })
}

fn refusal(rt: &HostRuntime, bytes: &[u8]) -> Option<ImportError> {
    import(rt.alloc(), Rules::profile(), FILES, bytes).err()
}

#[test]
fn what_makes_no_manager_is_refused() {
    std::test::passes(|| -> Result<(), Fail> {
        let rt = HostRuntime::host();
        let alloc = rt.alloc();
        assert_eq!(refusal(&rt, &sealed(7, 0x32)), Some(ImportError::Damaged));
        let first = KeptOpen { file_id: FileId(1), client: ClientNo(1), file: FileNo(1), state: LeaseState::from_wire(3), ..ONE };
        let other = KeptOpen { file_id: FileId(2), client: ClientNo(2), ..first };
        let conflicting = write(alloc, FileId(2), &[first, other])?;
        assert_eq!(refusal(&rt, conflicting.as_slice()), Some(ImportError::Unlawful));
        let alone = write(alloc, FileId(2), &[first])?;
        let made = import(alloc, Rules::profile(), FILES, alone.as_slice())?;
        assert_eq!(made.kept_opens()?.as_slice(), [first].as_slice());
        Ok(())
    })
}

// A caller for which `exports_are_imported` says enough: what its manager exports is refused for want of memory alone.
fn is_refused_again(alloc: Global, manager: &Manager) -> bool {
    manager.laws();
    match export(alloc, manager) {
        Err(_) => false,
        Ok(bytes) => match import(alloc, manager.rules(), manager.files(), bytes.as_slice()) {
            Err(ImportError::Damaged) => true,
            Err(ImportError::Unlawful) => true,
            _ => false,
        },
    }
}

#[test]
fn callers_import_what_they_exported() {
    std::test::passes(|| -> Result<(), Fail> {
        let rt = HostRuntime::host();
        let manager = manager_of_one(rt.alloc())?;
        assert!(!is_refused_again(rt.alloc(), &manager));
        Ok(())
    })
}
