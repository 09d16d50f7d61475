//! Whole SMB2 messages: a header, and after it a body.

use crate::wire::{ASK, KEY};
use smblease::proved::lease_state::LeaseState;
use smblease::proved::lease_wire::{
    Direction, HEADER_SIZE, Notification, WireFault, begins_message, contexts_of_create, first_message,
};
use smblease_std::alloc::Global;
use smblease_std::prelude::Vec;
use smblease_std::test::Fail;
use smblease_std::test::passes;

// A header with this NextCommand.
fn header(next: u8) -> [u8; 64] {
    let mut header = [0; 64];
    header[..6].copy_from_slice(b"\xfeSMB\x40\0");
    header[20] = next;
    header
}

// A CREATE request whose contexts stand from byte 136 on, and that has them at this offset.
fn request(alloc: Global, offset: u8) -> Result<Vec<u8>, Fail> {
    let mut message = Vec::from_slice(alloc, &header(0))?;
    message.extend_from_slice(&[57, 0])?;
    message.extend_from_slice(&[0; 46])?;
    message.extend_from_slice(&[offset, 0, 0, 0, 96, 0, 0, 0])?;
    message.extend_from_slice(b"n\0a\0m\0e\0\0\0\0\0\0\0\0\0")?;
    message.extend_from_slice(ASK)?;
    Ok(message)
}

#[test]
fn contexts_stand_where_a_request_has_them() {
    passes(|| -> Result<(), Fail> {
        let message = request(Global, 136)?;
        assert!(begins_message(message.as_slice()));
        assert!(!begins_message(&message[1..]));
        let mut places = Vec::new(Global);
        for item in contexts_of_create(Direction::Request, message.as_slice())? {
            places.push(item?.place)?;
        }
        assert_eq!(places.as_slice(), [136, 192].as_slice());
        Ok(())
    })
}

#[test]
fn contexts_within_the_fixed_part_are_refused() {
    passes(|| -> Result<(), Fail> {
        let message = request(Global, 119)?;
        let refused = contexts_of_create(Direction::Request, message.as_slice()).err();
        assert_eq!(refused, Some(WireFault::BadData(119)));
        let other = contexts_of_create(Direction::Reply, message.as_slice()).err();
        assert_eq!(other, Some(WireFault::WrongSize(64)));
        let cut = message.as_slice().get(..119).ok_or("119 bytes")?;
        let short = contexts_of_create(Direction::Request, cut).err();
        assert_eq!(short, Some(WireFault::Short(64)));
        Ok(())
    })
}

#[test]
fn a_message_ends_where_the_next_one_begins() {
    passes(|| -> Result<(), Fail> {
        let notification =
            Notification { ack_required: true, key: KEY, current: LeaseState::from_wire(7), new: LeaseState::from_wire(3) };
        let mut bytes = Vec::from_slice(Global, &header(112))?;
        bytes.extend_from_slice(&notification.encode())?;
        bytes.extend_from_slice(&[0; 4])?;
        bytes.extend_from_slice(&header(0))?;
        let message = first_message(bytes.as_slice())?;
        assert_eq!(message.len(), 112);
        let (_, body) = message.split_at(HEADER_SIZE);
        let read = Notification::decode(body)?;
        assert_eq!(read, (notification, [0u8; 4].as_slice()));
        let cut = bytes.as_slice().get(..111).ok_or("111 bytes")?;
        let short = first_message(cut).err();
        assert_eq!(short, Some(WireFault::BadNext(0)));
        Ok(())
    })
}

#[test]
fn a_fault_elsewhere_keeps_its_kind() {
    assert_eq!(WireFault::BadName(3).at(64), WireFault::BadName(64));
}
