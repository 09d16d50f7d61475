// Made by tools/plain_rust from crates/lease_versions/src/tests.rt. Changes belong there.

use super::*;
use crate::proved::capture_wire::{DurableReconnectV2, DurableRequestV2, Guid, Smb2FileId};
use crate::proved::lease_manager::{BreakNotice, ClientNo, CreateAnswer, Decision, Tag};
use crate::proved::lease_state::{FileId, LeaseKey, LeaseState, Memory, Status};
use crate::proved::lease_wire_v2::{CreateAskV2, DurableAsk, LeaseAsk, Reconnect, SecondVersion};
use std::prelude::HostRuntime;
use std::test::Fail;

const KEY: LeaseKey = LeaseKey([7; 16]);

const PARENT: LeaseKey = LeaseKey([9; 16]);

const ONE: ClientNo = ClientNo(1);

fn asked_with(epoch: u16) -> CreateAskV2 {
    let second = SecondVersion { parent: Some(PARENT), epoch };
    let lease = LeaseAsk { key: KEY, state: LeaseState::from_wire(7), second: Some(second) };
    CreateAskV2 { lease: Some(lease), durable: None, reconnect: None }
}

fn opened(tag: Tag, file_id: FileId, state: u32) -> Decision {
    let answer = CreateAnswer { lease: Some((KEY, LeaseState::from_wire(state), false)), durable: false };
    Decision::Opened { client: ONE, tag, file_id, answer }
}

fn breaks(ack_required: bool, current: u32, lowered: u32) -> Decision {
    let notice =
        BreakNotice { ack_required, key: KEY, current: LeaseState::from_wire(current), lowered: LeaseState::from_wire(lowered) };
    Decision::Breaks { client: ONE, notice }
}

fn answer_with(epoch: u16) -> Carried {
    let second = SecondVersion { parent: Some(PARENT), epoch };
    Carried::Answer { second: Some(second), durable: false }
}

// A create by this epoch, and its answer.
fn create(versions: &mut Versions, tag: Tag, file_id: FileId, epoch: u16, state: u32) -> Result<Carried, Memory> {
    versions.asked(ONE, tag, &asked_with(epoch))?;
    versions.follow(&opened(tag, file_id, state))
}

fn close(versions: &mut Versions, tag: Tag, file_id: FileId) -> Result<Carried, Memory> {
    versions.closing(ONE, tag, file_id)?;
    let closed = Decision::Closed { client: ONE, tag };
    versions.follow(&closed)
}

#[test]
fn a_break_carries_its_epoch() {
    std::test::passes(|| -> Result<(), Fail> {
        let rt = HostRuntime::host();
        let mut versions = Versions::new(rt.alloc());
        let answer = create(&mut versions, Tag(1), FileId(1), 65_534, 7)?;
        assert_eq!(answer, answer_with(65_535));
        let notice = versions.follow(&breaks(true, 7, 3))?;
        assert_eq!(notice, Carried::Notice(0));
        let again = create(&mut versions, Tag(2), FileId(2), 65_535, 7)?;
        assert_eq!(again, answer_with(0));
        let acknowledged = Decision::Acknowledged { client: ONE, key: KEY, state: LeaseState::from_wire(3) };
        assert_eq!(versions.follow(&acknowledged)?, Carried::Nothing);
        assert_eq!(versions.follow(&breaks(false, 3, 1))?, Carried::Notice(1));
        Ok(())
    })
}

#[test]
fn an_upgrade_carries_the_next_epoch() {
    std::test::passes(|| -> Result<(), Fail> {
        let rt = HostRuntime::host();
        let mut versions = Versions::new(rt.alloc());
        assert_eq!(create(&mut versions, Tag(1), FileId(1), 4, 1)?, answer_with(5));
        assert_eq!(create(&mut versions, Tag(2), FileId(2), 5, 1)?, answer_with(5));
        assert_eq!(create(&mut versions, Tag(3), FileId(3), 5, 7)?, answer_with(6));
        Ok(())
    })
}

#[test]
fn a_lease_ends_with_its_last_open() {
    std::test::passes(|| -> Result<(), Fail> {
        let rt = HostRuntime::host();
        let mut versions = Versions::new(rt.alloc());
        assert_eq!(create(&mut versions, Tag(1), FileId(1), 4, 7)?, answer_with(5));
        assert_eq!(create(&mut versions, Tag(2), FileId(2), 5, 7)?, answer_with(5));
        assert_eq!(close(&mut versions, Tag(3), FileId(1))?, Carried::Nothing);
        assert_eq!(create(&mut versions, Tag(4), FileId(3), 9, 7)?, answer_with(5));
        assert_eq!(close(&mut versions, Tag(5), FileId(2))?, Carried::Nothing);
        let ended = Decision::Ended { file_id: FileId(3) };
        assert_eq!(versions.follow(&ended)?, Carried::Nothing);
        assert_eq!(create(&mut versions, Tag(6), FileId(4), 9, 7)?, answer_with(10));
        Ok(())
    })
}

#[test]
fn the_first_version_has_no_epoch() {
    std::test::passes(|| -> Result<(), Fail> {
        let rt = HostRuntime::host();
        let mut versions = Versions::new(rt.alloc());
        let plain = Carried::Answer { second: None, durable: false };
        assert_eq!(versions.follow(&opened(Tag(1), FileId(1), 7))?, plain);
        assert_eq!(create(&mut versions, Tag(2), FileId(2), 9, 7)?, plain);
        assert_eq!(versions.follow(&breaks(true, 7, 3))?, Carried::Notice(0));
        Ok(())
    })
}

const GUID: Guid = Guid([3; 16]);

const OTHER_GUID: Guid = Guid([4; 16]);

fn durable_ask() -> CreateAskV2 {
    let durable = DurableRequestV2 { timeout: 60_000, persistent: false, create_guid: GUID };
    CreateAskV2 { durable: Some(DurableAsk::Second(durable)), ..asked_with(4) }
}

fn reconnect_ask(file_id: u64) -> CreateAskV2 {
    let reconnect = DurableReconnectV2 {
        file_id: Smb2FileId { persistent: file_id, volatile: file_id },
        create_guid: GUID,
        persistent: false,
    };
    CreateAskV2 { reconnect: Some(Reconnect::Second(reconnect)), ..asked_with(5) }
}

fn durably_opened(tag: Tag) -> Decision {
    let answer = CreateAnswer { lease: Some((KEY, LeaseState::from_wire(7), false)), durable: true };
    Decision::Opened { client: ONE, tag, file_id: FileId(1), answer }
}

fn durable_answer(durable: bool) -> Carried {
    let second = SecondVersion { parent: Some(PARENT), epoch: 5 };
    Carried::Answer { second: Some(second), durable }
}

#[test]
fn an_open_is_connected_again() {
    std::test::passes(|| -> Result<(), Fail> {
        let rt = HostRuntime::host();
        let mut versions = Versions::new(rt.alloc());
        versions.asked(ONE, Tag(1), &durable_ask())?;
        assert_eq!(versions.follow(&durably_opened(Tag(1)))?, durable_answer(true));
        assert_eq!(versions.reconnect_refusal(FileId(1), GUID), None);
        assert_eq!(versions.reconnect_refusal(FileId(1), OTHER_GUID), Some(Status::ObjectNameNotFound));
        assert_eq!(versions.reconnect_refusal(FileId(2), OTHER_GUID), None);
        versions.asked(ONE, Tag(2), &reconnect_ask(1))?;
        assert_eq!(versions.follow(&durably_opened(Tag(2)))?, durable_answer(false));
        assert_eq!(versions.reconnect_refusal(FileId(1), GUID), None);
        assert_eq!(close(&mut versions, Tag(3), FileId(1))?, Carried::Nothing);
        assert_eq!(create(&mut versions, Tag(4), FileId(2), 9, 7)?, answer_with(10));
        Ok(())
    })
}

#[test]
fn a_create_is_replayed() {
    std::test::passes(|| -> Result<(), Fail> {
        let rt = HostRuntime::host();
        let mut versions = Versions::new(rt.alloc());
        assert_eq!(versions.replayed(ONE, GUID, true), None);
        versions.asked(ONE, Tag(1), &durable_ask())?;
        assert_eq!(versions.replayed(ONE, GUID, true), Some(Replayed::FileNotAvailable));
        assert_eq!(versions.replayed(ONE, OTHER_GUID, true), None);
        assert_eq!(versions.follow(&durably_opened(Tag(1)))?, durable_answer(true));
        assert_eq!(versions.replayed(ONE, GUID, true), Some(Replayed::Again(FileId(1))));
        assert_eq!(versions.replayed(ONE, GUID, false), Some(Replayed::DuplicateObjectId));
        assert_eq!(versions.replayed(ClientNo(2), GUID, false), None);
        Ok(())
    })
}

#[test]
fn what_was_asked_is_forgotten() {
    std::test::passes(|| -> Result<(), Fail> {
        let rt = HostRuntime::host();
        let mut versions = Versions::new(rt.alloc());
        versions.asked(ONE, Tag(1), &durable_ask())?;
        versions.asked(ONE, Tag(2), &durable_ask())?;
        versions.leave(ONE, &[Tag(1)]);
        assert_eq!(versions.replayed(ONE, GUID, true), Some(Replayed::FileNotAvailable));
        versions.forget(ONE);
        assert_eq!(versions.replayed(ONE, GUID, true), None);
        Ok(())
    })
}
