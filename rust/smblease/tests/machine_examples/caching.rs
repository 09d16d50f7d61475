use smblease_std::alloc::Global;
use smblease_std::test::passes;
mod asking;
mod cache;
mod example;
mod in_place;
mod parting;
mod replies;
mod setting;

use crate::caching::setting::{GUID, open, open_all, read, refuses};
use smblease::proved::lease_client::{Client, Refusal, lease_key};
use smblease::proved::lease_state::{Access, FileNo, LeaseKey, LeaseState, Share};
use smblease_std::test::Fail;

#[test]
fn a_key_has_twelve_bytes_of_the_guid_and_the_file() {
    let guid = [0, 1, 2, 3, 4, 5, 6, 7, 8, 9, 10, 11, 12, 13, 14, 15];
    assert_eq!(lease_key(guid, FileNo(1)), LeaseKey([0, 1, 2, 3, 4, 5, 6, 7, 8, 9, 10, 11, 1, 0, 0, 0]));
    assert_eq!(
        lease_key(GUID, FileNo(255)).0,
        [0x11, 0x11, 0x11, 0x11, 0x11, 0x11, 0x11, 0x11, 0x11, 0x11, 0x11, 0x11, 255, 0, 0, 0]
    );
}

#[test]
fn a_new_client_believes_nothing() {
    passes(|| -> Result<(), Fail> {
        let client = Client::new(Global, GUID, 2)?;
        for file in [0, 1, 2, 3, 255] {
            assert_eq!(client.belief(FileNo(file)), LeaseState::NONE);
        }
        let idle = Client::new(Global, GUID, 0)?;
        assert_eq!(idle.belief(FileNo(1)), LeaseState::NONE);
        Ok(())
    })
}

#[test]
fn a_client_that_was_never_connected_opens_nothing() {
    passes(|| -> Result<(), Fail> {
        let client = Client::new(Global, GUID, 1)?;
        let client = refuses(client, open_all(7, false), Refusal::Offline)?;
        let client = refuses(client, read(), Refusal::NotOpen)?;
        let other = open(2, Access::ReadWrite, Share::ReadWrite, 7, false);
        refuses(client, other, Refusal::NotOpen)?;
        Ok(())
    })
}
