//! The example at the top of the crate.

use smblease::proved::lease_client::{Answer, Client, Command, Step, lease_key};
use smblease::proved::lease_state::{Access, Bytes, FileId, FileNo, LeaseState, Patch, Reply, Share};
use smblease::proved::lease_wire::{CreateAnswer, write_create_reply};
use smblease_std::alloc::Global;
use smblease_std::prelude::Vec;
use smblease_std::test::Fail;
use smblease_std::test::passes;

#[test]
fn the_example_holds() {
    passes(|| -> Result<(), Fail> {
        let alloc = Global;
        let (guid, file, all) = ([0x11; 16], FileNo(1), LeaseState::from_wire(7));
        let Step { client, .. } = Client::new(alloc, guid, 1)?.connect()?;
        let open = Command::Open { file, access: Access::ReadWrite, share: Share::ReadWrite, want: all, durable: false };
        let Step { client, answer, requests, .. } = client.app(open)?;
        assert!(answer == Answer::Waiting && requests.len() == 1);

        let mut contexts = Vec::new(alloc);
        let lease = Some((lease_key(guid, file), all, false));
        let durable = false;
        write_create_reply(&CreateAnswer { lease, durable }, &mut contexts)?;
        let created = Reply::Created { file, fid: FileId(1), contexts: Bytes::new(contexts) };
        let Step { client, .. } = client.take(created)?;
        assert!(client.belief(file) == all);

        let bytes = Bytes::new(Vec::from_slice(alloc, b"X")?);
        let patch = Patch { offset: 0, bytes };
        let step = client.app(Command::Write { file, patch })?;
        assert!(step.answer == Answer::Done && step.requests.is_empty());
        Ok(())
    })
}
