//! Calls that change a client in its place, compared with those that take it and give it back.

use crate::caching::setting::{FILE, break_to, connected, created, open_all, opened_durable, write};
use smblease::proved::lease_client::{Client, Given, Step};
use smblease_std::alloc::Global;
use smblease_std::test::Fail;
use smblease_std::test::passes;

fn is_same(client: &Client, given: &Given, step: &Step) -> bool {
    client.belief(FILE) == step.client.belief(FILE)
        && given.answer == step.answer
        && given.requests == step.requests
        && given.notes == step.notes
}

#[test]
fn commands_and_replies_in_place_give_the_same() {
    passes(|| -> Result<(), Fail> {
        let alloc = Global;
        let mut client = connected(alloc)?;
        let mut given = Given::new(alloc);
        let step = connected(alloc)?.app(open_all(7, false))?;
        client.app_in_place(open_all(7, false), &mut given)?;
        assert!(is_same(&client, &given, &step) && given.requests.len() == 1);

        let step = step.client.take(created(alloc, 1, 7)?)?;
        client.take_in_place(created(alloc, 1, 7)?, &mut given)?;
        assert!(is_same(&client, &given, &step) && given.notes.len() == 1);

        let step = step.client.app(write(alloc, 0, b"X")?)?;
        client.app_in_place(write(alloc, 0, b"X")?, &mut given)?;
        assert!(is_same(&client, &given, &step) && given.requests.is_empty());

        let step = step.client.take(break_to(7, 3, 1))?;
        client.take_in_place(break_to(7, 3, 1), &mut given)?;
        assert!(is_same(&client, &given, &step) && given.requests.len() == 2);
        Ok(())
    })
}

#[test]
fn a_connection_in_place_gives_the_same() {
    passes(|| -> Result<(), Fail> {
        let alloc = Global;
        let mut client = opened_durable(alloc, 7)?;
        let mut given = Given::new(alloc);
        let step = opened_durable(alloc, 7)?.notice()?;
        client.notice_in_place(&mut given)?;
        assert!(is_same(&client, &given, &step) && given.notes.len() == 1);

        let step = step.client.connect()?;
        client.connect_in_place(&mut given)?;
        assert!(is_same(&client, &given, &step) && given.requests.len() == 1);
        Ok(())
    })
}
