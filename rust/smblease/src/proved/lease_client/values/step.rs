// Made by tools/plain_rust from crates/lease_client/src/values/step.rt. Changes belong there.

use std::prelude::Vec;

use crate::proved::lease_client::client::Client;
use crate::proved::lease_client::entry::turn::Given;
use crate::proved::lease_client::values::command::Answer;
use crate::proved::lease_client::values::note::Note;
use crate::proved::lease_state::Request;

/// What a call of a client comes to (profile): the client after it, the answer to the application,
/// the requests to be sent to the server and the notes for the program, each in order.
#[derive(Debug)]
pub struct Step {
    pub client: Client,
    pub answer: Answer,
    pub requests: Vec<Request>,
    pub notes: Vec<Note>,
}

impl Step {
    /// The client after a call, and what the call gave out.
    pub(crate) fn of(client: Client, given: Given) -> Step {
        let Given { answer, requests, notes } = given;
        Step { client, answer, requests, notes }
    }
}
