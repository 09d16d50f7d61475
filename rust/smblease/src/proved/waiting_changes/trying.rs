// Made by tools/plain_rust from crates/waiting_changes/src/trying.rt. Changes belong there.

use std::prelude::Vec;

use crate::proved::lease_manager::{ClientNo, Decision, FileNo, Manager, Tag};
use crate::proved::lease_state::Memory;
use crate::proved::waiting_changes::change::Change;
use crate::proved::waiting_changes::waiting::WaitingChanges;

impl WaitingChanges {
    /// A change is asked for: others give up what is in its way, each lease broken once, straight to what is left of it
    /// (MS-SMB2 3.3.4.7), and opens that wait for their clients end. It goes on at once where nothing is left in its way, and
    /// else waits. What the manager decides and what becomes of the change is on the list afterwards, whatever was there.
    /// Where it goes on, the host makes the change before it carries out what stands after it.
    ///
    /// # Errors
    ///
    /// `Memory` where there is none left. The manager has forgotten all but its rules and files then, as a new one, nothing
    /// waits any longer, and the list has nothing of worth.
    pub fn change(&mut self, manager: &mut Manager, one: Change, decisions: &mut Vec<Decision>) -> Result<(), Memory> {
        let (rules, files) = (manager.rules(), manager.files());
        let came = self.ask(manager, one, decisions);
        if came.is_err() {
            *manager = Manager::with_files(*decisions.allocator(), rules, files);
            *self = WaitingChanges::new(*decisions.allocator());
        }
        came
    }

    // The same, and what is left where no memory is isn't said.
    fn ask(&mut self, manager: &mut Manager, one: Change, decisions: &mut Vec<Decision>) -> Result<(), Memory> {
        manager.give_up(one.client, one.key, one.file, one.extent, decisions)?;
        self.try_after(manager, None, &[], decisions)?;
        self.conclude(manager, one, decisions)
    }

    // It goes on, or waits.
    fn conclude(&mut self, manager: &Manager, one: Change, decisions: &mut Vec<Decision>) -> Result<(), Memory> {
        let (client, tag) = (one.client, one.tag);
        if one.is_free(manager) {
            decisions.push(Decision::GoesOn { client, tag })?;
            return Ok(());
        }
        self.push(one)?;
        decisions.push(Decision::Waits { client, tag })?;
        Ok(())
    }

    /// What waits is tried again after a call of the manager whose decisions are on the list: on these files, which the call was
    /// about, and where an open was closed by another request than this one of a client under a tag, on every file. Leases of
    /// other keys that came since are broken for it too, and those changes go on, in order of arrival, that nothing is in the
    /// way of. What is told of that comes after what is on the list.
    ///
    /// # Errors
    ///
    /// `Memory` where there is none left. The manager has forgotten all but its rules and files then, as a new one, nothing
    /// waits any longer, and the list has nothing of worth.
    pub fn try_again(
        &mut self,
        manager: &mut Manager,
        request: Option<(ClientNo, Tag)>,
        files: &[FileNo],
        decisions: &mut Vec<Decision>,
    ) -> Result<(), Memory> {
        let (rules, last) = (manager.rules(), manager.files());
        let came = self.try_after(manager, request, files, decisions);
        if came.is_err() {
            *manager = Manager::with_files(*decisions.allocator(), rules, last);
            *self = WaitingChanges::new(*decisions.allocator());
        }
        came
    }

    // The same, and what is left where no memory is isn't said.
    fn try_after(
        &mut self,
        manager: &mut Manager,
        request: Option<(ClientNo, Tag)>,
        files: &[FileNo],
        decisions: &mut Vec<Decision>,
    ) -> Result<(), Memory> {
        if has_another_close(decisions, request) {
            let all = self.files(*decisions.allocator())?;
            return self.try_files(manager, &all, decisions);
        }
        self.try_files(manager, files, decisions)
    }

    // What waits on these files is tried again, one file after another.
    fn try_files(&mut self, manager: &mut Manager, files: &[FileNo], decisions: &mut Vec<Decision>) -> Result<(), Memory> {
        for file in files {
            self.try_file(manager, *file, decisions)?;
        }
        Ok(())
    }

    // What waits on the file is tried again.
    fn try_file(&mut self, manager: &mut Manager, file: FileNo, decisions: &mut Vec<Decision>) -> Result<(), Memory> {
        ask_again(self.as_slice(), manager, file, decisions)?;
        tell_free(self.as_slice(), manager, file, decisions)?;
        self.let_go(file, manager);
        Ok(())
    }
}

// Others give up what is in the way of each of these that is on the file.
fn ask_again(changes: &[Change], manager: &mut Manager, file: FileNo, decisions: &mut Vec<Decision>) -> Result<(), Memory> {
    let mut told = Vec::new(*decisions.allocator());
    for one in changes {
        if one.file == file {
            manager.give_up(one.client, one.key, one.file, one.extent, &mut told)?;
            decisions.append(&mut told)?;
        }
    }
    Ok(())
}

// Those of these go on that are on the file and that nothing is in the way of.
fn tell_free(changes: &[Change], manager: &Manager, file: FileNo, decisions: &mut Vec<Decision>) -> Result<(), Memory> {
    for one in changes {
        if one.goes(file, manager) {
            let (client, tag) = (one.client, one.tag);
            decisions.push(Decision::GoesOn { client, tag })?;
        }
    }
    Ok(())
}

// Whether an open was closed by another request than this one.
fn has_another_close(decisions: &[Decision], request: Option<(ClientNo, Tag)>) -> bool {
    is_any_another_close(decisions, request)
}

fn is_any_another_close(decisions: &[Decision], request: Option<(ClientNo, Tag)>) -> bool {
    decisions.iter().any(|decision| is_another_close(decision, request))
}

fn is_another_close(decision: &Decision, request: Option<(ClientNo, Tag)>) -> bool {
    match (decision, request) {
        (Decision::Closed { client, tag }, Some(own)) => !(*client == own.0 && *tag == own.1),
        (Decision::Closed { .. }, None) => true,
        _ => false,
    }
}
