use crate::manager::asks::{again, client, key, leased, plain, state};
use crate::manager::stage::Stage;
use smblease::proved::lease_manager::{ClientNo, CreateAsk, FileNo};
use smblease::proved::lease_state::{FileId, Memory};

const READS_HANDLES: u32 = 3;

const ALL: u32 = 7;

// Of so many clients one is cut at the end.
const CLIENTS_FOR_A_CUT: u64 = 1_000;

/// How much there is in a session.
#[derive(Clone, Copy)]
pub struct Scale {
    pub opens: u64,
    pub clients: u64,
    pub files: u64,
    pub rounds: u64,
}

impl Scale {
    fn on_a_file(self) -> u64 {
        if self.files == 0 {
            return 0;
        }
        self.opens / self.files
    }

    // The number of an open, from its file's place and its own on the file.
    fn open(self, file: u64, place: u64) -> u64 {
        file.wrapping_mul(self.on_a_file()).wrapping_add(place)
    }

    fn client(self, file: u64, place: u64) -> ClientNo {
        if self.clients == 0 {
            return client(1);
        }
        client((self.open(file, place) % self.clients).wrapping_add(1))
    }

    // The FileId of an open after so many rounds, in each of which all but the first on each file are opened again.
    fn file_id(self, file: u64, place: u64, rounds: u64) -> FileId {
        if rounds == 0 || place == 0 {
            return FileId(self.open(file, place).wrapping_add(1));
        }
        let before = rounds.wrapping_sub(1).wrapping_mul(self.files).wrapping_add(file);
        let reopened = self.on_a_file().saturating_sub(1).wrapping_mul(before);
        FileId(self.opens.wrapping_add(reopened).wrapping_add(place))
    }
}

// Three of four opens have a lease, and every other one is durable.
fn has_lease(place: u64) -> bool {
    place % 4 != 3
}

fn ask_for(file: u64, place: u64) -> CreateAsk {
    if !has_lease(place) {
        return plain();
    }
    let want = if place == 0 { ALL } else { READS_HANDLES };
    leased(key(file), state(want), place % 2 == 1)
}

/// Files are opened, of which the first open gives up its cached writes to the second; in each round the first open of each
/// file writes, which breaks the leases of all others, and these acknowledge it, read, close and are opened again; and
/// at the end some clients lose their connections, and connect their durable opens again.
pub fn play(stage: &mut Stage, scale: Scale) -> Result<(), Memory> {
    for file in 0..scale.files {
        open_file(stage, scale, file)?;
    }
    for round in 0..scale.rounds {
        play_round(stage, scale, round)?;
    }
    for number in 0..scale.clients.div_ceil(CLIENTS_FOR_A_CUT) {
        cut_client(stage, scale, number)?;
    }
    Ok(())
}

fn file_no(file: u64) -> FileNo {
    FileNo(file.wrapping_add(1))
}

fn open_file(stage: &mut Stage, scale: Scale, file: u64) -> Result<(), Memory> {
    for place in 0..scale.on_a_file() {
        stage.open(scale.client(file, place), file_no(file), ask_for(file, place))?;
        if place == 1 {
            stage.acknowledge(scale.client(file, 0), key(file), state(READS_HANDLES))?;
        }
    }
    Ok(())
}

fn play_round(stage: &mut Stage, scale: Scale, round: u64) -> Result<(), Memory> {
    for file in 0..scale.files {
        stage.write(scale.client(file, 0), scale.file_id(file, 0, round))?;
        for place in 1..scale.on_a_file() {
            play_open(stage, scale, file, place, round)?;
        }
    }
    Ok(())
}

fn play_open(stage: &mut Stage, scale: Scale, file: u64, place: u64, round: u64) -> Result<(), Memory> {
    let one = scale.client(file, place);
    let fid = scale.file_id(file, place, round);
    if has_lease(place) {
        stage.acknowledge(one, key(file), state(0))?;
    }
    stage.read(one, fid)?;
    stage.close(one, fid)?;
    stage.open(one, file_no(file), ask_for(file, place))
}

// The client's connection is lost and made again, and what was durable is connected again.
fn cut_client(stage: &mut Stage, scale: Scale, number: u64) -> Result<(), Memory> {
    let one = client(number.wrapping_add(1));
    stage.reconnect(one)?;
    for file in 0..scale.files {
        for place in 0..scale.on_a_file() {
            if scale.client(file, place) == one && has_lease(place) && place % 2 == 1 {
                let fid = scale.file_id(file, place, scale.rounds);
                stage.open(one, file_no(file), again(key(file), fid))?;
            }
        }
    }
    Ok(())
}
