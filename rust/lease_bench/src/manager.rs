//! What clients ask of a lease manager, for `bench/manager`.

mod asks;
mod families;
mod session;
mod stage;
mod weights;

use crate::manager::families::Family;
use crate::manager::session::Scale;
use crate::manager::stage::Stage;
use smblease::proved::lease_state::Memory;
use std::alloc::Global;

fn number(words: &[&str], place: usize) -> Option<u64> {
    words.get(place)?.parse::<u64>().ok()
}

fn scale_in(words: &[&str]) -> Option<Scale> {
    Some(Scale { opens: number(words, 1)?, clients: number(words, 2)?, files: number(words, 3)?, rounds: number(words, 4)? })
}

fn play_session(alloc: Global, scale: Scale) -> Result<Stage, Memory> {
    let mut stage = Stage::new(alloc, scale.clients)?;
    session::play(&mut stage, scale)?;
    Ok(stage)
}

fn play_family(alloc: Global, family: Family, size: u64) -> Result<Stage, Memory> {
    let mut stage = Stage::new(alloc, families::CLIENTS)?;
    families::play(&mut stage, family, size)?;
    Ok(stage)
}

/// Plays `session OPENS CLIENTS FILES ROUNDS`, opens that stay and rounds over them, or `FAMILY SIZE`, a family of calls whose
/// cost is to grow with its size. `None` where the words ask for nothing that is known, or memory ran out.
pub(crate) fn played(alloc: Global, words: &[&str]) -> Option<Stage> {
    let word = *words.first()?;
    if word == "session" {
        return play_session(alloc, scale_in(words)?).ok();
    }
    play_family(alloc, Family::named(word)?, number(words, 1)?).ok()
}
