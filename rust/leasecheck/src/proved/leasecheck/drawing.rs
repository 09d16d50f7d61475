// Made by tools/plain_rust from crates/leasecheck/src/drawing.rt. Changes belong there.

use std::prelude::{String, Vec};

use crate::proved::lease_reasons::{Extent, Reason, explain, extent_of};
use crate::proved::lease_texts::{Schedule, TextFault, read_schedule};
use crate::proved::leasecheck::comments::comments_of;
use crate::proved::leasecheck::explaining::placed_of;
use crate::proved::leasecheck::failure::Failure;
use crate::proved::leasecheck::judging::push_verdict;
use crate::proved::leasecheck::refusal::Refusal;
use crate::proved::leasecheck::replaying::not_run;
use crate::proved::record_words::{
    MOST_FACTS, Picture, PictureFault, Placed, bad_places, picture_of, push_picture, push_reasoned,
};
use smblease::proved::lease_state::{Bytes, Reply, Rules};
use smblease::proved::lease_world::{Kept, Passage, Told, Verdict, judge, run_under};
use std::alloc::{AllocError, Global};

// The verdict on facts, why it is that, and how much was judged.
fn notes_of(
    alloc: Global,
    placed: &Placed,
    verdict: &Verdict,
    reason: &Option<Reason>,
    extent: &Extent,
) -> Result<String, AllocError> {
    let mut notes = String::new(alloc);
    push_verdict(&mut notes, verdict)?;
    push_reasoned(alloc, &mut notes, placed, verdict, reason, extent)?;
    Ok(notes)
}

fn text_of(alloc: Global, picture: &Picture) -> Result<String, AllocError> {
    let mut text = String::new(alloc);
    push_picture(&mut text, picture)?;
    Ok(text)
}

// The picture of facts, with what comments say of them, the messages that they speak of and what became of requests, where these
// are known.
fn drawn(alloc: Global, placed: &Placed, said: &[Bytes], messages: &[Reply], passages: &[Passage]) -> Result<Picture, Refusal> {
    let facts = placed.facts.as_slice();
    if facts.len() > MOST_FACTS {
        return Err(Refusal::of_picture(alloc, PictureFault::TooMany, facts.len()));
    }
    let verdict = judge(alloc, facts)?;
    let reason = explain(alloc, facts, &verdict)?;
    let extent = extent_of(alloc, facts, &verdict)?;
    let notes = notes_of(alloc, placed, &verdict, &reason, &extent)?;
    let bad = bad_places(alloc, &verdict, &reason)?;
    match picture_of(alloc, facts, bad.as_slice(), notes, said, messages, passages) {
        Ok(picture) => Ok(picture),
        Err(fault) => Err(Refusal::of_picture(alloc, fault, facts.len())),
    }
}

// A run of a schedule, with what is drawn of it.
#[derive(Debug)]
struct Played {
    placed: Placed,
    messages: Vec<Reply>,
    passages: Vec<Passage>,
}

// The run of a schedule. It is safe, so no line of it is spoken of.
fn ran(alloc: Global, schedule: &Schedule) -> Result<Played, Refusal> {
    let (rules, events) = (Rules::profile(), schedule.events.as_slice());
    let kept = Kept { messages: true, idle: false, passages: true };
    match run_under(alloc, rules, kept, &schedule.setup, events) {
        Ok(told) => {
            let Told { facts, messages, passages, .. } = told;
            let lines = Vec::new(alloc);
            Ok(Played { placed: Placed { facts, lines }, messages, passages })
        }
        Err(fault) => Err(Refusal::of_run(alloc, not_run(fault), schedule)),
    }
}

// The picture of the run of a schedule.
fn run_drawn(alloc: Global, schedule: &Schedule) -> Result<Picture, Refusal> {
    let played = ran(alloc, schedule)?;
    let (messages, passages) = (played.messages.as_slice(), played.passages.as_slice());
    let picture = drawn(alloc, &played.placed, &[], messages, passages)?;
    Ok(picture)
}

// The picture of the run of a schedule that the text is, where it isn't the record that its line of this number keeps it from
// being.
fn draw_schedule(alloc: Global, text: &[u8], number: u64, refusal: Refusal) -> Result<Picture, Refusal> {
    match read_schedule(alloc, text) {
        Ok(schedule) => {
            let drawn = run_drawn(alloc, &schedule)?;
            Ok(drawn)
        }
        Err(TextFault::Line(other)) => {
            if number < other {
                Err(Refusal::of_part(alloc, other, text))
            } else {
                Err(refusal)
            }
        }
        Err(TextFault::Memory) => Err(Refusal::bare(Failure::Memory)),
    }
}

// The picture of a text that is a record, or else a schedule, which is run first.
fn picture_drawn(alloc: Global, text: &[u8]) -> Result<Picture, Refusal> {
    match placed_of(alloc, text) {
        Ok(placed) => {
            let said = comments_of(alloc, text)?;
            let drawn = drawn(alloc, &placed, said.as_slice(), &[], &[])?;
            Ok(drawn)
        }
        Err(refusal) => match refusal.failure {
            Failure::Line(number) => draw_schedule(alloc, text, number, refusal),
            _ => Err(refusal),
        },
    }
}

/// What `leasecheck draw` prints for a text that is a record, or else a schedule, which is run first: a picture as SVG.
///
/// # Errors
///
/// A text that is neither is refused as whichever it has more lines of, and as a record where both
/// have as many: `Line` with the number of the first line that is refused. Else `Run` where there
/// is no run of the schedule, `Picture` where there are more than 5000 facts, and `Memory` where
/// there is none left.
pub fn draw_text(alloc: Global, text: &[u8]) -> Result<String, Refusal> {
    let picture = picture_drawn(alloc, text)?;
    let drawn = text_of(alloc, &picture)?;
    Ok(drawn)
}
