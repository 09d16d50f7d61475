// Made by tools/plain_rust from crates/record_words/src/words/places.rt. Changes belong there.

use std::prelude::Vec;

use crate::proved::lease_reasons::{Expected, Reason};
use crate::proved::record_words::words::explained::bad_place;
use smblease::proved::lease_facts::Verdict;
use std::alloc::{AllocError, Global};

fn push_if(places: &mut Vec<usize>, place: Option<usize>) -> Result<(), AllocError> {
    match place {
        None => Ok(()),
        Some(place) => Ok(places.push(place)?),
    }
}

fn push_expected(places: &mut Vec<usize>, expected: &Expected) -> Result<(), AllocError> {
    places.push(expected.taken)?;
    places.push(expected.sent)?;
    push_if(places, expected.started)?;
    push_if(places, expected.changed)?;
    places.extend_from_slice(expected.unanswered.as_slice())
}

fn push_reason_places(places: &mut Vec<usize>, reason: &Reason) -> Result<(), AllocError> {
    match reason {
        Reason::NotStarted { .. } | Reason::PastLimit { .. } | Reason::NotJoined { .. } | Reason::NoMessage { .. } => Ok(()),
        Reason::StartedAgain { before, .. } | Reason::NumberUsed { before, .. } => push_if(places, Some(*before)),
        Reason::NothingToTake { joined, .. } => push_if(places, Some(*joined)),
        Reason::TwoCaches { writer, other, .. } => {
            push_if(places, Some(writer.place))?;
            push_if(places, Some(other.place))
        }
        Reason::StaleRead { expected, .. } => push_expected(places, expected),
        Reason::LateWrite { wrote, touched, .. } => {
            push_if(places, Some(*wrote))?;
            push_if(places, Some(*touched))
        }
        Reason::FalseDone { wrote, changed, .. } => {
            push_if(places, *wrote)?;
            push_if(places, *changed)
        }
    }
}

fn push_behind(places: &mut Vec<usize>, reason: &Option<Reason>) -> Result<(), AllocError> {
    match reason {
        None => Ok(()),
        Some(reason) => push_reason_places(places, reason),
    }
}

/// The places, from 1, of the facts that make a record bad: that of the bad fact, and those of the facts that its reason names.
///
/// # Errors
///
/// `AllocError` where there is no memory for the list.
pub fn bad_places(alloc: Global, verdict: &Verdict, reason: &Option<Reason>) -> Result<Vec<usize>, AllocError> {
    let mut places = Vec::new(alloc);
    push_if(&mut places, bad_place(verdict))?;
    push_behind(&mut places, reason)?;
    Ok(places)
}
