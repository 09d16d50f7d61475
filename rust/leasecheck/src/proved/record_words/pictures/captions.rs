// Made by tools/plain_rust from crates/record_words/src/pictures/captions.rt. Changes belong there.

use std::prelude::String;

use crate::proved::record_words::pictures::picture::Caption;
use crate::proved::record_words::words::push_fact_words;
use smblease::proved::lease_facts::Fact;
use std::alloc::{AllocError, Global};

fn is_among(places: &[usize], place: usize) -> bool {
    places.iter().any(|one| *one == place)
}

/// What the mark of the fact at a place says.
pub fn caption_of(alloc: Global, bad: &[usize], place: usize, fact: &Fact) -> Result<Caption, AllocError> {
    let mut words = String::new(alloc);
    push_fact_words(alloc, &mut words, fact)?;
    Ok(Caption { place, kind: fact.kind(), is_bad: is_among(bad, place), words })
}
