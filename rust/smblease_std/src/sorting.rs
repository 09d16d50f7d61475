//! A stable sort that can refuse: Rust's own takes a buffer, and ends the process where there is none.
use crate::alloc::AllocError;
use core::cmp::Ordering;
use rust_alloc::vec::Vec;

/// Sorts the items; equal ones keep their order. They are as they were where there is no memory for their places.
pub fn sort_by<T>(items: &mut [T], compare: impl Fn(&T, &T) -> Ordering) -> Result<(), AllocError> {
    let mut places = Vec::new();
    places.try_reserve_exact(items.len()).map_err(|_| AllocError)?;
    places.extend(0..items.len());
    places.sort_unstable_by(|one, other| compare(&items[*one], &items[*other]).then(one.cmp(other)));
    for start in 0..places.len() {
        follow(items, &mut places, start);
    }
    Ok(())
}

// `places` has for each place where its item comes from. Those of the round that begins here get theirs.
fn follow<T>(items: &mut [T], places: &mut [usize], start: usize) {
    let mut place = start;
    while places[place] != start {
        let from = places[place];
        items.swap(place, from);
        places[place] = place;
        place = from;
    }
    places[place] = place;
}
