// Made by tools/plain_rust from crates/record_words/src/pictures/remarks.rt. Changes belong there.

use std::prelude::Vec;

use crate::proved::record_words::pictures::lanes::{Lanes, down};
use crate::proved::record_words::pictures::picture::Remark;
use crate::proved::record_words::pictures::rows::Rows;
use crate::proved::record_words::pictures::shape::{Point, Size};
use smblease::proved::lease_state::{Bytes, Memory};
use std::alloc::Global;

// How wide the column of remarks is, in pixels.
const WIDTH: u32 = 480;

// What is to be said of so many facts.
fn first_of(remarks: &[Bytes], facts: usize) -> &[Bytes] {
    if facts < remarks.len() { &remarks[..facts] } else { remarks }
}

// What is said of the first `facts` facts, to the right of the lanes, each in the row of its fact.
pub(crate) fn remarks_on(
    alloc: Global,
    lanes: &Lanes,
    rows: &Rows,
    facts: usize,
    remarks: &[Bytes],
) -> Result<Vec<Remark>, Memory> {
    let x = lanes.width();
    let mut said = Vec::new(alloc);
    for (index, words) in first_of(remarks, facts).iter().enumerate() {
        if !words.is_empty() {
            let y = down(rows.of_fact(index), 16);
            let words = words.try_copy()?;
            said.push(Remark { at: Point { x, y }, words })?;
        }
    }
    Ok(said)
}

// The size of a page with room for these remarks.
pub(crate) fn widened(size: Size, remarks: &[Remark]) -> Size {
    if remarks.is_empty() { size } else { Size { width: size.width.saturating_add(WIDTH), height: size.height } }
}
