// Made by tools/plain_rust from crates/lease_facts/src/words.rt. Changes belong there.

/// Whether a field is this word. The word is mostly known where this is called, and short, so that its
/// bytes are compared one by one.
#[inline(always)]
pub fn is(field: &[u8], word: &[u8]) -> bool {
    if field.len() != word.len() {
        return false;
    }
    for place in 0..word.len() {
        if field[place] != word[place] {
            return false;
        }
    }
    true
}
