// Made by tools/plain_rust from crates/lease_texts/src/pieces.rt. Changes belong there.

/// What stands before the first separator, and what follows it; all, and nothing, where there is none.
pub fn split_first(separator: u8, bytes: &[u8]) -> (&[u8], Option<&[u8]>) {
    match place_of(separator, bytes) {
        Some(place) => (&bytes[..place], Some(&bytes[place + 1..])),
        None => (bytes, None),
    }
}

// Where the first separator is. Fields are short, so the bytes are looked at one by one.
fn place_of(separator: u8, bytes: &[u8]) -> Option<usize> {
    bytes.iter().position(|byte| *byte == separator)
}
