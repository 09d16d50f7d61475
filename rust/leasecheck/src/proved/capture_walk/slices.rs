// Made by tools/plain_rust from crates/capture_walk/src/slices.rt. Changes belong there.

/// What a list has from an index on; nothing where it isn't as long.
pub(crate) fn from<T>(items: &[T], index: usize) -> &[T] {
    if index < items.len() { &items[index..] } else { &[] }
}
