// Made by tools/plain_rust from crates/lease_state/src/key.rt. Changes belong there.

use std::ports::uuid::Uuid;

/// The LeaseKey with which a client names a lease (MS-SMB2 2.2.13.2): sixteen bytes.
#[derive(Clone, Copy, Debug, PartialEq, Eq, PartialOrd, Ord, Hash)]
pub struct LeaseKey(pub [u8; 16]);

impl LeaseKey {
    /// The key as text: its bytes as they stand in lower-case hexadecimal digits, 36 characters
    /// with hyphens after 8, 12, 16 and 20 digits (profile). The text is written into `buffer`.
    pub fn text<'b>(&self, buffer: &'b mut [u8; 36]) -> &'b str {
        Uuid::from_bytes(self.0).hyphenated().encode_lower(buffer)
    }
}

#[cfg(test)]
mod tests {
    use super::*;

    #[test]
    fn a_key_is_written_byte_by_byte() {
        let key = LeaseKey([0, 1, 2, 3, 4, 5, 6, 7, 8, 9, 10, 11, 12, 13, 14, 15]);
        let mut buffer = [0; 36];
        assert_eq!(key.text(&mut buffer), "00010203-0405-0607-0809-0a0b0c0d0e0f");
    }
}
