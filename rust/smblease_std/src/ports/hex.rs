//! Bytes as hexadecimal digits, by `hex`, whose calls that take memory are passed an allocator here.
use crate::alloc::{AllocError, Global};
use crate::string::String;
use crate::vec::Vec;

/// Why digits are no bytes.
#[derive(Clone, Copy, Debug, PartialEq, Eq)]
pub enum FromHexError {
    /// They are of another count, or not all are digits.
    Invalid,
    /// There is no memory.
    OutOfMemory,
}

impl From<AllocError> for FromHexError {
    fn from(_error: AllocError) -> FromHexError {
        FromHexError::OutOfMemory
    }
}

/// The digits of bytes, in lower case.
pub fn encode<B: AsRef<[u8]>>(alloc: Global, bytes: B) -> Result<String, AllocError> {
    let mut text = String::new(alloc);
    let mut digits = [0; 2];
    for byte in bytes.as_ref() {
        // Two digits have room for those of one byte, and are ASCII.
        if hex::encode_to_slice([*byte], &mut digits).is_ok() {
            text.push(char::from(digits[0]))?;
            text.push(char::from(digits[1]))?;
        }
    }
    Ok(text)
}

/// The bytes of digits in either case.
pub fn decode<B: AsRef<[u8]>>(alloc: Global, digits: B) -> Result<Vec<u8>, FromHexError> {
    let digits = digits.as_ref();
    if !digits.len().is_multiple_of(2) {
        return Err(FromHexError::Invalid);
    }
    let mut bytes = Vec::from_elem(alloc, 0, digits.len() / 2)?;
    hex::decode_to_slice(digits, &mut bytes).map_err(|_| FromHexError::Invalid)?;
    Ok(bytes)
}

/// What has one number of digits.
pub trait FromHex: Sized {
    /// The value of these digits.
    fn from_hex<B: AsRef<[u8]>>(digits: B) -> Result<Self, FromHexError>;
}

impl<const N: usize> FromHex for [u8; N] {
    fn from_hex<B: AsRef<[u8]>>(digits: B) -> Result<[u8; N], FromHexError> {
        let mut bytes = [0; N];
        hex::decode_to_slice(digits, &mut bytes).map_err(|_| FromHexError::Invalid)?;
        Ok(bytes)
    }
}
