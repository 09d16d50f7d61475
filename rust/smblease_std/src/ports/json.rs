//! JSON, a token at a time (RFC 8259). No crate's writer says so where memory runs out.
use crate::alloc::AllocError;
use crate::vec::Vec;
use core::fmt::{self, Write};

/// A writer of JSON. It places commas and colons, and leaves the nesting to its caller.
pub struct Writer {
    text: Vec<u8>,
    after_value: bool,
}

// What takes the digits of a number. An error is want of memory.
struct Digits<'a>(&'a mut Vec<u8>);

impl Write for Digits<'_> {
    fn write_str(&mut self, digits: &str) -> fmt::Result {
        self.0.extend_from_slice(digits.as_bytes()).map_err(|_| fmt::Error)
    }
}

impl Writer {
    /// One that writes after what the text holds.
    pub fn new(text: Vec<u8>) -> Writer {
        Writer { text, after_value: false }
    }

    /// The text.
    pub fn into_inner(self) -> Vec<u8> {
        self.text
    }

    fn begin(&mut self) -> Result<(), AllocError> {
        if self.after_value {
            self.text.push(b',')?;
        }
        self.after_value = true;
        Ok(())
    }

    fn open(&mut self, bracket: u8) -> Result<(), AllocError> {
        self.begin()?;
        self.text.push(bracket)?;
        self.after_value = false;
        Ok(())
    }

    fn close(&mut self, bracket: u8) -> Result<(), AllocError> {
        self.text.push(bracket)?;
        self.after_value = true;
        Ok(())
    }

    /// The beginning of an object.
    pub fn begin_object(&mut self) -> Result<(), AllocError> {
        self.open(b'{')
    }

    /// The end of an object.
    pub fn end_object(&mut self) -> Result<(), AllocError> {
        self.close(b'}')
    }

    /// The beginning of an array.
    pub fn begin_array(&mut self) -> Result<(), AllocError> {
        self.open(b'[')
    }

    /// The end of an array.
    pub fn end_array(&mut self) -> Result<(), AllocError> {
        self.close(b']')
    }

    /// The name of a member, with its colon.
    pub fn key(&mut self, name: &str) -> Result<(), AllocError> {
        self.string(name)?;
        self.text.push(b':')?;
        self.after_value = false;
        Ok(())
    }

    /// A string.
    pub fn string(&mut self, text: &str) -> Result<(), AllocError> {
        self.begin()?;
        self.text.push(b'"')?;
        for byte in text.bytes() {
            self.escaped(byte)?;
        }
        self.text.push(b'"')?;
        Ok(())
    }

    fn escaped(&mut self, byte: u8) -> Result<(), AllocError> {
        let letter = match byte {
            b'"' | b'\\' => byte,
            8 => b'b',
            9 => b't',
            10 => b'n',
            12 => b'f',
            13 => b'r',
            0..32 => return write!(Digits(&mut self.text), "\\u{byte:04x}").map_err(|_| AllocError),
            _ => {
                self.text.push(byte)?;
                return Ok(());
            }
        };
        self.text.push(b'\\')?;
        self.text.push(letter)?;
        Ok(())
    }

    /// A number.
    pub fn u64(&mut self, number: u64) -> Result<(), AllocError> {
        self.begin()?;
        write!(Digits(&mut self.text), "{number}").map_err(|_| AllocError)
    }
}
