//! GUIDs as text, by `uuid`, with a call that its later versions alone have.
pub use uuid::fmt::Hyphenated;

/// A GUID.
#[derive(Clone, Copy, Debug, PartialEq, Eq)]
pub struct Uuid(uuid::Uuid);

/// A text is no GUID.
#[derive(Clone, Copy, Debug, PartialEq, Eq)]
pub struct Error;

impl Uuid {
    /// The GUID of these bytes.
    pub fn from_bytes(bytes: [u8; 16]) -> Uuid {
        Uuid(uuid::Uuid::from_bytes(bytes))
    }

    /// Its bytes.
    pub fn into_bytes(self) -> [u8; 16] {
        self.0.into_bytes()
    }

    /// It as text with hyphens.
    pub fn hyphenated(self) -> Hyphenated {
        self.0.hyphenated()
    }

    /// The GUID of a text in any of the forms that there are.
    pub fn try_parse_ascii(text: &[u8]) -> Result<Uuid, Error> {
        let text = core::str::from_utf8(text).map_err(|_| Error)?;
        uuid::Uuid::try_parse(text).map(Uuid).map_err(|_| Error)
    }
}
