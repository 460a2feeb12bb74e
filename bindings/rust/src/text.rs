//! A text of a static data report.

use std::fmt;

/// At most twenty characters of six-bit text, which are ASCII from the space to the underscore.
#[derive(Clone, Copy, PartialEq, Eq, Hash)]
pub struct Text {
    bytes: [u8; 20],
    length: usize,
}

impl Text {
    /// The text of twenty places, of which the first so many are its own; the others are 0.
    pub(crate) fn of(places: &[u8], length: u64) -> Self {
        let mut bytes = [0; 20];
        bytes.copy_from_slice(places);
        Self { bytes, length: length as usize }
    }

    pub fn as_bytes(&self) -> &[u8] {
        &self.bytes[..self.length]
    }

    pub fn as_str(&self) -> &str {
        std::str::from_utf8(self.as_bytes()).expect("six-bit text is ASCII")
    }
}

impl fmt::Debug for Text {
    fn fmt(&self, f: &mut fmt::Formatter) -> fmt::Result {
        fmt::Debug::fmt(self.as_str(), f)
    }
}

impl fmt::Display for Text {
    fn fmt(&self, f: &mut fmt::Formatter) -> fmt::Result {
        f.pad(self.as_str())
    }
}
