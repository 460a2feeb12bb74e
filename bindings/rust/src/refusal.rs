//! Why a call is refused.

use std::fmt;

/// Document 01's number, from 1 to 13, and the values that it also returns; unused places are 0.
#[derive(Clone, Copy, Debug, PartialEq, Eq, Hash)]
pub struct Refusal {
    pub number: u32,
    pub values: [u64; 2],
}

/// The words for each number from 1 on, as bindings/sumturnip.h has them.
const REASONS: [&str; 13] = [
    "line over 1024 bytes",
    "line breaks the line rules",
    "checksum differs",
    "message number differs from the one before",
    "fragment number is not the next one",
    "payload over 384 bytes",
    "fill over 5, or fill with empty data",
    "byte cannot be unarmored",
    "message ends inside a needed field",
    "message type is not decoded",
    "message type is unknown",
    "a lent output is too small",
    "request outside the writer's limits",
];

impl Refusal {
    /// The number in words.
    pub fn reason(&self) -> &'static str {
        let at = (self.number as usize).checked_sub(1);
        at.and_then(|at| REASONS.get(at)).copied().unwrap_or("not a refusal")
    }
}

/// The reason, and the values that go with it.
impl fmt::Display for Refusal {
    fn fmt(&self, f: &mut fmt::Formatter) -> fmt::Result {
        f.write_str(self.reason())?;
        let [a, b] = self.values;
        match self.number {
            3 => write!(f, ": {a:02X} in the line, {b:02X} found"),
            8 => write!(f, ": offset {a}"),
            10 | 11 => write!(f, ": {a}"),
            _ => Ok(()),
        }
    }
}

impl std::error::Error for Refusal {}
