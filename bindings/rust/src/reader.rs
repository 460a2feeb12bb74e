//! The reader: lines in, messages out.

use crate::counts::Bits;
use crate::message::Message;
use crate::raw;
use crate::refusal::Refusal;
use crate::sentence::Sentence;
use std::fmt;

/// Bytes of a record.
pub const RECORD: usize = 400;

/// How many bytes and numbers each other lent part has.
const PAYLOAD: usize = 384;
const BITS: usize = 288;
const NUMBERS: usize = 50;
const TEXTS: usize = 80;

/// What came of a line.
#[derive(Clone, Copy, Debug, PartialEq, Eq)]
pub enum Outcome {
    Complete,
    /// More lines of the message are to come.
    Unfinished,
    Refused(Refusal),
}

/// Unarmors a payload of at most 384 bytes, of which the last `fill` bits become 0: the bytes that now stand first in `out`, three for each
/// four of the payload, rounded up. Refusals 7, 6, 12 and 8, in that order.
pub fn unarmor<'a>(payload: &[u8], fill: Bits, out: &'a mut [u8]) -> Result<&'a [u8], Refusal> {
    let mut numbers = [0];
    match raw::unarmor(payload, fill.0, out, &mut numbers) {
        0 => Ok(&out[..numbers[0] as usize]),
        number => Err(Refusal { number, values: [numbers[0], 0] }),
    }
}

/// A reassembly record and what the last line gave.
#[derive(Clone)]
pub struct Reader {
    record: [u8; RECORD],
    payload: [u8; PAYLOAD],
    bits: [u8; BITS],
    numbers: [u64; NUMBERS],
    texts: [u8; TEXTS],
}

impl Default for Reader {
    fn default() -> Self {
        Self::new()
    }
}

/// Two readers are the same if they go on from the same record and their last line gave the same.
impl PartialEq for Reader {
    fn eq(&self, other: &Self) -> bool {
        (&self.record, &self.numbers, &self.texts, self.payload(), self.bits())
            == (&other.record, &other.numbers, &other.texts, other.payload(), other.bits())
    }
}

impl fmt::Debug for Reader {
    fn fmt(&self, f: &mut fmt::Formatter) -> fmt::Result {
        let mut shown = f.debug_struct("Reader");
        shown.field("record", &self.record.escape_ascii().to_string());
        shown.field("payload", &self.payload().escape_ascii().to_string());
        shown.field("sentence", &self.sentence()).field("message", &self.message()).finish()
    }
}

impl Reader {
    /// A reader with a fresh record.
    pub fn new() -> Self {
        let mut reader = Self::with_record([0; RECORD]);
        raw::fresh(&mut reader.record);
        reader
    }

    /// A reader that goes on from a record's bytes, whatever they are.
    pub fn with_record(record: [u8; RECORD]) -> Self {
        Self { record, payload: [0; PAYLOAD], bits: [0; BITS], numbers: [0; NUMBERS], texts: [0; TEXTS] }
    }

    /// The record's bytes, to be kept or handed on.
    pub fn record(&self) -> &[u8; RECORD] {
        &self.record
    }

    /// Reads one line, which may end in CR LF, in LF or bare. A complete message is decoded if that is asked.
    pub fn read(&mut self, line: &[u8], decode: bool) -> Outcome {
        let code = raw::read(&mut self.record, line, decode, &mut self.payload, &mut self.bits, &mut self.numbers, &mut self.texts);
        match code {
            raw::COMPLETE => Outcome::Complete,
            raw::UNFINISHED => Outcome::Unfinished,
            number => Outcome::Refused(Refusal { number, values: [self.numbers[0], self.numbers[1]] }),
        }
    }

    /// What the last line told of itself; all zero and unknown where it was refused.
    pub fn sentence(&self) -> Sentence {
        Sentence::of(&self.numbers)
    }

    /// The payload that the last line handed out; empty where it was refused.
    pub fn payload(&self) -> &[u8] {
        &self.payload[..self.sentence().payload_len.0]
    }

    /// The unarmored bytes of the message that the last line completed; empty where none was decoded.
    pub fn bits(&self) -> &[u8] {
        match self.numbers[16] {
            0 => &[],
            _ => &self.bits[..Bits(6 * self.sentence().payload_len.0).in_bytes().0],
        }
    }

    /// The message that the last line completed, if it was decoded.
    pub fn message(&self) -> Message {
        Message::of(&self.numbers, &self.texts)
    }
}
