//! A sentence, from the numbers at places 2 to 15 of an answer.

use crate::counts::{Bits, Bytes};

/// The talkers in the order of their numbers.
#[derive(Clone, Copy, Debug, PartialEq, Eq)]
pub enum Talker {
    Unknown,
    AB,
    AD,
    AI,
    AN,
    AR,
    AS,
    AT,
    AX,
    BS,
    SA,
}

const TALKERS: [Talker; 11] = [
    Talker::Unknown,
    Talker::AB,
    Talker::AD,
    Talker::AI,
    Talker::AN,
    Talker::AR,
    Talker::AS,
    Talker::AT,
    Talker::AX,
    Talker::BS,
    Talker::SA,
];

/// The report types in the order of their numbers.
#[derive(Clone, Copy, Debug, PartialEq, Eq)]
pub enum ReportType {
    Unknown,
    Vdm,
    Vdo,
}

/// What a line told: `message_type` is the crate's; the true type, the length and the sent bits are those of the payload handed out.
#[derive(Clone, Copy, Debug, PartialEq, Eq)]
pub struct Sentence {
    pub talker: Talker,
    pub report_type: ReportType,
    pub num_fragments: u8,
    pub fragment_number: u8,
    pub message_id: Option<u8>,
    pub channel: Option<u8>,
    pub fill_bit_count: Bits,
    pub message_type: u8,
    pub true_type: Option<u8>,
    pub payload_len: Bytes,
    pub sent_bits: Bits,
}

/// What may be absent: two places, whether it is there and its number.
pub(crate) fn optional(numbers: &[u64], at: usize) -> Option<u64> {
    (numbers[at] != 0).then(|| numbers[at + 1])
}

impl Sentence {
    pub(crate) fn of(n: &[u64]) -> Self {
        let byte = |at| optional(n, at).map(|v| v as u8);
        Self {
            talker: TALKERS[n[2] as usize],
            report_type: match n[3] {
                1 => ReportType::Vdm,
                2 => ReportType::Vdo,
                _ => ReportType::Unknown,
            },
            num_fragments: n[4] as u8,
            fragment_number: n[5] as u8,
            message_id: byte(6),
            channel: byte(8),
            fill_bit_count: Bits(n[10] as usize),
            message_type: n[11] as u8,
            true_type: byte(12),
            payload_len: Bytes(n[14] as usize),
            sent_bits: Bits(n[15] as usize),
        }
    }
}
