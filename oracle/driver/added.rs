//! What document 01 adds to the crate, and so what is not the crate's own answer: the refusals 1, 6, 7, 10 and 12,
//! the true type, the count of sent bits, the raw numbers, and that lent bytes are kept. (6 for a line is in `reader.rs`.)

use ais::messages;

const LINE: usize = 1024;
pub const PAYLOAD: usize = 384;
const BITS: usize = 288;

/// The crate is lent no buffer, so it spoils none.
pub const KEPT: &str = "kept";

/// 12 and 1, which a line meets before it is read.
pub fn read_refusal(room: usize, bit_room: usize, line: &[u8]) -> Option<u8> {
    if room < PAYLOAD || bit_room < BITS {
        Some(12)
    } else if line.len() > LINE {
        Some(1)
    } else {
        None
    }
}

/// 7, 6 and 12, which unarmoring alone meets before 8.
pub fn unarmor_refusal(fill: usize, room: usize, data: &[u8]) -> Option<u8> {
    if fill > 5 || (fill > 0 && data.is_empty()) {
        Some(7)
    } else if data.len() > PAYLOAD {
        Some(6)
    } else if room < (6 * data.len() + 7) / 8 {
        Some(12)
    } else {
        None
    }
}

/// The type, where it is one that is answered with 10.
pub fn other_type(bytes: &[u8]) -> Option<u8> {
    let (_, kind) = messages::message_type(bytes).ok()?;
    matches!(kind, 4..=14 | 16..=21 | 27).then_some(kind)
}

/// The six-bit value of the payload's first byte, by the crate's own unarmoring.
pub fn true_type(payload: &[u8]) -> Option<u8> {
    let bytes = messages::unarmor(payload.get(..1)?, 0).ok()?;
    Some(bytes[0] >> 2)
}

pub fn sent(payload: &[u8], fill: u8) -> usize {
    6 * payload.len() - usize::from(fill)
}

/// An unsigned field of a message, highest bit first.
pub fn field(bytes: &[u8], place: usize, width: usize) -> u32 {
    (place..place + width).fold(0, |value, bit| value << 1 | u32::from(bytes[bit / 8] >> (7 - bit % 8) & 1))
}

/// A field in two's complement.
pub fn signed(bytes: &[u8], place: usize, width: usize) -> i32 {
    let value = field(bytes, place, width) as i32;
    if value >> (width - 1) == 1 {
        value - (1 << width)
    } else {
        value
    }
}
