//! The writer: a message's bits as lines.

use crate::counts::Bits;
use crate::raw;
use crate::refusal::Refusal;
use crate::sentence::{ReportType, Talker};

/// Bytes that hold the lines of every message that the writer takes.
pub const LINES: usize = 538;

/// What is asked for beside the bits. The writer refuses a count outside 1 to 2,304 bits, an unknown talker or report type, a channel that is
/// neither `A` nor `B` nor none, and a message number over 9; a message of one line does not show its number.
#[derive(Clone, Copy, Debug, PartialEq, Eq)]
pub struct Request {
    pub count: Bits,
    pub talker: Talker,
    pub report_type: ReportType,
    pub channel: Option<u8>,
    pub message_id: u8,
}

/// Writes the lines of a message, each ending in CR LF: the bytes that now stand first in `out`. The first bits of `bits` are sent, the highest
/// of each byte first. Refusals 13 and 12, in that order.
pub fn write<'a>(request: Request, bits: &[u8], out: &'a mut [u8]) -> Result<&'a [u8], Refusal> {
    let mut numbers = [0];
    let channel = [request.channel.is_some() as u64, request.channel.unwrap_or(0) as u64];
    let words = [request.talker as u64, request.report_type as u64, channel[0], channel[1], request.message_id as u64];
    match raw::write(request.count.0, words, bits, out, &mut numbers) {
        0 => Ok(&out[..numbers[0] as usize]),
        number => Err(Refusal { number, values: [numbers[0], 0] }),
    }
}
