//! The library's calls as bindings/sumturnip.h declares them. A slice passes as a pointer and then a length.

pub const COMPLETE: u32 = 0;
pub const UNFINISHED: u32 = 100;

extern "C" {
    fn sumturnip_version() -> u32;

    fn sumturnip_fresh(record: *mut u8, record_len: usize) -> u32;

    #[allow(clippy::too_many_arguments)]
    fn sumturnip_read(
        record: *mut u8,
        record_len: usize,
        line: *const u8,
        line_len: usize,
        decode: bool,
        payload: *mut u8,
        payload_len: usize,
        bits: *mut u8,
        bits_len: usize,
        numbers: *mut u64,
        numbers_len: usize,
        texts: *mut u8,
        texts_len: usize,
    ) -> u32;

    fn sumturnip_unarmor(
        payload: *const u8,
        payload_len: usize,
        fill: usize,
        out: *mut u8,
        out_len: usize,
        numbers: *mut u64,
        numbers_len: usize,
    ) -> u32;

    #[allow(clippy::too_many_arguments)]
    fn sumturnip_write(
        bit_count: usize,
        talker: u64,
        report: u64,
        has_channel: u64,
        channel: u64,
        number: u64,
        bits: *const u8,
        bits_len: usize,
        out: *mut u8,
        out_len: usize,
        numbers: *mut u64,
        numbers_len: usize,
    ) -> u32;
}

/// The library's version.
pub fn version() -> u32 {
    // SAFETY: the call takes nothing and asks nothing.
    unsafe { sumturnip_version() }
}

/// Makes a record fresh: 0, or 12 where it is too short.
pub fn fresh(record: &mut [u8]) -> u32 {
    // SAFETY: the slice is lent for the call, and its length is its own; the call asks nothing more.
    unsafe { sumturnip_fresh(record.as_mut_ptr(), record.len()) }
}

/// Reads one line.
pub fn read(record: &mut [u8], line: &[u8], decode: bool, payload: &mut [u8], bits: &mut [u8], numbers: &mut [u64], texts: &mut [u8]) -> u32 {
    // SAFETY: each slice is lent for the call, its length is its own, and those that are written overlap no other; the call asks nothing more.
    unsafe {
        sumturnip_read(
            record.as_mut_ptr(),
            record.len(),
            line.as_ptr(),
            line.len(),
            decode,
            payload.as_mut_ptr(),
            payload.len(),
            bits.as_mut_ptr(),
            bits.len(),
            numbers.as_mut_ptr(),
            numbers.len(),
            texts.as_mut_ptr(),
            texts.len(),
        )
    }
}

/// Unarmors a payload.
pub fn unarmor(payload: &[u8], fill: usize, out: &mut [u8], numbers: &mut [u64]) -> u32 {
    // SAFETY: each slice is lent for the call, its length is its own, and those that are written overlap no other; the call asks nothing more.
    unsafe { sumturnip_unarmor(payload.as_ptr(), payload.len(), fill, out.as_mut_ptr(), out.len(), numbers.as_mut_ptr(), numbers.len()) }
}

/// Writes a message's lines. The words are talker, report type, whether there is a channel, the channel and the message number.
pub fn write(count: usize, words: [u64; 5], bits: &[u8], out: &mut [u8], numbers: &mut [u64]) -> u32 {
    let [talker, report, has_channel, channel, number] = words;
    // SAFETY: each slice is lent for the call, its length is its own, and those that are written overlap no other; the call asks nothing more.
    unsafe {
        sumturnip_write(
            count,
            talker,
            report,
            has_channel,
            channel,
            number,
            bits.as_ptr(),
            bits.len(),
            out.as_mut_ptr(),
            out.len(),
            numbers.as_mut_ptr(),
            numbers.len(),
        )
    }
}
