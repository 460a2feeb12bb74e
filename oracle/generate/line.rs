//! Lines by their fields, each as its text, so that any of them can be damaged and the checksum still be right.

use crate::message::Bits;

/// The places in `fields`; the first is the talker's two bytes and the report's three.
pub const HEAD: usize = 0;
pub const TOTAL: usize = 1;
pub const NUMBER: usize = 2;
pub const ID: usize = 3;
pub const CHANNEL: usize = 4;
pub const PAYLOAD: usize = 5;
pub const FILL: usize = 6;

#[derive(Clone)]
pub struct Line {
    /// The tag block, if any, and the start mark.
    pub before: Vec<u8>,
    pub fields: [Vec<u8>; 7],
}

impl Line {
    /// A line complete alone.
    pub fn single(payload: &[u8], fill: usize) -> Self {
        Self::of("1", "1", "", payload, fill)
    }

    pub fn of(total: &str, number: &str, id: &str, payload: &[u8], fill: usize) -> Self {
        let fill = fill.to_string();
        let fields = ["AIVDM".as_bytes(), total.as_bytes(), number.as_bytes(), id.as_bytes(), b"A", payload, fill.as_bytes()];
        Self { before: b"!".to_vec(), fields: fields.map(<[u8]>::to_vec) }
    }

    pub fn message(bits: &Bits) -> Self {
        let (payload, fill) = bits.armour();
        Self::single(&payload, fill)
    }

    pub fn with(&self, field: usize, text: &[u8]) -> Self {
        let mut line = self.clone();
        line.fields[field] = text.to_vec();
        line
    }

    pub fn after(&self, before: &[u8]) -> Self {
        Self { before: before.to_vec(), ..self.clone() }
    }

    /// The line with its right checksum.
    pub fn text(&self) -> Vec<u8> {
        self.ended(|sum| format!("{sum:02X}"))
    }

    /// The line with what follows its star, given the right checksum.
    pub fn ended(&self, end: impl FnOnce(u8) -> String) -> Vec<u8> {
        let body = self.fields.join(&b',');
        let sum = checksum(&body);
        [&self.before, &body, &b"*"[..], end(sum).as_bytes()].concat()
    }
}

/// The exclusive or of the bytes up to the first star.
pub fn checksum(body: &[u8]) -> u8 {
    body.iter().take_while(|&&byte| byte != b'*').fold(0, |sum, byte| sum ^ byte)
}

/// A message's lines: its payload cut at these places.
pub fn split(payload: &[u8], fill: usize, id: &str, cuts: &[usize]) -> Vec<Line> {
    let total = cuts.len() + 1;
    let ends = cuts.iter().copied().chain([payload.len()]);
    let starts = [0].into_iter().chain(cuts.iter().copied());
    starts
        .zip(ends)
        .enumerate()
        .map(|(index, (start, end))| {
            let fill = if index + 1 == total { fill } else { 0 };
            Line::of(&total.to_string(), &(index + 1).to_string(), id, &payload[start..end], fill)
        })
        .collect()
}
