//! Random runs of lines, each into a fresh record.

use crate::commands::Commands;
use crate::line::{checksum, split, Line};
use crate::message::{self, armour};
use crate::random::Random;
use crate::texts::{ends, BEFORE, CHANNELS, DECIMALS, FILLS, HEADS, PAYLOADS};
use std::io::Write;

const IDS: [&str; 6] = ["", "0", "3", "3", "4", "255"];
/// What a damaged place often gets.
const MARKS: &[u8] = b"!$*,\\0159AFaf@XW_`wx \r\n\0\x7f\x80\xff";

pub fn random<W: Write>(commands: &mut Commands<W>, random: &mut Random, published: &[Vec<u8>]) {
    commands.fresh();
    let lines = match random.below(8) {
        0 | 1 => (0..=random.below(3)).map(|_| Line::message(&message::random(random)).text()).collect(),
        2..=4 => several(random),
        5 => (0..=random.below(4)).map(|_| odd(random)).collect(),
        6 => (0..=random.below(4)).map(|_| damaged(random, published)).collect(),
        _ => (0..=random.below(3)).map(|_| noise(random)).collect::<Vec<_>>(),
    };
    for line in lines {
        let (room, bit_room) =
            if random.once_in(25) { (random.pick(&[0, 383, 384, 385, 1024]), random.pick(&[0, 287, 288, 289, 1024])) } else { (384, 288) };
        commands.read_into(!random.once_in(4), room, bit_room, &line);
    }
}

/// A message's lines: one to five of them, in one run out of eight about as long as the record.
fn message_lines(random: &mut Random) -> Vec<Line> {
    let (payload, fill) = if random.once_in(8) {
        let length = random.length(&[383, 384, 385], 450);
        ((0..length.max(1)).map(|_| armour(random.bits(6) as u8)).collect(), random.below(6))
    } else {
        message::random(random).armour()
    };
    let mut cuts: Vec<usize> = (0..random.below(5)).map(|_| random.below(payload.len() + 1)).collect();
    cuts.sort_unstable();
    let id = random.pick(&IDS);
    split(&payload, fill, id, &cuts)
}

/// One of a message's lines.
fn good(random: &mut Random) -> Line {
    let lines = message_lines(random);
    random.pick(&lines)
}

/// The lines of some messages, each message's in order and mixed with the others', then some lost, repeated, swapped, foreign or changed.
fn several(random: &mut Random) -> Vec<Vec<u8>> {
    let mut messages: Vec<Vec<Line>> = (0..=random.below(3)).map(|_| message_lines(random)).collect();
    let mut lines = Vec::new();
    while !messages.is_empty() {
        let chosen = random.below(messages.len());
        lines.push(messages[chosen].remove(0));
        messages.retain(|rest| !rest.is_empty());
    }
    for _ in 0..random.below(4) {
        let place = random.below(lines.len());
        let other = random.below(lines.len());
        match random.below(6) {
            0 if lines.len() > 1 => drop(lines.remove(place)),
            1 => lines.insert(other, lines[place].clone()),
            2 => lines.swap(place, other),
            3 => lines.insert(place, Line::message(&message::random(random))),
            4 => lines.insert(place, Line::of(random.pick(&["0", "1", "2", "3"]), random.pick(&["0", "1", "2", "3"]), random.pick(&IDS), b"w", 0)),
            _ => lines[place] = odd_field(random, &lines[place]),
        }
    }
    lines.iter().map(Line::text).collect()
}

/// A line with one of its fields another text.
fn odd_field(random: &mut Random, line: &Line) -> Line {
    let texts: [&[&[u8]]; 7] = [&HEADS, &DECIMALS, &DECIMALS, &DECIMALS, &CHANNELS, &PAYLOADS, &FILLS];
    let field = random.below(8);
    if field == 7 {
        line.after(random.pick(&BEFORE))
    } else {
        line.with(field, random.pick(texts[field]))
    }
}

/// A line with odd fields, and sometimes an odd end.
fn odd(random: &mut Random) -> Vec<u8> {
    let mut line = good(random);
    for _ in 0..=random.below(3) {
        line = odd_field(random, &line);
    }
    if random.once_in(3) {
        line.ended(|sum| random.pick(&ends(sum)))
    } else {
        line.text()
    }
}

/// A good line, one of ours or a published one, with bytes changed, lost, added or repeated; in half of them the checksum is right again.
fn damaged(random: &mut Random, published: &[Vec<u8>]) -> Vec<u8> {
    let mut line = if published.is_empty() || random.once_in(2) { good(random).text() } else { random.pick(published) };
    for _ in 0..=random.below(3) {
        let place = random.below(line.len());
        let byte = if random.once_in(3) { random.byte() } else { random.pick(MARKS) };
        match random.below(5) {
            0 => line[place] = byte,
            1 => line.insert(place, byte),
            2 if line.len() > 1 => drop(line.remove(place)),
            3 if random.once_in(4) => line.truncate(place + 1),
            _ => line.insert(random.below(place + 1), line[place]),
        }
    }
    if random.once_in(2) {
        repaired(line)
    } else {
        line
    }
}

/// A line with what follows its last star replaced by its right checksum.
pub fn repaired(mut line: Vec<u8>) -> Vec<u8> {
    let start = line.iter().position(|byte| b"!$".contains(byte)).map_or(0, |mark| mark + 1);
    if let Some(star) = line.iter().rposition(|&byte| byte == b'*').filter(|&star| star >= start) {
        let sum = checksum(&line[start..]);
        line.truncate(star + 1);
        line.extend(format!("{sum:02X}").bytes());
    }
    line
}

/// Not a line: marks and digits in any order. Or a line made longer, about to 1,024 bytes.
fn noise(random: &mut Random) -> Vec<u8> {
    let mut line: Vec<u8> = if random.once_in(2) { odd(random) } else { (0..random.below(30)).map(|_| random.pick(MARKS)).collect() };
    if random.once_in(2) {
        let length = random.length(&[1023, 1024, 1025], 1100);
        line.resize(length.max(line.len()), random.pick(MARKS));
    }
    line
}
