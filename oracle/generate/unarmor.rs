//! Commands for unarmoring alone.

use crate::commands::Commands;
use crate::message::armour;
use crate::random::Random;
use std::io::Write;

/// Lengths at document 01's boundaries.
const LENGTHS: [usize; 16] = [0, 1, 2, 3, 4, 5, 20, 21, 26, 27, 28, 60, 61, 383, 384, 385];
/// Bytes beside the two ranges, and far from them.
const NOT_ARMOUR: [u8; 9] = [0, 47, 88, 91, 95, 120, 127, 128, 255];

/// Room for the bytes of `count` characters.
fn need(count: usize) -> usize {
    (6 * count + 7) / 8
}

pub fn short<W: Write>(commands: &mut Commands<W>) {
    for fill in 0..=5 {
        for first in 0..=255 {
            commands.unarmor(fill, 288, &[first]);
            for second in 0..=255 {
                commands.unarmor(fill, 288, &[first, second]);
            }
        }
    }
}

pub fn cases<W: Write>(commands: &mut Commands<W>) {
    commands.unarmor(5, 288, b"w");
    for byte in 0..=255 {
        commands.unarmor(usize::from(byte) % 6, 288, &[byte]);
        commands.unarmor(0, 288, &[b'0', byte]);
    }
    for length in 0..=12 {
        for fill in 0..=if length == 0 { 0 } else { 5 } {
            commands.unarmor(fill, 288, &vec![b'w'; length]);
        }
    }
    for length in LENGTHS {
        let text: Vec<u8> = (0..length).map(|place| armour((place * 29 % 64) as u8)).collect();
        for room in [0, need(length).max(1) - 1, need(length), need(length) + 1, 1024] {
            commands.unarmor(if length == 0 { 0 } else { length % 6 }, room, &text);
        }
    }
    for place in 0..12 {
        for byte in NOT_ARMOUR {
            let mut text = *b"0Ww`1aVbUcTd";
            text[place] = byte;
            commands.unarmor(place % 6, 288, &text);
            text[11 - place / 2] = 88;
            commands.unarmor(0, 288, &text);
        }
    }
    refusals(commands);
    for command in [
        "unarmor", "unarmor 0 9", "unarmor 0 9 7", "unarmor 0 9 7G", "unarmor 0 9 AA", "unarmor x 9 77", "unarmor 0  9 77", "unarmer 0 9 77",
        "unarmor 0 9 77 77",
    ] {
        commands.put(command);
    }
}

/// The refusals 7, 6, 12 and 8 in their order, each before those that come after it.
fn refusals<W: Write>(commands: &mut Commands<W>) {
    let long = vec![b'X'; 385];
    for fill in 1..=5 {
        commands.unarmor(fill, 288, b"");
    }
    for fill in [6, 7, 255] {
        for text in [&b""[..], b"w", b"X", &long] {
            commands.unarmor(fill, 0, text);
        }
    }
    for length in [385, 386, 1000] {
        commands.unarmor(5, 0, &vec![b'X'; length]);
        commands.unarmor(0, 1024, &vec![b'w'; length]);
    }
    commands.unarmor(0, 287, &long[..384]);
    commands.unarmor(0, 288, &long[..384]);
    let mut last = vec![b'w'; 384];
    last[383] = b'x';
    commands.unarmor(3, 287, &last);
    commands.unarmor(3, 288, &last);
}

pub fn random<W: Write>(commands: &mut Commands<W>, random: &mut Random) {
    let most = if random.once_in(8) { 400 } else { 40 };
    let length = random.length(&LENGTHS, most);
    let mut text: Vec<u8> = (0..length).map(|_| armour(random.bits(6) as u8)).collect();
    if length > 0 && random.once_in(4) {
        for _ in 0..=random.below(3) {
            text[random.below(length)] = if random.once_in(2) { random.pick(&NOT_ARMOUR) } else { random.byte() };
        }
    }
    let fill = if length == 0 { 0 } else { random.below(6) };
    let room = if random.once_in(3) { (need(length) + random.below(3)).max(1) - 1 } else { 288 };
    commands.unarmor(fill, room, &text);
}
