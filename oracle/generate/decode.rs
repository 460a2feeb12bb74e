//! Commands for decoding alone.

use crate::commands::Commands;
use crate::message::{self, craft, interrogation, name, position, unknown_part, with, Bits, Field};
use crate::random::Random;
use std::io::Write;

/// The first text field in the tables of type 24's parts 0 and 1.
const NAME_TEXT: usize = 4;
const CRAFT_TEXT: usize = 5;
/// `@`, `A` and space.
const LETTERS: [i64; 3] = [0, 1, 32];

pub fn short<W: Write>(commands: &mut Commands<W>) {
    for first in 0..=255 {
        commands.decode(&[first]);
        for second in 0..=255 {
            commands.decode(&[first, second]);
        }
    }
    for kind in [1, 2, 3] {
        let fields = position();
        for (place, Field(width, _)) in fields.iter().enumerate().filter(|(place, Field(width, _))| *place > 0 && *width <= 14) {
            for value in 0..1 << width {
                commands.decode(&with(&fields, &[(0, kind), (place, value)]).bytes());
            }
        }
    }
    for ship in 0..256 {
        commands.decode(&with(&craft(), &[(4, ship)]).bytes());
    }
    for word in 0..3usize.pow(7) {
        let letters: Vec<_> = (0..7).map(|place| LETTERS[word / 3usize.pow(place) % 3]).collect();
        commands.decode(&spelt(&craft(), CRAFT_TEXT + 7, &letters).bytes());
        commands.decode(&spelt(&craft(), CRAFT_TEXT, &letters).bytes());
        commands.decode(&spelt(&name(), NAME_TEXT, &letters).bytes());
        commands.decode(&spelt(&name(), NAME_TEXT + 13, &letters).bytes());
    }
    for table in [position(), name(), craft(), unknown_part(), interrogation()] {
        for kind in 0..64 {
            every_length(commands, &with(&table, &[(0, kind)]), 40);
        }
    }
}

/// A message with these letters from this place on.
fn spelt(fields: &[Field], place: usize, letters: &[i64]) -> Bits {
    let set: Vec<_> = letters.iter().enumerate().map(|(index, &letter)| (place + index, letter)).collect();
    with(fields, &set)
}

/// The message cut to every length up to `most` bytes: zeros follow it, or ones.
fn every_length<W: Write>(commands: &mut Commands<W>, bits: &Bits, most: usize) {
    for length in 0..=most {
        for after in [0, 255] {
            let mut bytes = bits.bytes();
            bytes.resize(length, after);
            commands.decode(&bytes);
        }
    }
}

pub fn cases<W: Write>(commands: &mut Commands<W>) {
    commands.decode(&with(&position(), &[]).bytes());
    commands.decode(&[]);
    for kind in 0..64u8 {
        for bytes in [vec![kind << 2], vec![kind << 2 | 3; 4], [vec![kind << 2], vec![0; 38]].concat()] {
            commands.decode(&bytes);
        }
    }
    for kind in [1, 2, 3] {
        every_value(commands, &position(), kind);
        every_length(commands, &with(&position(), &[(0, kind), (1, 3)]), 24);
    }
    for turn in 0..256 {
        commands.decode(&with(&position(), &[(4, turn)]).bytes());
    }
    every_value(commands, &name(), 24);
    every_value(commands, &craft(), 24);
    every_value(commands, &interrogation(), 15);
    names(commands);
    for part in 0..4 {
        every_length(commands, &with(&craft(), &[(3, part), (4, 36), (5, 33)]), 26);
    }
    for set in [&[][..], &[(5, 3), (6, 9)], &[(8, 5)], &[(9, 1)], &[(10, 77), (11, 3)], &[(14, 5), (15, 4095)]] {
        every_length(commands, &with(&interrogation(), set), 30);
    }
    for length in [31, 40, 60, 287, 288, 289, 1000, 4000] {
        for kind in [1, 15, 24, 63] {
            commands.decode(&[vec![kind << 2], vec![0x11; length - 1]].concat());
        }
    }
    for command in ["decode", "decode 0", "decode 0g", "decode FF", "decode 00 00", "decode  00", "lend 0", "write 1"] {
        commands.put(command);
    }
}

/// Each field with each of its values of note, the others with their first.
fn every_value<W: Write>(commands: &mut Commands<W>, fields: &[Field], kind: i64) {
    for (place, Field(_, values)) in fields.iter().enumerate().skip(1) {
        for &value in values.iter() {
            commands.decode(&with(fields, &[(0, kind), (place, value)]).bytes());
        }
    }
}

/// Names with leading spaces, trailing `@` and trailing spaces, in each number and in the two orders at the end.
fn names<W: Write>(commands: &mut Commands<W>) {
    for leading in 0..=20 {
        for (first, then) in [(0, 32), (32, 0)] {
            for count in [0, 1, 2] {
                let mut letters = [vec![32; leading], vec![1, 32, 0, 2], vec![first; count], vec![then; count]].concat();
                letters.resize(20, then);
                commands.decode(&spelt(&name(), NAME_TEXT, &letters).bytes());
            }
        }
    }
    for place in 0..20 {
        for letter in [0, 32] {
            let mut letters = vec![1; 20];
            letters[place] = letter;
            commands.decode(&spelt(&name(), NAME_TEXT, &letters).bytes());
            let others = if letter == 0 { 32 } else { 0 };
            let mut letters = vec![others; 20];
            letters[place] = letter;
            commands.decode(&spelt(&name(), NAME_TEXT, &letters).bytes());
        }
    }
}

pub fn random<W: Write>(commands: &mut Commands<W>, random: &mut Random) {
    let mut bytes = message::random(random).bytes();
    if random.once_in(10) {
        bytes = (0..random.length(&[0, 1, 9, 10, 17, 18, 19, 20, 21, 22, 23], 40)).map(|_| random.byte()).collect();
    }
    commands.decode(&bytes);
}
