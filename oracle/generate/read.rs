//! Commands for reading lines: the cases, and the short runs of lines. `stream.rs` has the random ones.

use crate::commands::Commands;
use crate::line::{checksum, split, Line, CHANNEL, FILL, HEAD, ID, NUMBER, PAYLOAD, TOTAL};
use crate::message::{armour, craft, interrogation, position, with};
use crate::texts::{ends, BEFORE, CHANNELS, DECIMALS, FILLS, HEADS, PAYLOADS};
use std::io::Write;

/// Type 24, part 2: the shortest line that is decoded.
fn shortest() -> Line {
    Line::single(b"H000008", 0)
}

/// The same on another channel, where one digit is enough for the checksum.
fn small_checksum() -> Line {
    let line = shortest();
    let sum = checksum(&line.fields.join(&b','));
    line.with(CHANNEL, &[b'A' ^ sum & 0xf0])
}

pub fn cases<W: Write>(commands: &mut Commands<W>) {
    commands.read(true, &shortest().text());
    soundings(commands);
    commands.fresh();
    // The record holds something, so that a line complete alone is seen to leave it.
    commands.read(true, &Line::of("2", "1", "3", b"ww", 0).text());
    fields(commands);
    for end in 0..ends(0).len() {
        commands.read(true, &shortest().ended(|sum| ends(sum)[end].clone()));
        commands.read(true, &small_checksum().ended(|sum| ends(sum)[end].clone()));
    }
    payloads(commands);
    rooms(commands);
    cut(commands);
    commands.read(true, &Line::of("2", "2", "3", b"ww", 2).text());
    for first in &run_of_lines() {
        for second in &run_of_lines() {
            run(commands, &[first, second], true);
        }
    }
    lengths(commands);
    long_messages(commands);
    most_fragments(commands);
    forms(commands);
}

/// The lines that document 01 gives.
fn soundings<W: Write>(commands: &mut Commands<W>) {
    for decode in [false, true] {
        commands.fresh();
        for line in [
            &b"!AIVDM,1,1,,A,w,0*51"[..],
            b"!AIVDM,1,1,,A,w,0*50",
            b"!AIVDM,2,1,3,A,w,0*61",
            b"!AIVDM,2,2,3,A,w,5*67",
            b"!AIVDM,1,0,,A,w,0*50",
            b"!AIVDM,0,1,,A,w,0*50",
        ] {
            commands.read(decode, line);
        }
        commands.fresh();
        commands.read(decode, b"!AIVDM,0,1,,A,w,0*50");
    }
    for (first, zeros) in [(b'1', 27), (b'1', 26), (b'1', 25), (b'?', 12), (b'?', 11)] {
        commands.read(true, &Line::single(&[vec![first], vec![b'0'; zeros]].concat(), 0).text());
    }
}

/// Each field damaged, the others right.
fn fields<W: Write>(commands: &mut Commands<W>) {
    let texts: [(usize, &[&[u8]]); 7] =
        [(HEAD, &HEADS), (TOTAL, &DECIMALS), (NUMBER, &DECIMALS), (ID, &DECIMALS), (CHANNEL, &CHANNELS), (PAYLOAD, &PAYLOADS), (FILL, &FILLS)];
    for (field, texts) in texts {
        for text in texts {
            let line = shortest().with(field, text);
            commands.read(false, &line.text());
            if field == PAYLOAD || field == FILL {
                commands.read(true, &line.text());
            }
        }
    }
    for before in BEFORE {
        commands.read(true, &shortest().after(before).text());
    }
}

/// Every type with every fill in one character and in a whole message, and a byte that is not armour at each place.
fn payloads<W: Write>(commands: &mut Commands<W>) {
    for kind in 0..64 {
        for payload in [vec![armour(kind)], [vec![armour(kind)], vec![b'2'; 27]].concat()] {
            commands.read(true, &Line::single(&payload, usize::from(kind) % 6).text());
        }
    }
    for fill in 0..=5 {
        for payload in [&b"w"[..], b"ww", b"www", b"wwww", b"Hwwwwww"] {
            commands.read(true, &Line::single(payload, fill).text());
        }
    }
    for message in [with(&position(), &[]), with(&interrogation(), &[]), with(&craft(), &[])] {
        commands.read(true, &Line::message(&message).text());
        let (payload, fill) = message.armour();
        for place in [0, 1, payload.len() - 1] {
            let mut payload = payload.clone();
            payload[place] = b'X';
            commands.read(true, &Line::single(&payload, fill).text());
            payload[5] = 200;
            commands.read(false, &Line::single(&payload, fill).text());
            commands.read(true, &Line::single(&payload, fill).text());
            for line in split(&payload, fill, "6", &[3]) {
                commands.read(true, &line.text());
            }
        }
    }
}

/// Buffers at and below their least sizes: 12 comes before all else.
fn rooms<W: Write>(commands: &mut Commands<W>) {
    let long = vec![b'!'; 1025];
    for (room, bit_room) in [(384, 288), (383, 288), (384, 287), (0, 288), (384, 0), (0, 0), (1024, 1024), (385, 289)] {
        for line in [&shortest().text()[..], b"", &long, &Line::of("2", "2", "9", b"w", 0).text()] {
            commands.read_into(true, room, bit_room, line);
            commands.read_into(false, room, bit_room, line);
        }
    }
}

/// A line without its end, and without each of its bytes.
fn cut<W: Write>(commands: &mut Commands<W>) {
    let line = shortest().after(b"\\t\\!").text();
    for place in 0..line.len() {
        commands.read(true, &line[..place]);
        commands.read(true, &[&line[..place], &line[place + 1..]].concat());
    }
}

/// Ten lines whose runs meet every rule of the record: two messages of several lines, one without a number, and lines out of place.
fn run_of_lines() -> Vec<Vec<u8>> {
    let heads = [
        ("2", "1", "3"),
        ("2", "2", "3"),
        ("3", "2", "3"),
        ("3", "3", "3"),
        ("2", "1", ""),
        ("2", "2", ""),
        ("1", "1", ""),
        ("1", "0", ""),
        ("0", "1", ""),
        ("2", "2", "4"),
    ];
    let line = |(index, (total, number, id))| Line::of(total, number, id, &[armour(index as u8 + 1), b'0'], index % 6).text();
    heads.into_iter().enumerate().map(line).collect()
}

fn run<W: Write>(commands: &mut Commands<W>, lines: &[&Vec<u8>], decode: bool) {
    commands.fresh();
    for line in lines {
        commands.read(decode, line);
    }
}

/// Payloads and lines at the boundaries.
fn lengths<W: Write>(commands: &mut Commands<W>) {
    for length in [1, 2, 20, 21, 26, 27, 28, 56, 60, 61, 383, 384, 385, 386, 900] {
        let payload: Vec<u8> = [b"H000008", &vec![b'w'; length][..]].concat()[..length].to_vec();
        commands.fresh();
        commands.read(false, &Line::of("2", "1", "", b"1", 0).text());
        commands.read(true, &Line::single(&payload, 0).text());
        commands.read(false, &Line::of("2", "2", "", &payload, 5).text());
        commands.read(true, &Line::of("2", "1", "", &payload, 0).text());
        commands.read(true, &Line::of("2", "2", "", b"w", 0).text());
    }
    commands.fresh();
    for length in [1023, 1024, 1025, 1026, 2000, 4000] {
        for line in [shortest().text(), shortest().after(b"\\t\\!").ended(|sum| format!("{:02X}", !sum)), b"!".to_vec()] {
            let padding = vec![b' '; length - line.len()];
            commands.read(true, &[&line[..], &padding].concat());
            commands.read(true, &[b"\\", &padding[2..], b"\\", &line].concat());
        }
    }
}

/// Messages that fill the record, and that go beyond it at the first line, in the middle and at the last.
fn long_messages<W: Write>(commands: &mut Commands<W>) {
    for (cuts, length) in [
        (&[1][..], 384),
        (&[1], 385),
        (&[383], 384),
        (&[384], 385),
        (&[385], 386),
        (&[128, 256], 384),
        (&[128, 256], 385),
        (&[200, 385], 386),
        (&[200, 384], 385),
        (&[384, 385], 386),
        (&[60, 120, 180, 240, 300, 360], 384),
    ] {
        let payload: Vec<u8> = (0..length).map(|place| armour((24 + place * 7 % 64) as u8 % 64)).collect();
        commands.fresh();
        for line in split(&payload, 4, "7", cuts) {
            commands.read(true, &line.text());
            commands.read(true, &shortest().text());
        }
        commands.read(true, &Line::of("9", "2", "7", b"w", 0).text());
        commands.read(true, &Line::of("2", "2", "", b"w", 0).text());
    }
}

/// A message of 255 lines, then number 0: the listed difference, after which a comparing run starts afresh.
fn most_fragments<W: Write>(commands: &mut Commands<W>) {
    let payload: Vec<u8> = (0..255).map(|place| armour(place % 64)).collect();
    let cuts: Vec<usize> = (1..255).collect();
    commands.fresh();
    for line in split(&payload, 0, "0", &cuts) {
        commands.read(false, &line.text());
    }
    commands.read(false, &Line::of("255", "254", "0", b"w", 0).text());
    commands.read(false, &Line::of("1", "0", "0", b"w", 0).text());
    commands.fresh();
}

/// Commands that are not in the protocol's form change nothing.
fn forms<W: Write>(commands: &mut Commands<W>) {
    commands.fresh();
    commands.read(true, &Line::of("2", "1", "3", b"w", 0).text());
    for command in [
        "read", "read 1 384 288", "read 2 384 288 00", "read 1 384 00", "read 1 384 288 0", "read 1 384 288 0G", "read 1 1025 288 00",
        "read 1 384 1025 00", "read 1 384 -1 00", "read x 384 288 00", "read  1 384 288 00", "Read 1 384 288 00", "fresh 1", "refresh", "fres",
    ] {
        commands.put(command);
    }
    commands.read(true, &Line::of("2", "2", "3", b"w", 5).text());
}

/// All runs of four of the ten lines, every byte at every place of a line (its checksum right again, and not), and the published lines.
pub fn short<W: Write>(commands: &mut Commands<W>, published: &[Vec<u8>]) {
    let lines = run_of_lines();
    for run_number in 0..lines.len().pow(4) {
        let chosen: Vec<_> = (0..4).map(|place| &lines[run_number / lines.len().pow(place) % lines.len()]).collect();
        run(commands, &chosen, run_number % 2 == 0);
    }
    let good = shortest().after(b"\\t\\!").text();
    for place in 0..good.len() {
        commands.fresh();
        for byte in 0..=255 {
            let mut line = good.clone();
            line[place] = byte;
            commands.read(true, &line);
            commands.read(true, &crate::stream::repaired(line));
        }
    }
    for decode in [false, true] {
        commands.fresh();
        for line in published {
            commands.read(decode, line);
        }
    }
}
