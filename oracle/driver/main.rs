//! The oracle's driver: answers the commands of the comparing protocol with crate ais 0.12.0, a line for each command.
//! What is not the crate's own answer stands in `added.rs`.

mod added;
mod message;
mod reader;
mod refusal;
mod state;
mod text;

use ais::messages;
use reader::Reader;
use std::io::{self, BufRead, Write};
use text::{hex, number, unhex};

fn main() -> io::Result<()> {
    let mut reader = Reader::default();
    let mut out = io::BufWriter::new(io::stdout().lock());
    for line in io::stdin().lock().split(b'\n') {
        let line = line?;
        let answer = std::str::from_utf8(&line).ok().and_then(|command| answer(&mut reader, command));
        writeln!(out, "{}", answer.as_deref().unwrap_or("bad command"))?;
    }
    out.flush()
}

/// The answer to a command, or none where it is not in the protocol's form. `lend` and `write` are none too: the crate has neither.
fn answer(reader: &mut Reader, command: &str) -> Option<String> {
    let words: Vec<&str> = command.split(' ').collect();
    match words[..] {
        ["fresh"] => {
            *reader = Reader::default();
            Some("fresh".into())
        }
        ["read", decode, room, bit_room, line] => {
            let (decode, room, bit_room) = (number(decode)?, number(room)?, number(bit_room)?);
            if decode > 1 || room > 1024 || bit_room > 1024 {
                return None;
            }
            Some(reader.read(decode == 1, room, bit_room, &unhex(line)?))
        }
        ["unarmor", fill, room, data] => Some(unarmor(number(fill)?, number(room)?, &unhex(data)?)),
        ["decode", bytes] => Some(decode(&unhex(bytes)?)),
        _ => None,
    }
}

fn unarmor(fill: usize, room: usize, data: &[u8]) -> String {
    let told = match added::unarmor_refusal(fill, room, data) {
        Some(number) => format!("refused {number}"),
        None => match messages::unarmor(data, fill) {
            Ok(bytes) => format!("bytes {}", hex(&bytes)),
            Err(error) => refusal::unarmoring(&error, data),
        },
    };
    format!("{told} ; {}", added::KEPT)
}

fn decode(bytes: &[u8]) -> String {
    if let Some(kind) = added::other_type(bytes) {
        return format!("refused 10 {kind}");
    }
    match messages::parse(bytes) {
        Ok(message) => message::text(&message, bytes),
        Err(error) => refusal::decoding(&error),
    }
}
