//! Makes commands of the comparing protocol inside document 01's domain, so that the crate and our program can be held against each other.
//!
//!   generate SET cases              commands chosen to touch every branch
//!   generate SET short              short inputs, all of them, and the published lines in the file that SAMPLE names
//!   generate SET random SEED COUNT  COUNT random commands
//!
//! SET is `unarmor`, `decode` or `read`. A set's first case is a command that is taken.

mod commands;
mod decode;
mod line;
mod message;
mod random;
mod read;
mod stream;
mod texts;
mod unarmor;

use commands::Commands;
use random::Random;
use std::io::{self, BufWriter, Write};

fn main() {
    let words: Vec<String> = std::env::args().skip(1).collect();
    let words: Vec<&str> = words.iter().map(String::as_str).collect();
    let mut commands = Commands::new(BufWriter::new(io::stdout().lock()));
    match words[..] {
        ["unarmor", "cases"] => unarmor::cases(&mut commands),
        ["unarmor", "short"] => unarmor::short(&mut commands),
        ["decode", "cases"] => decode::cases(&mut commands),
        ["decode", "short"] => decode::short(&mut commands),
        ["read", "cases"] => read::cases(&mut commands),
        ["read", "short"] => read::short(&mut commands, &published()),
        [set, "random", seed, count] => {
            let Ok(count) = count.parse() else { usage() };
            let mut random = Random::new(&format!("{set} {seed}"));
            let published = published();
            while commands.made < count {
                match set {
                    "unarmor" => unarmor::random(&mut commands, &mut random),
                    "decode" => decode::random(&mut commands, &mut random),
                    "read" => stream::random(&mut commands, &mut random, &published),
                    _ => usage(),
                }
            }
        }
        _ => usage(),
    }
    commands.out.flush().expect("the commands are written");
}

fn usage() -> ! {
    eprintln!("usage: generate unarmor|decode|read cases|short, or generate unarmor|decode|read random SEED COUNT");
    std::process::exit(2)
}

/// The published lines, where the file is at hand.
fn published() -> Vec<Vec<u8>> {
    let text = std::env::var_os("SAMPLE").and_then(|path| std::fs::read(path).ok()).unwrap_or_default();
    text.split(|&byte| byte == b'\n').filter(|line| line.starts_with(b"!")).map(<[u8]>::to_vec).collect()
}
