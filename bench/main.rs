//! Our reader beside crate ais, on the same lines in one process: a round reads a whole stream with one and then with the other.
//! Ours lends its record, its buffers and its answer once and uses them again for every line, never cleared; the crate keeps its parser
//! and allocates what it hands out, and that is dropped within its time. Time is the thread's own, so that other programs do not count.

mod streams;

use std::hint::black_box;
use std::io::Write;
use std::process::Command;
use streams::{Line, Stream};

#[repr(C)]
struct Timespec {
    seconds: i64,
    nanoseconds: i64,
}

extern "C" {
    fn clock_gettime(clock: i32, time: *mut Timespec) -> i32;
}

/// The processor time of this thread, in nanoseconds.
fn now() -> f64 {
    const THREAD_CPUTIME: i32 = 3;
    let mut time = Timespec { seconds: 0, nanoseconds: 0 };
    // SAFETY: the call writes one timespec, which is lent to it.
    unsafe { clock_gettime(THREAD_CPUTIME, &mut time) };
    time.seconds as f64 * 1e9 + time.nanoseconds as f64
}

/// Reads the lines `times` over with our reader.
fn ours(lines: &[Line], times: usize) {
    let mut reader = sumturnip::Reader::new();
    for _ in 0..times {
        for line in lines {
            black_box(reader.read(&line.text, line.decode));
            black_box(&mut reader);
        }
    }
}

/// The same, with each complete message as the wrapper's type.
fn typed(lines: &[Line], times: usize) {
    let mut reader = sumturnip::Reader::new();
    for _ in 0..times {
        for line in lines {
            black_box(reader.read(&line.text, line.decode));
            black_box((reader.sentence(), reader.message()));
        }
    }
}

/// Reads the lines `times` over with the crate.
fn theirs(lines: &[Line], times: usize) {
    let mut parser = ais::AisParser::new();
    for _ in 0..times {
        for line in lines {
            black_box(parser.parse(&line.text, line.decode)).ok();
        }
    }
}

/// Nanoseconds for a line.
fn timed(read: fn(&[Line], usize), lines: &[Line], times: usize) -> f64 {
    let start = now();
    read(lines, times);
    (now() - start) / (lines.len() * times) as f64
}

fn median(mut values: Vec<f64>) -> f64 {
    values.sort_by(f64::total_cmp);
    values[values.len() / 2]
}

/// Prints a stream's row: nanoseconds for a line, the middle of the rounds, and the middle, least and largest ratio of a round.
fn measure(stream: &Stream, rounds: usize) {
    let lines = &stream.lines;
    let times = 20_000 / lines.len() + 1;
    for read in [ours, typed, theirs] {
        timed(read, lines, times);
    }
    let mut rows = [Vec::new(), Vec::new(), Vec::new(), Vec::new()];
    for _ in 0..rounds {
        let (a, b, c) = (timed(ours, lines, times), timed(theirs, lines, times), timed(typed, lines, times));
        for (row, value) in rows.iter_mut().zip([a, b, c, a / b]) {
            row.push(value);
        }
    }
    let least = rows[3].iter().copied().fold(f64::INFINITY, f64::min);
    let most = rows[3].iter().copied().fold(0.0, f64::max);
    let [a, b, c, ratio] = rows.map(median);
    println!("{:<44} {a:>8.0} {b:>8.0} {ratio:>7.2} {least:>6.2}..{most:<6.2} {c:>8.0}", stream.name);
}

/// What a side is called on the command line, and how it reads.
const SIDES: [(&str, fn(&[Line], usize)); 2] = [("ours", ours), ("crate", theirs)];

/// The instructions that a run of this program takes which reads a stream so many times with one side, by callgrind.
fn instructions(sample: &str, side: &str, stream: usize, times: usize) -> f64 {
    let this = std::env::current_exe().expect("this program's path");
    let words = ["--tool=callgrind", "--callgrind-out-file=/dev/null"];
    let run = Command::new("valgrind").args(words).arg(this).args([sample, "read", side, &stream.to_string(), &times.to_string()]).output();
    let said = String::from_utf8(run.expect("valgrind, a package of Debian's").stderr).expect("what valgrind says");
    let count = said.lines().find_map(|line| line.split_once("Collected : ")).expect("callgrind's count").1;
    count.trim().parse().expect("a number of instructions")
}

/// Prints a stream's row: instructions for a line, from two runs of which one reads the lines twice more.
fn count(sample: &str, at: usize, stream: &Stream) {
    let a_line = |side| (instructions(sample, side, at, 3) - instructions(sample, side, at, 1)) / (2 * stream.lines.len()) as f64;
    let [a, b] = SIDES.map(|(side, _)| a_line(side));
    println!("{:<44} {a:>8.0} {b:>8.0} {:>7.2}", stream.name, a / b);
}

/// Writes so many lines, position reports and the published lines by turns.
fn write_lines(streams: &[Stream], count: usize) {
    let lines = streams[0].lines.iter().chain(&streams[1].lines);
    let mut out = std::io::BufWriter::new(std::io::stdout());
    for line in lines.cycle().take(count) {
        out.write_all(&line.text).and_then(|()| out.write_all(b"\r\n")).expect("room for the lines");
    }
}

/// What is wrong, in one line, and status 2.
fn wrong(what: &str) -> ! {
    eprintln!("bench: {what}");
    std::process::exit(2)
}

fn main() {
    let words: Vec<String> = std::env::args().skip(1).collect();
    let words: Vec<&str> = words.iter().map(String::as_str).collect();
    let number = |word: &str| word.parse::<usize>().unwrap_or_else(|_| wrong(&format!("no number: {word}")));
    let Some(sample) = words.first() else { wrong("the file of published lines is not named") };
    let streams = streams::all(sample);
    let wanted = |word: &str| {
        let some: Vec<_> = streams.iter().enumerate().filter(|(_, stream)| stream.name.contains(word)).collect();
        if some.is_empty() {
            let names: Vec<&str> = streams.iter().map(|stream| stream.name.as_str()).collect();
            wrong(&format!("no stream's name has the words '{word}': {}", names.join("; ")));
        }
        some
    };
    match words[1..] {
        ["streams", some] => wanted(some).into_iter().for_each(|(_, stream)| println!("{}", stream.name)),
        ["time", rounds, some] => {
            println!("nanoseconds for a line; ratio: ours / the crate's; typed: ours, with the wrapper's types");
            println!("{:<44} {:>8} {:>8} {:>7} {:>14} {:>8}", "stream", "ours", "crate", "ratio", "least..most", "typed");
            wanted(some).into_iter().for_each(|(_, stream)| measure(stream, number(rounds)));
        }
        ["count", some] => {
            println!("instructions for a line; ratio: ours / the crate's");
            println!("{:<44} {:>8} {:>8} {:>7}", "stream", "ours", "crate", "ratio");
            wanted(some).into_iter().for_each(|(at, stream)| count(sample, at, stream));
        }
        ["read", side, at, times] => {
            let Some((_, read)) = SIDES.iter().find(|(name, _)| *name == side) else { wrong(&format!("no such side: {side}")) };
            let Some(stream) = streams.get(number(at)) else { wrong(&format!("no such stream: {at}")) };
            read(&stream.lines, number(times));
        }
        ["lines", many] => write_lines(&streams, number(many)),
        _ => wrong("time ROUNDS STREAM, count STREAM, streams STREAM, read SIDE STREAM TIMES, or lines COUNT"),
    }
}
