//! Reads AIS lines from standard input and prints each position on a line; on standard error, why a line is refused.
//! Run, with the library in target/staticlib, where bindings/test puts it: `cargo run --example positions < ../example.nmea`

use std::io::{self, BufRead};
use sumturnip::{Message, Outcome, PositionReport, Reader};

/// A reading that may be absent: its number as it was sent, `units` of them to one degree or knot.
fn reading(name: &str, is_there: bool, raw: i32, units: f64, decimals: usize) -> String {
    match is_there {
        true => format!(", {name} {:.decimals$}", f64::from(raw) / units),
        false => format!(", {name} absent"),
    }
}

fn position(report: &PositionReport) -> String {
    let latitude = reading("latitude", report.latitude.is_some(), report.latitude_raw, 600000.0, 6);
    let longitude = reading("longitude", report.longitude.is_some(), report.longitude_raw, 600000.0, 6);
    let speed = reading("knots", report.speed_over_ground.is_some(), report.speed_raw.into(), 10.0, 1);
    let course = reading("course", report.course_over_ground.is_some(), report.course_raw.into(), 10.0, 1);
    format!("{:09}{latitude}{longitude}{speed}{course}", report.mmsi)
}

fn main() -> io::Result<()> {
    let mut reader = Reader::new();
    for (at, line) in io::stdin().lock().split(b'\n').enumerate() {
        match (reader.read(&line?, true), reader.message()) {
            (Outcome::Complete, Message::PositionReport(report)) => println!("{}", position(&report)),
            (Outcome::Refused(refusal), _) => eprintln!("line {}: {}", at + 1, refusal.reason()),
            _ => {}
        }
    }
    Ok(())
}
