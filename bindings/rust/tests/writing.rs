//! The writer through the wrapper: what is written is read back and unarmored, bit by bit; what is refused says why.

use std::error::Error;
use sumturnip::{unarmor, version, write, Bits, Bytes, Outcome, Reader, Refusal, ReportType, Request, Talker, LINES};

const REQUEST: Request = Request { count: Bits(8), talker: Talker::AI, report_type: ReportType::Vdm, channel: Some(b'A'), message_id: 3 };

/// The lines with their line ends.
fn lines(text: &[u8]) -> impl Iterator<Item = &[u8]> {
    text.split_inclusive(|&byte| byte == b'\n')
}

/// A line with CR LF, with LF and bare.
fn ends(line: &[u8]) -> [Vec<u8>; 3] {
    let bare = line.strip_suffix(b"\r\n").expect("a line ends in CR LF");
    [line.to_vec(), [bare, b"\n"].concat(), bare.to_vec()]
}

#[test]
fn the_round_trip() {
    let bytes: Vec<u8> = (0..288).map(|k| (k * 37 + 11) as u8).collect();
    for count in 1..=2304 {
        let mut out = [0xaa; LINES];
        let request = Request { count: Bits(count), ..REQUEST };
        let text = write(request, &bytes, &mut out).expect("lines").to_vec();
        assert!(out[text.len()..].iter().all(|&byte| byte == 0xaa));
        for end in 0..3 {
            let mut reader = Reader::new();
            let outcomes: Vec<_> = lines(&text).map(|line| reader.read(&ends(line)[end], false)).collect();
            let (last, before) = outcomes.split_last().expect("a line");
            assert_eq!(*last, Outcome::Complete);
            assert!(before.iter().all(|outcome| *outcome == Outcome::Unfinished));
            let told = reader.sentence();
            assert_eq!((told.talker, told.report_type, told.channel, told.sent_bits), (Talker::AI, ReportType::Vdm, Some(b'A'), Bits(count)));
            let mut back = [0; 288];
            let back = unarmor(reader.payload(), told.fill_bit_count, &mut back).expect("bytes");
            let bit = |bytes: &[u8], at: usize| bytes[at / 8] >> (7 - at % 8) & 1;
            assert!((0..count).all(|at| bit(back, at) == bit(&bytes, at)));
            assert!((count..8 * back.len()).all(|at| bit(back, at) == 0));
        }
    }
}

#[test]
fn what_is_read_is_written() {
    let talkers = [Talker::AB, Talker::AD, Talker::AI, Talker::AN, Talker::AR, Talker::AS, Talker::AT, Talker::AX, Talker::BS, Talker::SA];
    for talker in talkers {
        for report_type in [ReportType::Vdm, ReportType::Vdo] {
            for channel in [None, Some(b'A'), Some(b'B')] {
                let mut out = [0; LINES];
                let text = write(Request { talker, report_type, channel, ..REQUEST }, b"w", &mut out).expect("a line");
                let name = format!("!{talker:?}V");
                assert!(text.starts_with(name.as_bytes()));
                let mut reader = Reader::new();
                assert_eq!(reader.read(text, false), Outcome::Complete);
                let told = reader.sentence();
                assert_eq!((told.talker, told.report_type, told.channel), (talker, report_type, channel));
            }
        }
    }
}

#[test]
fn requests_outside_the_limits() {
    let request = |number| Err(Refusal { number, values: [0, 0] });
    let mut out = [0xaa; LINES];
    let outside = [
        Request { count: Bits(0), ..REQUEST },
        Request { count: Bits(9), ..REQUEST },
        Request { count: Bits(2305), ..REQUEST },
        Request { talker: Talker::Unknown, ..REQUEST },
        Request { report_type: ReportType::Unknown, ..REQUEST },
        Request { channel: Some(b'C'), ..REQUEST },
        Request { channel: Some(0), ..REQUEST },
        Request { message_id: 10, ..REQUEST },
    ];
    for asked in outside {
        assert_eq!(write(asked, b"w", &mut out), request(13));
        assert_eq!(write(asked, b"w", &mut []), request(13));
    }
    assert_eq!(write(REQUEST, b"w", &mut out[..22]), request(12));
    assert_eq!(out, [0xaa; LINES]);
    assert_eq!(write(REQUEST, b"w", &mut out[..23]), Ok(&b"!AIVDM,1,1,,A,Mh,4*07\r\n"[..]));
}

#[test]
fn refusals_in_words() {
    let page = include_str!("../../sumturnip.h");
    for number in 1..=13 {
        let refusal = Refusal { number, values: [8, 255] };
        assert!(page.contains(&format!("case {number}: return \"{}\";", refusal.reason())), "{number}");
    }
    let said = |number| Refusal { number, values: [8, 255] }.to_string();
    assert_eq!(said(3), "checksum differs: 08 in the line, FF found");
    assert_eq!(said(8), "byte cannot be unarmored: offset 8");
    assert_eq!(said(10), "message type is not decoded: 8");
    assert_eq!((said(12).as_str(), said(14).as_str()), ("a lent output is too small", "not a refusal"));
    let error: Box<dyn Error> = Box::new(Refusal { number: 2, values: [0, 0] });
    assert_eq!(error.to_string(), "line breaks the line rules");
}

#[test]
fn one_version() {
    let numbers: Vec<u32> = env!("CARGO_PKG_VERSION").split('.').map(|number| number.parse().expect("a number")).collect();
    let due = numbers.iter().fold(0, |sum, number| 100 * sum + number);
    assert_eq!(version(), due);
    assert!(include_str!("../../sumturnip.h").contains(&format!("#define SUMTURNIP_VERSION {due}\n")));
}

#[test]
fn counts_in_words() {
    assert_eq!((Bits(9).in_bytes(), Bits(8).in_bytes()), (Bytes(2), Bytes(1)));
    assert_eq!((Bits(9).to_string(), Bytes(2).to_string()), ("9 bits".to_string(), "2 bytes".to_string()));
}

#[test]
fn readers_are_compared_and_shown() {
    let mut one = Reader::new();
    assert_eq!(one, Reader::default());
    assert_eq!(one.read(b"!AIVDM,2,1,3,A,w,0*61", false), Outcome::Unfinished);
    assert_ne!(one, Reader::new());
    assert_eq!(one, one.clone());
    assert!(format!("{one:?}").contains("payload: \"w\""));
}
