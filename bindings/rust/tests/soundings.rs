//! Document 01's soundings on lines and on unarmoring, through the wrapper.

use sumturnip::{unarmor, Asked, Bits, Message, Outcome, Part, Radio, Reader, Refusal, StaticDataReport, Station, Sub};

fn refused(number: u32, a: u64, b: u64) -> Outcome {
    Outcome::Refused(Refusal { number, values: [a, b] })
}

/// A line complete alone, with its right checksum.
fn line(payload: &str, fill: u8) -> Vec<u8> {
    let body = format!("AIVDM,1,1,,A,{payload},{fill}");
    let sum = body.bytes().fold(0, |sum, b| sum ^ b);
    format!("!{body}*{sum:02X}").into_bytes()
}

fn decoded(payload: &str) -> (Outcome, Reader) {
    let mut reader = Reader::new();
    let outcome = reader.read(&line(payload, 0), true);
    (outcome, reader)
}

#[test]
fn one_line() {
    let mut reader = Reader::new();
    assert_eq!(reader.read(b"!AIVDM,1,1,,A,w,0*51", false), Outcome::Complete);
    assert_eq!((reader.sentence().message_type, reader.sentence().true_type), (29, Some(63)));
    assert_eq!(reader.payload(), b"w");
    assert_eq!(reader.read(b"!AIVDM,1,1,,A,w,0*51", true), refused(11, 63, 0));
    assert_eq!(reader.read(b"!AIVDM,1,1,,A,w,0*50", false), refused(3, 0x50, 0x51));
    assert_eq!(reader.payload(), b"");
}

#[test]
fn two_lines() {
    let mut reader = Reader::new();
    assert_eq!(reader.read(b"!AIVDM,2,1,3,A,w,0*61", false), Outcome::Unfinished);
    assert_eq!(reader.read(b"!AIVDM,2,2,3,A,w,5*67", false), Outcome::Complete);
    assert_eq!((reader.payload(), reader.sentence().fill_bit_count, reader.sentence().sent_bits), (&b"ww"[..], Bits(5), Bits(7)));
}

#[test]
fn totals_and_numbers_of_0() {
    let mut reader = Reader::new();
    assert_eq!(reader.read(b"!AIVDM,0,1,,A,w,0*50", false), Outcome::Complete);
    let mut after = *Reader::new().record();
    after[2] = 1;
    assert_eq!(*reader.record(), after);
    assert_eq!(Reader::new().read(b"!AIVDM,1,0,,A,w,0*50", false), refused(5, 0, 0));
}

#[test]
fn a_lent_length_over_384() {
    let mut record = *Reader::new().record();
    record[2] = 1;
    record[8..16].copy_from_slice(&u64::MAX.to_le_bytes());
    let mut reader = Reader::with_record(record);
    assert_eq!(reader.read(b"!AIVDM,0,2,,A,w,0*53", false), refused(6, 0, 0));
    assert_eq!(reader.record(), Reader::new().record());
}

#[test]
fn position_reports() {
    let zeros = |n| "1".to_string() + &"0".repeat(n);
    let (outcome, reader) = decoded(&zeros(27));
    assert_eq!(outcome, Outcome::Complete);
    let Message::PositionReport(report) = reader.message() else { panic!("no report") };
    assert_eq!(report.message_type, 1);
    assert_eq!(report.radio, Radio::Sotdma { sync_state: 0, slot_timeout: 0, sub_message: Sub::SlotOffset(0) });
    let (outcome, reader) = decoded(&zeros(26));
    assert_eq!((outcome, reader.sentence().sent_bits), (Outcome::Complete, Bits(162)));
    assert_eq!(decoded(&zeros(25)).0, refused(9, 0, 0));
}

#[test]
fn interrogations() {
    let (outcome, reader) = decoded(&("?".to_string() + &"0".repeat(12)));
    assert_eq!(outcome, Outcome::Complete);
    let Message::Interrogation(interrogation) = reader.message() else { panic!("no interrogation") };
    let asked = Asked { message_type: 0, slot_offset: None };
    assert_eq!(interrogation.stations, [Station { mmsi: 0, messages: vec![asked] }]);
    assert_eq!(decoded(&("?".to_string() + &"0".repeat(11))).0, refused(9, 0, 0));
}

#[test]
fn static_data() {
    let (outcome, reader) = decoded("H000008");
    assert_eq!(outcome, Outcome::Complete);
    let part = Part::Unknown(2);
    assert_eq!(reader.message(), Message::StaticDataReport(StaticDataReport { message_type: 24, repeat_indicator: 0, mmsi: 0, part }));
}

#[test]
fn a_published_report() {
    let mut reader = Reader::new();
    assert_eq!(reader.read(b"!AIVDM,1,1,,A,15RTgt0PAso;90TKcjM8h6g208CQ,0*4A", true), Outcome::Complete);
    let Message::PositionReport(report) = reader.message() else { panic!("no report") };
    assert_eq!((report.mmsi, report.turn, report.speed_over_ground), (371798000, Some(-127), Some(12.3)));
    assert_eq!((report.longitude_raw, report.latitude_raw), (-74037230, 29028980));
    assert_eq!((report.longitude.map(f32::to_bits), report.latitude.map(f32::to_bits)), (Some(0xc2f6ca70), Some(0x424186cb)));
}

#[test]
fn a_published_name() {
    let mut reader = Reader::new();
    assert_eq!(reader.read(b"!AIVDM,1,1,,A,H42O55i18tMET00000000000000,2*6D", true), Outcome::Complete);
    let Message::StaticDataReport(report) = reader.message() else { panic!("no report") };
    let Part::A { vessel_name } = report.part else { panic!("no name") };
    assert_eq!((report.mmsi, vessel_name.as_str(), vessel_name.as_bytes()), (271041815, "PROGUY", &b"PROGUY"[..]));
    assert_eq!(format!("{vessel_name} {vessel_name:?}"), "PROGUY \"PROGUY\"");
}

#[test]
fn unarmored_bytes_of_a_line() {
    let (outcome, reader) = decoded("H000008");
    assert_eq!((outcome, reader.bits()), (Outcome::Complete, &[0x60, 0, 0, 0, 2, 0][..]));
    assert_eq!(decoded("w").1.bits(), b"");
}

#[test]
fn unarmoring() {
    let mut out = [0xaa; 4];
    let given: [(&[u8], usize, &[u8]); 8] = [
        (b"w", 5, b"\x80"),
        (b"ww", 0, b"\xff\xf0"),
        (b"ww", 5, b"\xfe\x00"),
        (b"www", 5, b"\xff\xf8\x00"),
        (b"wwww", 5, b"\xff\xff\xe0"),
        (b"W", 0, b"\x9c"),
        (b"`", 0, b"\xa0"),
        (b"", 0, b""),
    ];
    for (payload, fill, due) in given {
        assert_eq!(unarmor(payload, Bits(fill), &mut out), Ok(due));
    }
    assert_eq!(out[3], 0xaa);
    let refusal = |number, value| Err(Refusal { number, values: [value, 0] });
    for payload in [b"X", b"_", b"/", b"x"] {
        assert_eq!(unarmor(payload, Bits(0), &mut out), refusal(8, 0));
    }
    assert_eq!(unarmor(b"wwX", Bits(0), &mut out), refusal(8, 2));
    assert_eq!(unarmor(b"", Bits(1), &mut out), refusal(7, 0));
    assert_eq!(unarmor(b"w", Bits(6), &mut out), refusal(7, 0));
    assert_eq!(unarmor(&[b'w'; 385], Bits(0), &mut [0; 289]), refusal(6, 0));
    assert_eq!(unarmor(b"ww", Bits(0), &mut [0]), refusal(12, 0));
}

#[test]
fn a_record_goes_on_in_another_reader() {
    let mut one = Reader::new();
    assert_eq!(one.read(b"!AIVDM,2,1,3,A,w,0*61", false), Outcome::Unfinished);
    let mut other = Reader::with_record(*one.record());
    assert_eq!(other.read(b"!AIVDM,2,2,3,A,w,5*67", false), Outcome::Complete);
    assert_eq!(other.payload(), b"ww");
}
