//! Reading and writing AIS lines with the proved library. Its calls take numbers and slices; this crate lends them what they need and gives the answers as types.
//! What is proved ends at the library's calls: this crate is tested, not proved.
//!
//! ```
//! use sumturnip::{unarmor, write, Bits, Message, Outcome, Reader, ReportType, Request, Talker, LINES};
//!
//! let mut reader = Reader::new();
//! let outcome = reader.read(b"!AIVDM,1,1,,A,15RTgt0PAso;90TKcjM8h6g208CQ,0*4A\r\n", true);
//! assert_eq!(outcome, Outcome::Complete);
//! let Message::PositionReport(report) = reader.message() else { panic!("no position report") };
//! assert_eq!((report.mmsi, report.speed_over_ground, report.true_heading), (371798000, Some(12.3), Some(215)));
//!
//! // A line that is refused says why.
//! let Outcome::Refused(refusal) = reader.read(b"!AIVDM,1,1,,A,w,0*50", true) else { panic!("not refused") };
//! assert_eq!(refusal.to_string(), "checksum differs: 50 in the line, 51 found");
//!
//! // Nine bits as a line, and back.
//! let request = Request { count: Bits(9), talker: Talker::AI, report_type: ReportType::Vdm, channel: Some(b'A'), message_id: 0 };
//! let mut out = [0; LINES];
//! let lines = write(request, &[0xff, 0x80], &mut out)?;
//! assert_eq!(lines, b"!AIVDM,1,1,,A,wp,3*22\r\n");
//! assert_eq!(reader.read(lines, false), Outcome::Complete);
//! assert_eq!(unarmor(reader.payload(), reader.sentence().fill_bit_count, &mut [0; 2])?, [0xff, 0x80]);
//! # Ok::<(), sumturnip::Refusal>(())
//! ```

mod counts;
mod message;
mod raw;
mod reader;
mod refusal;
mod sentence;
mod text;
mod writer;

pub use counts::{Bits, Bytes};
pub use message::{Asked, Interrogation, Message, Part, PartB, PositionReport, Radio, StaticDataReport, Station, Sub, Turning};
pub use reader::{unarmor, Outcome, Reader, RECORD};
pub use refusal::Refusal;
pub use sentence::{ReportType, Sentence, Talker};
pub use text::Text;
pub use writer::{write, Request, LINES};

/// The library's version: two decimal places for each of its three numbers, 200 for 0.2.0.
pub fn version() -> u32 {
    raw::version()
}
