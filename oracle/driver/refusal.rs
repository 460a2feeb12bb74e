//! Document 01's refusals, told from the crate's own errors: `Checksum` is 3, the crate's own texts are 4, 5, 8 and 11,
//! and nom's errors are 2 while the line is read and 9 while a message is decoded.

use ais::errors::Error;

/// A refusal of the line itself or of the record: 2, 3, 4 or 5.
pub fn reading(error: &Error) -> String {
    match error {
        Error::Checksum { expected, found } => format!("refused 3 {expected} {found}"),
        Error::Nmea { msg } if msg == "Message ID out of sequence" => "refused 4".into(),
        Error::Nmea { msg } if msg == "Fragment numbers out of sequence" => "refused 5".into(),
        Error::Nmea { msg } if of_nom(msg) => "refused 2".into(),
        _ => unknown(error),
    }
}

/// Refusal 8. The crate names the byte and goes through the data in order, so the lowest offset is that of the first such byte.
pub fn unarmoring(error: &Error, data: &[u8]) -> String {
    let byte = number_after("Value out of range: ", error).unwrap_or_else(|| unknown(error));
    match data.iter().position(|&each| each == byte) {
        Some(offset) => format!("refused 8 {offset}"),
        None => unknown(error),
    }
}

/// A refusal of the message: 9 or 11.
pub fn decoding(error: &Error) -> String {
    match (number_after("Unimplemented type: ", error), error) {
        (Some(kind), _) => format!("refused 11 {kind}"),
        (None, Error::Nmea { msg }) if of_nom(msg) => "refused 9".into(),
        _ => unknown(error),
    }
}

fn number_after(words: &str, error: &Error) -> Option<u8> {
    match error {
        Error::Nmea { msg } => msg.strip_prefix(words)?.parse().ok(),
        _ => None,
    }
}

/// The crate passes nom's errors on by their Debug text.
fn of_nom(text: &str) -> bool {
    text.starts_with("Error(Error {") || text.starts_with("Failure(Error {")
}

/// An error that stands nowhere in the crate's source ends the run: no answer is guessed.
fn unknown<T>(error: &Error) -> T {
    panic!("not an error that the driver knows: {error:?}")
}
