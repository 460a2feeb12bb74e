//! Numbers and bytes as the protocol writes them.

use std::fmt::Display;

/// A decimal number.
pub fn number(word: &str) -> Option<usize> {
    if word.bytes().all(|byte| byte.is_ascii_digit()) {
        word.parse().ok()
    } else {
        None
    }
}

/// Pairs of lower-case hex digits, or `-` for no bytes.
pub fn unhex(word: &str) -> Option<Vec<u8>> {
    if word == "-" {
        return Some(Vec::new());
    }
    if word.is_empty() || word.len() % 2 != 0 {
        return None;
    }
    word.as_bytes().chunks(2).map(|pair| Some(digit(pair[0])? << 4 | digit(pair[1])?)).collect()
}

fn digit(byte: u8) -> Option<u8> {
    match byte {
        b'0'..=b'9' => Some(byte - b'0'),
        b'a'..=b'f' => Some(byte - b'a' + 10),
        _ => None,
    }
}

pub fn hex(bytes: &[u8]) -> String {
    if bytes.is_empty() {
        return "-".into();
    }
    bytes.iter().map(|byte| format!("{byte:02x}")).collect()
}

/// What is there, or `-`.
pub fn or_absent<T: Display>(value: Option<T>) -> String {
    value.map_or("-".into(), |value| value.to_string())
}

/// A float's bit pattern, or `-`.
pub fn float(value: Option<f32>) -> String {
    or_absent(value.map(|value| format!("{:08x}", value.to_bits())))
}
