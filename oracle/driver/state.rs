//! The state of the crate's parser, whose fields are private, from its Debug text.

use crate::text::{hex, or_absent};
use ais::AisParser;
use std::fmt::{self, Display, Formatter};

#[derive(Debug, PartialEq)]
pub struct State {
    pub number: Option<u8>,
    pub fragment: u8,
    pub data: Vec<u8>,
}

impl State {
    /// The Debug text has one form; any other ends the run.
    pub fn of(parser: &AisParser) -> Self {
        let text = format!("{parser:?}");
        Self::from_text(&text).unwrap_or_else(|| panic!("not a parser's Debug text: {text}"))
    }

    fn from_text(text: &str) -> Option<Self> {
        let text = text.strip_prefix("AisParser { message_id: ")?.strip_suffix("] }")?;
        let (number, text) = text.split_once(", fragment_number: ")?;
        let (fragment, data) = text.split_once(", data: [")?;
        let number = match number {
            "None" => None,
            _ => Some(number.strip_prefix("Some(")?.strip_suffix(')')?.parse().ok()?),
        };
        let data = if data.is_empty() { Vec::new() } else { data.split(", ").map(|byte| byte.parse().ok()).collect::<Option<_>>()? };
        Some(Self { number, fragment: fragment.parse().ok()?, data })
    }
}

/// `ID FRAGMENT LENGTH BYTES`; a record's bytes are shown with the zeros at their end left off, whether they were sent or never filled.
impl Display for State {
    fn fmt(&self, f: &mut Formatter) -> fmt::Result {
        let shown = self.data.iter().rposition(|&byte| byte != 0).map_or(0, |last| last + 1);
        write!(f, "{} {} {} {}", or_absent(self.number), self.fragment, self.data.len(), hex(&self.data[..shown]))
    }
}
