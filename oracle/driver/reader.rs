//! Reading lines: the crate's parser, kept inside document 01's domain. It gets no line refused with 1, 6 or 12,
//! and a line that is answered 10 it gets with decoding off.

use crate::added;
use crate::message;
use crate::refusal;
use crate::state::State;
use crate::text::{hex, or_absent};
use ais::messages;
use ais::sentence::AisSentence;
use ais::{AisFragments, AisParser};

/// `scout` is a second parser in the same state. It reads each line first, with decoding off: that tells what the line is
/// before `parser`, whose answers are given, gets the line or is spared it.
#[derive(Default)]
pub struct Reader {
    parser: AisParser,
    scout: AisParser,
}

impl Reader {
    pub fn read(&mut self, decode: bool, room: usize, bit_room: usize, line: &[u8]) -> String {
        let before = State::of(&self.parser);
        let (told, state) = match added::read_refusal(room, bit_room, line) {
            Some(number) => (format!("refused {number}"), before),
            None => self.given(decode, line, before),
        };
        format!("{told} ; {} {state}", added::KEPT)
    }

    /// What is told of a line that the crate is given, and the state after it.
    fn given(&mut self, decode: bool, line: &[u8], before: State) -> (String, State) {
        let told = match self.scout.parse(line, false).map(opened) {
            Err(_) => refusal::reading(&self.parser.parse(line, decode).unwrap_err()),
            Ok((_, ahead)) if before.fragment == 255 && ahead.fragment_number == 0 => {
                // The listed difference. The crate took the line, so it starts afresh; `fresh` has to be the next command.
                *self = Self::default();
                return ("refused 5".into(), before);
            }
            Ok((complete, ahead)) if ahead.data.len().max(State::of(&self.scout).data.len()) > added::PAYLOAD => {
                // A line alone leaves the record as it was, any other leaves it fresh.
                if !complete || ahead.num_fragments != 1 {
                    *self = Self::default();
                }
                "refused 6".into()
            }
            Ok((complete, ahead)) => self.taken(decode && complete, line, &ahead),
        };
        let state = State::of(&self.parser);
        assert_eq!(state, State::of(&self.scout), "the two parsers are out of step");
        (told, state)
    }

    /// What is told of a line that the record takes; `ahead` is its sentence.
    fn taken(&mut self, decode: bool, line: &[u8], ahead: &AisSentence) -> String {
        let bits = messages::unarmor(&ahead.data, ahead.fill_bit_count.into());
        let other = bits.as_ref().ok().and_then(|bits| added::other_type(bits)).filter(|_| decode);
        match (self.parser.parse(line, decode && other.is_none()), other, bits) {
            (Ok(_), Some(kind), _) => format!("refused 10 {kind}"),
            (Ok(fragments), None, bits) => sentence(fragments, &bits.unwrap_or_default()),
            (Err(error), _, Err(_)) => refusal::unarmoring(&error, &ahead.data),
            (Err(error), _, Ok(_)) => refusal::decoding(&error),
        }
    }
}

fn opened(fragments: AisFragments) -> (bool, AisSentence) {
    match fragments {
        AisFragments::Complete(sentence) => (true, sentence),
        AisFragments::Incomplete(sentence) => (false, sentence),
    }
}

/// A sentence as the protocol has it; `bits` is what its payload unarmors to, handed out where it was decoded.
fn sentence(fragments: AisFragments, bits: &[u8]) -> String {
    let (complete, sentence) = opened(fragments);
    let (bits, message) = match &sentence.message {
        Some(message) => (hex(bits), message::text(message, bits)),
        None => (hex(&[]), "none".into()),
    };
    format!(
        "{} {:?} {:?} {} {} {} {} {} {} {} {} {} {bits} {message}",
        if complete { "complete" } else { "unfinished" },
        sentence.talker_id,
        sentence.report_type,
        sentence.num_fragments,
        sentence.fragment_number,
        or_absent(sentence.message_id),
        or_absent(sentence.channel.map(u32::from)),
        sentence.fill_bit_count,
        sentence.message_type,
        or_absent(added::true_type(&sentence.data)),
        added::sent(&sentence.data, sentence.fill_bit_count),
        hex(&sentence.data),
    )
}
