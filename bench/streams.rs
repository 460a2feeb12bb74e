//! The streams of lines, which follow from a fixed seed and from the file of published lines.

/// A line, and whether a complete message is decoded. Types that only one side decodes are read with decoding off.
pub struct Line {
    pub text: Vec<u8>,
    pub decode: bool,
}

pub struct Stream {
    pub name: String,
    pub lines: Vec<Line>,
}

/// Numbers of a simple generator (xorshift).
struct Random(u64);

impl Random {
    fn next(&mut self) -> u64 {
        self.0 ^= self.0 << 13;
        self.0 ^= self.0 >> 7;
        self.0 ^= self.0 << 17;
        self.0
    }

    fn below(&mut self, n: usize) -> usize {
        (self.next() % n as u64) as usize
    }
}

/// The character of six bits.
fn letter(v: u8) -> u8 {
    if v < 40 { v + 48 } else { v + 56 }
}

/// A payload of a type, and random bits after it.
fn payload(random: &mut Random, kind: u8, length: usize) -> Vec<u8> {
    let mut text = vec![letter(kind)];
    text.extend((1..length).map(|_| letter(random.below(64) as u8)));
    text
}

/// A line with its right checksum.
fn line(total: usize, number: usize, id: &str, payload: &[u8]) -> Vec<u8> {
    let mut text = format!("!AIVDM,{total},{number},{id},A,").into_bytes();
    text.extend(payload);
    text.extend(b",0");
    let sum = text[1..].iter().fold(0, |sum, b| sum ^ b);
    text.extend(format!("*{sum:02X}").bytes());
    text
}

fn single(random: &mut Random, kind: u8, length: usize) -> Line {
    Line { text: line(1, 1, "", &payload(random, kind, length)), decode: true }
}

/// The lines of a message of several, of 60 characters each; type 5 is one that ours does not decode.
fn several(random: &mut Random, total: usize) -> Vec<Line> {
    let id = random.below(10).to_string();
    let whole = payload(random, 5, 60 * total);
    whole.chunks(60).enumerate().map(|(k, part)| Line { text: line(total, k + 1, &id, part), decode: false }).collect()
}

fn positions(random: &mut Random) -> Vec<Line> {
    (0..1000).map(|k| single(random, 1 + (k % 3) as u8, 28)).collect()
}

/// The published lines, decoded where they are complete alone and of a type that both sides decode.
fn published(sample: &str) -> Vec<Line> {
    let file = std::fs::read(sample).expect("the file of published lines");
    let lines = file.split(|b| *b == b'\n').filter(|text| text.starts_with(b"!"));
    lines
        .map(|text| {
            let fields: Vec<_> = text.split(|b| *b == b',').collect();
            let decode = fields.len() > 5 && fields[1] == b"1" && matches!(fields[5].first(), Some(b'1' | b'2' | b'3' | b'?' | b'H'));
            Line { text: text.to_vec(), decode }
        })
        .collect()
}

/// Position reports, each with one byte changed, dropped or the rest cut off.
fn damaged(random: &mut Random) -> Vec<Line> {
    let mut lines = positions(random);
    for line in &mut lines {
        let at = random.below(line.text.len());
        match random.below(3) {
            0 => line.text[at] ^= 1 << random.below(7),
            1 => drop(line.text.remove(at)),
            _ => line.text.truncate(at),
        }
    }
    lines
}

fn repeated(count: usize, mut one: impl FnMut() -> Vec<Line>) -> Vec<Line> {
    (0..count).flat_map(|_| one()).collect()
}

/// The four streams, and then those that show how the time grows.
pub fn all(sample: &str) -> Vec<Stream> {
    let mut random = Random(2024);
    let random = &mut random;
    let stream = |name: &str, lines| Stream { name: name.to_string(), lines };
    let mut streams = vec![
        stream("single-line position reports", positions(random)),
        stream("the mixed published lines", published(sample)),
        stream("messages of 2 to 4 lines, not decoded", repeated(300, || { let total = 2 + random.below(3); several(random, total) })),
        stream("damaged position reports", damaged(random)),
    ];
    for length in [1, 28, 56, 112, 224, 384] {
        let lines = (0..500).map(|_| Line { decode: false, ..single(random, 1, length) }).collect();
        streams.push(stream(&format!("payload of {length}, not decoded"), lines));
    }
    for length in [28, 56, 112, 224, 384] {
        streams.push(stream(&format!("position report in a payload of {length}"), (0..500).map(|_| single(random, 1, length)).collect()));
    }
    for total in 2..=6 {
        streams.push(stream(&format!("messages of {total} lines, not decoded"), repeated(200, || several(random, total))));
    }
    streams
}
