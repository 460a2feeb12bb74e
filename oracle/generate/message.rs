//! Messages by their fields: the tables of the five types, each field with the values at which something changes.

use crate::random::Random;

/// A field's width and its values of note; negative ones are two's complement.
#[derive(Clone)]
pub struct Field(pub usize, pub &'static [i64]);

const REPEAT: Field = Field(2, &[0, 1, 2, 3]);
const MMSI: Field = Field(30, &[0, 1, 371_798_000, 999_999_999, (1 << 30) - 1]);
const SPARE: Field = Field(2, &[0, 3]);
/// Six-bit text: `@`, `A`, the last of the first half, space, `1`, `?`.
const LETTER: Field = Field(6, &[0, 1, 31, 32, 49, 63]);

/// About the absent value, the degree, the ends, and where a single-precision number begins to round.
const LONGITUDES: &[i64] = &[
    0, 1, -1, 599_999, 600_000, -600_000, 16_777_215, 16_777_216, 16_777_217, 16_777_219, -16_777_217, 33_554_434, 33_554_438, 67_108_868,
    108_000_000, 108_599_999, 108_600_000, 108_600_001, -108_600_000, -108_599_999, -108_600_001, 134_217_727, -134_217_728,
];
const LATITUDES: &[i64] = &[
    0, 1, -1, 600_000, -600_000, 16_777_217, 16_777_219, -16_777_219, 33_554_434, 33_554_438, 54_000_000, 54_599_999, 54_600_000, 54_600_001,
    -54_600_000, -54_599_999, -54_600_001, 67_108_863, -67_108_864,
];

fn head(kind: &'static [i64]) -> Vec<Field> {
    vec![Field(6, kind), REPEAT, MMSI]
}

/// Types 1 to 3. The radio's 19 bits are cut as types 1 and 2 have them, and give type 3 values enough.
pub fn position() -> Vec<Field> {
    let mut fields = head(&[1, 2, 3]);
    fields.extend([
        Field(4, &[0, 1, 7, 8, 13, 14, 15]),
        Field(8, &[-128, -127, -126, -2, -1, 0, 1, 2, 126, 127]),
        Field(10, &[0, 1, 9, 10, 511, 1021, 1022, 1023]),
        Field(1, &[0, 1]),
        Field(28, LONGITUDES),
        Field(27, LATITUDES),
        Field(12, &[0, 1, 3598, 3599, 3600, 3601, 4094, 4095]),
        Field(9, &[0, 1, 359, 360, 510, 511]),
        Field(6, &[0, 59, 60, 61, 62, 63]),
        Field(2, &[0, 1, 2, 3]),
        Field(3, &[0, 7]),
        Field(1, &[0, 1]),
        Field(2, &[0, 1, 2, 3]),
        Field(3, &[0, 1, 2, 3, 4, 5, 6, 7]),
        Field(14, &[0, 1, 2, 255, 256, 1249, 8191, 8192, 16382, 16383]),
    ]);
    fields
}

/// Type 24, part 0, with the bits that may follow it.
pub fn name() -> Vec<Field> {
    let mut fields = head(&[24]);
    fields.push(Field(2, &[0]));
    fields.extend(vec![LETTER; 20]);
    fields.push(Field(8, &[0, 255]));
    fields
}

/// Type 24, part 1: the model and the serial number are the four letters after the vendor's three.
pub fn craft() -> Vec<Field> {
    let mut fields = head(&[24]);
    fields.extend([Field(2, &[1]), Field(8, &[0, 1, 19, 20, 36, 39, 57, 90, 99, 100, 255])]);
    fields.extend(vec![LETTER; 3 + 4 + 7]);
    fields.extend([Field(9, &[0, 511]), Field(9, &[0, 511]), Field(6, &[0, 63]), Field(6, &[0, 63]), Field(6, &[0, 63])]);
    fields
}

/// Type 24, parts 2 and 3.
pub fn unknown_part() -> Vec<Field> {
    let mut fields = head(&[24]);
    fields.extend([Field(2, &[2, 3]), Field(20, &[0, (1 << 20) - 1])]);
    fields
}

/// Type 15 with two stations of two messages, as the crate reads them.
pub fn interrogation() -> Vec<Field> {
    let message = [Field(6, &[0, 3, 5, 63]), Field(12, &[0, 1, 4095])];
    let mut fields = head(&[15]);
    fields.push(SPARE);
    for _ in 0..2 {
        fields.push(MMSI);
        fields.extend(message.clone());
        fields.push(SPARE);
        fields.extend(message.clone());
    }
    fields.push(SPARE);
    fields
}

/// A message of any other type, or of one of the five in a body that is not its own.
pub fn any() -> Vec<Field> {
    let mut fields = vec![Field(6, &[0, 4, 5, 14, 16, 18, 21, 22, 23, 25, 26, 27, 28, 63]), REPEAT, MMSI];
    fields.extend(vec![Field(30, &[0, (1 << 30) - 1]); 5]);
    fields
}

/// A table with the first value of each field, but for those that are set.
pub fn with(fields: &[Field], set: &[(usize, i64)]) -> Bits {
    let mut bits = Bits::default();
    for (index, Field(width, values)) in fields.iter().enumerate() {
        let value = set.iter().find(|(place, _)| *place == index).map_or(values[0], |(_, value)| *value);
        bits.push(value, *width);
    }
    bits
}

/// The tables, those with more to see more often.
const TABLES: [fn() -> Vec<Field>; 10] = [position, position, position, name, craft, craft, unknown_part, interrogation, interrogation, any];

/// A random message of a random table: each field one of its values of note, or any. The type, which comes first, and what
/// has one value only (the part) stay, so that the message is what its table says.
pub fn random(random: &mut Random) -> Bits {
    let table = random.pick(&TABLES);
    let mut bits = Bits::default();
    for (index, Field(width, values)) in table().into_iter().enumerate() {
        let keep = index == 0 || values.len() == 1;
        let value = if keep || random.once_in(2) { random.pick(values) } else { random.bits(width) };
        bits.push(value, width);
    }
    if random.once_in(3) {
        bits.cut(random);
    }
    bits
}

#[derive(Default, Clone)]
pub struct Bits(pub Vec<bool>);

impl Bits {
    pub fn push(&mut self, value: i64, width: usize) {
        self.0.extend((0..width).rev().map(|bit| value >> bit & 1 == 1));
    }

    /// Cuts the end off, or adds to it.
    fn cut(&mut self, random: &mut Random) {
        let len = if random.once_in(4) { self.0.len() + random.below(200) } else { random.below(self.0.len() + 1) };
        self.0.resize_with(len, || random.once_in(2));
    }

    fn packed(&self, width: usize) -> impl Iterator<Item = u8> + '_ {
        self.0.chunks(width).map(move |part| part.iter().fold(0, |value, &bit| value << 1 | u8::from(bit)) << (width - part.len()))
    }

    pub fn bytes(&self) -> Vec<u8> {
        self.packed(8).collect()
    }

    /// The payload and its fill.
    pub fn armour(&self) -> (Vec<u8>, usize) {
        (self.packed(6).map(armour).collect(), (6 - self.0.len() % 6) % 6)
    }
}

/// The character of a six-bit value.
pub fn armour(value: u8) -> u8 {
    if value < 40 {
        value + 48
    } else {
        value + 56
    }
}
