//! A message, from the numbers at places 16 to 49 of an answer and its texts.

use crate::sentence::optional;
use crate::text::Text;

/// A decoded message, or none.
#[derive(Clone, Debug, PartialEq)]
pub enum Message {
    Nothing,
    PositionReport(PositionReport),
    StaticDataReport(StaticDataReport),
    Interrogation(Interrogation),
}

/// Which way a ship turns.
#[derive(Clone, Copy, Debug, PartialEq, Eq)]
pub enum Turning {
    Port,
    Starboard,
}

/// Types 1 to 3. A raw number stands beside each speed, course and position.
#[derive(Clone, Copy, Debug, PartialEq)]
pub struct PositionReport {
    pub message_type: u8,
    pub repeat_indicator: u8,
    pub mmsi: u32,
    /// 15 is absent.
    pub navigation_status: u8,
    /// As it was sent.
    pub turn: Option<i8>,
    /// Degrees a minute, never negative; a turn of -127 or 127 has none.
    pub rate_of_turn: Option<f32>,
    pub direction: Option<Turning>,
    /// Knots.
    pub speed_over_ground: Option<f32>,
    /// Tenths of a knot.
    pub speed_raw: u16,
    pub dgps: bool,
    /// Degrees, east positive.
    pub longitude: Option<f32>,
    /// 1/600000 of a degree.
    pub longitude_raw: i32,
    /// Degrees, north positive.
    pub latitude: Option<f32>,
    /// 1/600000 of a degree.
    pub latitude_raw: i32,
    /// Degrees from true north.
    pub course_over_ground: Option<f32>,
    /// Tenths of a degree.
    pub course_raw: u16,
    /// Degrees from true north.
    pub true_heading: Option<u16>,
    /// The second of the minute; 60 to 63 stand for none.
    pub timestamp: u8,
    /// 0 is absent.
    pub maneuver_indicator: u8,
    pub raim: bool,
    pub radio: Radio,
}

/// The radio status.
#[derive(Clone, Copy, Debug, PartialEq, Eq)]
pub enum Radio {
    Sotdma { sync_state: u8, slot_timeout: u8, sub_message: Sub },
    Itdma { sync_state: u8, slot_increment: u16, num_slots: u8, keep: bool },
}

/// What the 14 bits of SOTDMA tell.
#[derive(Clone, Copy, Debug, PartialEq, Eq)]
pub enum Sub {
    SlotOffset(u16),
    UtcHourAndMinute(u8, u8),
    SlotNumber(u16),
    ReceivedStations(u16),
}

/// Type 24.
#[derive(Clone, Copy, Debug, PartialEq, Eq)]
pub struct StaticDataReport {
    pub message_type: u8,
    pub repeat_indicator: u8,
    pub mmsi: u32,
    pub part: Part,
}

/// A part of a static data report: A has the name, B the rest; 2 and 3 are unknown.
#[derive(Clone, Copy, Debug, PartialEq, Eq)]
pub enum Part {
    A { vessel_name: Text },
    B(PartB),
    Unknown(u8),
}

/// Distances are metres from the antenna.
#[derive(Clone, Copy, Debug, PartialEq, Eq)]
pub struct PartB {
    pub ship_type: u8,
    pub vendor_id: Text,
    pub unit_model_code: u8,
    pub serial_number: u32,
    /// The bits of model and serial number as text.
    pub model_serial: Text,
    pub callsign: Text,
    pub bow: u16,
    pub stern: u16,
    pub port: u16,
    pub starboard: u16,
}

/// Type 15.
#[derive(Clone, Debug, PartialEq, Eq)]
pub struct Interrogation {
    pub message_type: u8,
    pub repeat_indicator: u8,
    pub mmsi: u32,
    pub stations: Vec<Station>,
}

/// A station that is asked, and what for.
#[derive(Clone, Debug, PartialEq, Eq)]
pub struct Station {
    pub mmsi: u32,
    pub messages: Vec<Asked>,
}

/// A message that is asked for.
#[derive(Clone, Copy, Debug, PartialEq, Eq)]
pub struct Asked {
    pub message_type: u8,
    pub slot_offset: Option<u16>,
}

impl Message {
    pub(crate) fn of(n: &[u64], texts: &[u8]) -> Self {
        match n[16] {
            1 => Self::PositionReport(PositionReport::of(n)),
            2 => Self::StaticDataReport(StaticDataReport::of(n, texts)),
            3 => Self::Interrogation(Interrogation::of(n)),
            _ => Self::Nothing,
        }
    }
}

impl PositionReport {
    fn of(n: &[u64]) -> Self {
        let reading = |at| optional(n, at).map(|bits| f32::from_bits(bits as u32));
        Self {
            message_type: n[17] as u8,
            repeat_indicator: n[18] as u8,
            mmsi: n[19] as u32,
            navigation_status: n[20] as u8,
            turn: optional(n, 21).map(|v| v as i8),
            rate_of_turn: reading(23),
            direction: match n[25] {
                1 => Some(Turning::Port),
                2 => Some(Turning::Starboard),
                _ => None,
            },
            speed_over_ground: reading(26),
            speed_raw: n[28] as u16,
            dgps: n[29] != 0,
            longitude: reading(30),
            longitude_raw: n[32] as i32,
            latitude: reading(33),
            latitude_raw: n[35] as i32,
            course_over_ground: reading(36),
            course_raw: n[38] as u16,
            true_heading: optional(n, 39).map(|v| v as u16),
            timestamp: n[41] as u8,
            maneuver_indicator: n[42] as u8,
            raim: n[43] != 0,
            radio: Radio::of(n),
        }
    }
}

impl Radio {
    fn of(n: &[u64]) -> Self {
        let sync_state = n[45] as u8;
        if n[44] == 2 {
            return Self::Itdma { sync_state, slot_increment: n[46] as u16, num_slots: n[47] as u8, keep: n[48] != 0 };
        }
        let sub_message = match n[47] {
            1 => Sub::SlotOffset(n[48] as u16),
            2 => Sub::UtcHourAndMinute(n[48] as u8, n[49] as u8),
            3 => Sub::SlotNumber(n[48] as u16),
            _ => Sub::ReceivedStations(n[48] as u16),
        };
        Self::Sotdma { sync_state, slot_timeout: n[46] as u8, sub_message }
    }
}

impl StaticDataReport {
    fn of(n: &[u64], texts: &[u8]) -> Self {
        let text = |k: usize| Text::of(&texts[20 * k..][..20], n[28 + k]);
        let part = match n[20] {
            0 => Part::A { vessel_name: text(0) },
            1 => Part::B(PartB {
                ship_type: n[21] as u8,
                vendor_id: text(1),
                unit_model_code: n[22] as u8,
                serial_number: n[23] as u32,
                model_serial: text(2),
                callsign: text(3),
                bow: n[24] as u16,
                stern: n[25] as u16,
                port: n[26] as u16,
                starboard: n[27] as u16,
            }),
            other => Part::Unknown(other as u8),
        };
        Self { message_type: n[17] as u8, repeat_indicator: n[18] as u8, mmsi: n[19] as u32, part }
    }
}

impl Interrogation {
    fn of(n: &[u64]) -> Self {
        let asked = |at: usize| Asked { message_type: n[at] as u8, slot_offset: optional(n, at + 1).map(|v| v as u16) };
        let station = |at: usize| Station { mmsi: n[at] as u32, messages: (0..n[at + 1] as usize).map(|k| asked(at + 2 + 3 * k)).collect() };
        let stations = (0..n[20] as usize).map(|k| station(21 + 8 * k)).collect();
        Self { message_type: n[17] as u8, repeat_indicator: n[18] as u8, mmsi: n[19] as u32, stations }
    }
}
