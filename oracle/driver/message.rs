//! A decoded message as the protocol writes it. The raw numbers are read by `added.rs`, and `mismatch` stands where the crate
//! reads another value from that number than it gave: it is no answer of the protocol, so it shows as a difference.

use crate::added::{field, signed};
use crate::text::{float, hex, or_absent};
use ais::messages::interrogation::Interrogation;
use ais::messages::navigation::*;
use ais::messages::position_report::{NavigationStatus, PositionReport};
use ais::messages::radio_status::{RadioStatus, SubMessage, SyncState};
use ais::messages::static_data_report::{MessagePart, StaticDataReport};
use ais::messages::types::ShipType;
use ais::messages::AisMessage;
use std::fmt::Display;

pub fn text(message: &AisMessage, bytes: &[u8]) -> String {
    match message {
        AisMessage::PositionReport(report) => position(report, bytes),
        AisMessage::StaticDataReport(report) => static_data(report, bytes),
        AisMessage::Interrogation(report) => interrogation(report),
        _ => panic!("not a type that is decoded here: {message:?}"),
    }
}

/// A raw number, if what the crate reads from it (`read`) is what the crate gave.
fn raw<T: Display, V: PartialEq>(number: T, read: V, given: V) -> String {
    if read == given {
        number.to_string()
    } else {
        "mismatch".into()
    }
}

/// The number that the crate's `parse` takes to this value: of some values the crate keeps no number, of a turn a private one.
fn number_of<V: PartialEq>(value: V, parse: fn(u8) -> V) -> u8 {
    (0..=255).find(|&number| parse(number) == value).expect("a value that `parse` gave")
}

fn position(report: &PositionReport, bytes: &[u8]) -> String {
    let speed = field(bytes, 50, 10) as u16;
    let longitude = signed(bytes, 61, 28);
    let latitude = signed(bytes, 89, 27);
    let course = field(bytes, 116, 12) as u16;
    format!(
        "position {} {} {} {} {} {} {} {} {} {} {} {} {} {} {} {} {} {} {} {} {}",
        report.message_type,
        report.repeat_indicator,
        report.mmsi,
        or_absent(report.navigation_status.map(|status| number_of(Some(status), NavigationStatus::parse))),
        or_absent(report.rate_of_turn.map(|turn| number_of(Some(turn), RateOfTurn::parse) as i8)),
        float(report.rate_of_turn.and_then(RateOfTurn::rate)),
        or_absent(report.rate_of_turn.and_then(RateOfTurn::direction).map(direction)),
        raw(speed, parse_speed_over_ground(speed), report.speed_over_ground),
        float(report.speed_over_ground),
        match report.position_accuracy {
            Accuracy::Unaugmented => 0,
            Accuracy::Dgps => 1,
        },
        raw(longitude, parse_longitude(longitude), report.longitude),
        float(report.longitude),
        raw(latitude, parse_latitude(latitude), report.latitude),
        float(report.latitude),
        raw(course, parse_cog(course), report.course_over_ground),
        float(report.course_over_ground),
        or_absent(report.true_heading),
        report.timestamp,
        or_absent(report.maneuver_indicator.map(|maneuver| number_of(Some(maneuver), ManeuverIndicator::parse))),
        u8::from(report.raim),
        radio(&report.radio_status),
    )
}

fn direction(direction: Direction) -> &'static str {
    match direction {
        Direction::Port => "port",
        Direction::Starboard => "starboard",
    }
}

fn radio(status: &RadioStatus) -> String {
    match status {
        RadioStatus::Sotdma(sotdma) => {
            let sub = match sotdma.sub_message {
                SubMessage::SlotOffset(offset) => format!("offset {offset}"),
                SubMessage::UtcHourAndMinute(hour, minute) => format!("utc {hour} {minute}"),
                SubMessage::SlotNumber(slot) => format!("slot {slot}"),
                SubMessage::ReceivedStations(count) => format!("stations {count}"),
            };
            format!("sotdma {} {} {sub}", number_of(sotdma.sync_state, SyncState::parse), sotdma.slot_timeout)
        }
        RadioStatus::Itdma(itdma) => {
            format!("itdma {} {} {} {}", number_of(itdma.sync_state, SyncState::parse), itdma.slot_increment, itdma.num_slots, u8::from(itdma.keep))
        }
    }
}

fn static_data(report: &StaticDataReport, bytes: &[u8]) -> String {
    let from = format!("{} {}", report.repeat_indicator, report.mmsi);
    match &report.message_part {
        MessagePart::PartA { vessel_name } => format!("name {from} {}", hex(vessel_name.as_bytes())),
        MessagePart::PartB {
            ship_type,
            vendor_id,
            model_serial,
            unit_model_code,
            serial_number,
            callsign,
            dimension_to_bow,
            dimension_to_stern,
            dimension_to_port,
            dimension_to_starboard,
        } => {
            let kind = field(bytes, 40, 8) as u8;
            format!(
                "craft {from} {} {} {} {unit_model_code} {serial_number} {} {dimension_to_bow} {dimension_to_stern} {dimension_to_port} {dimension_to_starboard}",
                raw(kind, ShipType::parse(kind), *ship_type),
                hex(vendor_id.as_bytes()),
                hex(model_serial.as_bytes()),
                hex(callsign.as_bytes()),
            )
        }
        MessagePart::Unknown(part) => format!("part {from} {part}"),
    }
}

fn interrogation(report: &Interrogation) -> String {
    let mut text = format!("interrogation {} {} {}", report.repeat_indicator, report.mmsi, report.stations.len());
    for station in &report.stations {
        text += &format!(" {} {}", station.mmsi, station.messages.len());
        for message in &station.messages {
            text += &format!(" {} {}", message.message_type, or_absent(message.slot_offset));
        }
    }
    text
}
