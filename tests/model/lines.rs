//! The lines of the listing, each with its 0A.

use crate::number;
use crate::{comlynx, drives, eversolar, fronius, hand_over, not_written, Written};

/// What a message's line tells after the port and the answer, field after field, as bytes.
pub struct Fields {
    pub from: Vec<u8>,
    pub to: Vec<u8>,
    pub code: Vec<u8>,
    pub payload: Vec<u8>,
}

/// Source and destination are 16 bits, high byte first as on the wire; the code is the type byte
/// (case L1).
pub fn of_comlynx(message: &comlynx::Message) -> Fields {
    Fields {
        from: message.source.to_be_bytes().to_vec(),
        to: message.destination.to_be_bytes().to_vec(),
        code: vec![message.kind],
        payload: message.payload.clone(),
    }
}

/// "Eversolar's code is control and function".
pub fn of_eversolar(message: &eversolar::Message) -> Fields {
    Fields {
        from: message.source.to_vec(),
        to: message.destination.to_vec(),
        code: vec![message.control, message.function],
        payload: message.payload.clone(),
    }
}

/// "Fronius has `-` for from, and device with number for to."
pub fn of_fronius(message: &fronius::Message) -> Fields {
    Fields {
        from: vec![],
        to: vec![message.device, message.number],
        code: vec![message.command],
        payload: message.payload.clone(),
    }
}

/// Document 02, Req 04: "the opening byte under `from`, the station's characters under `to`, the
/// letter's code under `code`, all in hex", and so are the codes of the payload's characters.
pub fn of_drives(message: &drives::Message) -> Fields {
    Fields {
        from: vec![message.opening],
        to: message.station.to_vec(),
        code: vec![message.letter],
        payload: message.payload.clone(),
    }
}

/// The payload's column is called `data`.
pub const HEADER: &str = "port answer from to code data\n";

pub fn message(port: u8, fields: &Fields) -> String {
    let (from, to) = (field(&fields.from), field(&fields.to));
    let (code, payload) = (field(&fields.code), field(&fields.payload));
    format!("{port} 1 {from} {to} {code} {payload}\n")
}

/// "Hex is upper case; no data prints `-`."
fn field(bytes: &[u8]) -> String {
    if bytes.is_empty() {
        return "-".to_string();
    }
    bytes.iter().map(|byte| format!("{byte:02X}")).collect()
}

/// "A damage line is port and number", and document 02, Req 09: "the listing prints it as a third
/// field on damage lines", the bytes lost.
pub fn damage(port: u8, number: u8, lost: u16) -> String {
    format!("{port} {number} {lost}\n")
}

/// "prints `stop` and its number".
pub fn stop(number: u8) -> String {
    format!("stop {number}\n")
}

/// "an end line with both counts in decimal".
pub fn end(messages: u64, damages: u64) -> String {
    format!("end {messages} {damages}\n")
}

/// No message has more bytes of payload.
const LONGEST_PAYLOAD: usize = 255;

/// "Writers test 8, then 9".
pub fn write_message(port: u8, fields: &Fields, lent: &mut [u8]) -> Written {
    if fields.payload.len() > LONGEST_PAYLOAD {
        return not_written(number::TOO_LONG);
    }
    hand_over(message(port, fields).as_bytes(), lent)
}
