//! "The uplink packet".

use crate::number;
use crate::{hand_over, not_written, Written};

/// "Mark `SBR`, version 00 01 (high byte first)".
const MARK: [u8; 3] = *b"SBR";
const VERSION_1: [u8; 2] = [0x00, 0x01];
const VERSION_2: [u8; 2] = [0x00, 0x02];
/// The lead, before the piece: mark, version, port and count.
const LEAD_BYTES: usize = 7;

pub struct Packet {
    pub port: u8,
    pub count: u8,
    pub used: usize,
}

/// "Tests: fewer than 7 bytes 13; mark 10; version 11; port or count 12; bytes missing 13.
/// What follows belongs to the next packet."
pub fn read(bytes: &[u8]) -> Result<Packet, u8> {
    if bytes.len() < LEAD_BYTES {
        return Err(number::BYTES_MISSING);
    }
    if bytes[..3] != MARK {
        return Err(number::WRONG_MARK);
    }
    let version = [bytes[3], bytes[4]];
    if !is_a_version(version) {
        return Err(number::WRONG_VERSION);
    }
    let (port, count) = (bytes[5], bytes[6]);
    if !is_a_port(port) || version != version_of(port) || !is_a_count(usize::from(count)) {
        return Err(number::WRONG_PORT_OR_COUNT);
    }
    // "bytes used (7 plus count)".
    let used = LEAD_BYTES + usize::from(count);
    if bytes.len() < used {
        return Err(number::BYTES_MISSING);
    }
    Ok(Packet { port, count, used })
}

/// Another is 11, whatever the port: "12 for a known version with the wrong port".
fn is_a_version(version: [u8; 2]) -> bool {
    version == VERSION_1 || version == VERSION_2
}

/// Document 02, Req 04: "Packets for port 4, and only those, are written and read with version 00
/// 02".
fn version_of(port: u8) -> [u8; 2] {
    match port {
        4 => VERSION_2,
        _ => VERSION_1,
    }
}

/// "port 1 to 3", and the fourth of Req 04.
fn is_a_port(port: u8) -> bool {
    (1..=4).contains(&port)
}

/// "count 1 to 240".
fn is_a_count(count: usize) -> bool {
    (1..=240).contains(&count)
}

/// "the packet writer 12, then 9".
pub fn write(port: u8, piece: &[u8], lent: &mut [u8]) -> Written {
    if !is_a_port(port) || !is_a_count(piece.len()) {
        return not_written(number::WRONG_PORT_OR_COUNT);
    }
    hand_over(&packet(port, piece), lent)
}

pub fn packet(port: u8, piece: &[u8]) -> Vec<u8> {
    let mut packet = MARK.to_vec();
    packet.extend(version_of(port));
    packet.extend([port, piece.len() as u8]);
    packet.extend(piece);
    packet
}
