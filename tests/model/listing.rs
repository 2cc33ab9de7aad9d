//! The listing program `sbrlist`: its whole output for a whole input.

use crate::lines::{self, Fields};
use crate::number;
use crate::packet;
use crate::{comlynx, drives, eversolar, fronius, Event, Outcome};

const MOST_PACKETS: usize = 65_536;
const PORTS: usize = 4;

/// The packets taken, and the number of the refusal that stops the listing, if one does.
struct Intake {
    packets: Vec<Taken>,
    streams: [Vec<u8>; PORTS],
    stop: Option<u8>,
}

/// A packet: its port, and how many bytes its port has had once it has been read.
struct Taken {
    port: usize,
    bytes_so_far: usize,
}

/// A line of a port, and how many of the port's bytes it took to settle it.
struct Line {
    end: usize,
    is_message: bool,
    text: String,
}

/// "prints a header, one line for each message or damage, and an end line with both counts in
/// decimal." "A refused packet, or 19, prints `stop` and its number before the end line."
pub fn listing(input: &[u8]) -> Vec<u8> {
    let intake = take_in(input);
    let lines = lines_in_order(&intake);
    let messages = lines.iter().filter(|line| line.is_message).count();
    let damages = lines.len() - messages;
    let mut output = String::from(lines::HEADER);
    for line in &lines {
        output.push_str(&line.text);
    }
    if let Some(refusal) = intake.stop {
        output.push_str(&lines::stop(refusal));
    }
    output.push_str(&lines::end(messages as u64, damages as u64));
    output.into_bytes()
}

/// Packet after packet. "Input that ends where a packet would begin is no refusal".
fn take_in(input: &[u8]) -> Intake {
    let mut intake = Intake { packets: vec![], streams: Default::default(), stop: None };
    let mut rest = input;
    while !rest.is_empty() {
        match next_packet(rest, intake.packets.len()) {
            Err(refusal) => {
                intake.stop = Some(refusal);
                break;
            }
            Ok(packet) => {
                let piece = &rest[packet.used - usize::from(packet.count)..packet.used];
                add_packet(&mut intake, usize::from(packet.port), piece);
                rest = &rest[packet.used..];
            }
        }
    }
    intake
}

/// 19: "`sbrlist` has read 65,536 packets and more input follows".
fn next_packet(rest: &[u8], packets_before: usize) -> Result<packet::Packet, u8> {
    if packets_before == MOST_PACKETS {
        return Err(number::TOO_MANY_PACKETS);
    }
    packet::read(rest)
}

fn add_packet(intake: &mut Intake, port: usize, piece: &[u8]) {
    let stream = &mut intake.streams[port - 1];
    stream.extend(piece);
    intake.packets.push(Taken { port, bytes_so_far: stream.len() });
}

/// A packet's lines come when the packet has been read: those of its port that its bytes settle.
fn lines_in_order(intake: &Intake) -> Vec<Line> {
    let mut of_ports = lines_of_ports(&intake.streams).map(|lines| lines.into_iter().peekable());
    let mut in_order = Vec::new();
    for packet in &intake.packets {
        let lines = &mut of_ports[packet.port - 1];
        while let Some(line) = lines.next_if(|line| line.end <= packet.bytes_so_far) {
            in_order.push(line);
        }
    }
    in_order
}

/// "keeps one reader a port from packet to packet". The families stand in the paper's order:
/// ComLynx on port 1 (case L1), Eversolar on 2, Fronius on 3; drives on "a fourth port" (document
/// 02, Req 04). Each has all bytes of its port.
fn lines_of_ports(streams: &[Vec<u8>; PORTS]) -> [Vec<Line>; PORTS] {
    [
        lines_of(1, comlynx::events(&streams[0]), lines::of_comlynx),
        lines_of(2, eversolar::events(&streams[1]), lines::of_eversolar),
        lines_of(3, fronius::events(&streams[2]), lines::of_fronius),
        lines_of(4, drives::events(&streams[3]), lines::of_drives),
    ]
}

fn lines_of<M>(port: u8, events: Vec<Event<M>>, fields: fn(&M) -> Fields) -> Vec<Line> {
    events.into_iter().map(|event| line_of(port, event.end, event.outcome, fields)).collect()
}

fn line_of<M>(port: u8, end: usize, outcome: Outcome<M>, fields: fn(&M) -> Fields) -> Line {
    match outcome {
        Ok(message) => {
            Line { end, is_message: true, text: lines::message(port, &fields(&message)) }
        }
        Err(damage) => {
            let text = lines::damage(port, damage.number, damage.lost);
            Line { end, is_message: false, text }
        }
    }
}
