//! The listing made packet by packet: what one call prints, and what it leaves to the next.

use crate::lines;
use crate::number;
use crate::packet::{self, Packet};
use crate::ports::{self, Ports};
use crate::LEAST_LENT_TO_A_READER;

/// "`sbrlist` has read 65,536 packets and more input follows": 19.
pub const MOST_PACKETS: u64 = 65_536;
/// "count 1 to 240": a packet's piece has no more bytes, so it settles no more lines.
const MOST_LINES_OF_A_PACKET: u64 = 240;
pub const LEAST_LENT: usize = 8192;

#[derive(Clone)]
pub struct Listing {
    pub ports: Ports,
    pub packets: u64,
    pub messages: u64,
    pub damages: u64,
}

pub fn fresh() -> Listing {
    Listing { ports: ports::fresh(), packets: 0, messages: 0, damages: 0 }
}

/// What came of a call.
const NOTHING: u8 = 0;
const MORE_IS_WANTED: u8 = 1;
const A_PACKET: u8 = 2;
const THE_END: u8 = 3;

pub struct Step {
    pub number: u8,
    pub came: u8,
    pub used: usize,
    pub wrote: usize,
}

fn refused(refusal: u8) -> Step {
    Step { number: refusal, came: NOTHING, used: 0, wrote: 0 }
}

fn more_is_wanted() -> Step {
    Step { number: number::DONE, came: MORE_IS_WANTED, used: 0, wrote: 0 }
}

fn step(came: u8, used: usize, text: &str, lent: &mut [u8]) -> Step {
    lent[..text.len()].copy_from_slice(text.as_bytes());
    Step { number: number::DONE, came, used, wrote: text.len() }
}

/// One call. 18 for counts that no listing has, then 9, then what is at the front of the input.
pub fn next(listing: &mut Listing, ended: bool, input: &[u8], lent: &mut [u8]) -> Step {
    if !counts_in_range(listing) {
        return refused(number::SPOILT);
    }
    if lent.len() < LEAST_LENT {
        return refused(number::NO_ROOM);
    }
    // "Input that ends where a packet would begin is no refusal".
    if input.is_empty() {
        return if ended { the_end(listing, None, lent) } else { more_is_wanted() };
    }
    if listing.packets == MOST_PACKETS {
        return the_end(listing, Some(number::TOO_MANY_PACKETS), lent);
    }
    match packet::read(input) {
        Err(number::BYTES_MISSING) if !ended => more_is_wanted(),
        Err(refusal) => the_end(listing, Some(refusal), lent),
        Ok(packet) => take(listing, &packet, input, lent),
    }
}

fn counts_in_range(listing: &Listing) -> bool {
    if listing.packets > MOST_PACKETS {
        return false;
    }
    let most_lines = listing.packets * MOST_LINES_OF_A_PACKET;
    listing.messages <= most_lines && listing.damages <= most_lines
}

/// "A refused packet, or 19, prints `stop` and its number before the end line."
fn the_end(listing: &Listing, stop: Option<u8>, lent: &mut [u8]) -> Step {
    let mut text = stop.map_or(String::new(), lines::stop);
    text.push_str(&lines::end(listing.messages, listing.damages));
    step(THE_END, 0, &text, lent)
}

/// The packet's piece goes to its port's reader, "called on until it is used up"; "one line
/// for each message or damage". The reader is lent enough, so that it refuses a spoilt state and
/// nothing else: every other number that comes without a message is a damage, 21 too.
fn take(listing: &mut Listing, packet: &Packet, input: &[u8], lent: &mut [u8]) -> Step {
    let port = packet.port;
    let mut piece = &input[packet.used - usize::from(packet.count)..packet.used];
    let mut text = String::new();
    loop {
        let mut payload = [0; LEAST_LENT_TO_A_READER];
        let reading = ports::read(&mut listing.ports, port, piece, &mut payload);
        piece = &piece[reading.used..];
        match (reading.number, reading.message) {
            (number::DONE, _) => break,
            (number::SPOILT, _) => return refused(number::SPOILT),
            (_, Some(fields)) => {
                text.push_str(&lines::message(port, &fields));
                listing.messages += 1;
            }
            (damage, None) => {
                text.push_str(&lines::damage(port, damage, reading.lost));
                listing.damages += 1;
            }
        }
    }
    listing.packets += 1;
    step(A_PACKET, packet.used, &text, lent)
}
