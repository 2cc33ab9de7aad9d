//! Calls of drives: the reader with every length, character, opening byte and count about a limit,
//! the writer, and whether a reply is expected.

use crate::calls::{
    after, fresh_state, op, reader_call, shape, state_of, writer_call, Call, Shape,
};
use crate::random::{Random, DIGITS};
use crate::streams::{self, Family, LETTERS, MOST_IN_A_REPLY, OPENINGS};
use right::drives::{self, Message};

const FRAMES: &str = "drives reader, frames with several things wrong";
const BYTES: &str = "drives reader, every byte at every place";
const SUMS: &str = "drives reader, every sum";
const STAGES: &str = "drives reader, every stage";
const COUNTS: &str = "drives reader, limits of the count";
const HELD: &str = "drives reader, characters that a state holds";
const CUTS: &str = "drives reader, a frame cut in two";
const LONG_FRAMES: &str = "drives reader, frames longer than can be told";
const FRAME_IN_PIECES: &str = "drives reader, one frame over many calls";
const REPLIES: &str = "whether a reply is expected";

/// Counts of a state: those about the shortest and the longest frames, about what is held, and about
/// what can be told.
pub fn drives_counts() -> [u16; 22] {
    [
        0, 1, 4, 5, 6, 31, 36, 37, 38, 40, 41, 42, 43, 44, 255, 256, 65_530, 65_531, 65_532,
        65_533, 65_534, 65_535,
    ]
}

pub fn drives_sweep(random: &mut Random, calls: &mut Vec<Call>) {
    frame_matrix(random, calls);
    every_byte(random, calls);
    every_sum(random, calls);
    every_stage(random, calls);
    count_sweep(random, calls);
    held_sweep(random, calls);
    cut_sweep(random, calls);
    long_frames(random, calls);
    writer_bytes(random, calls);
    writer_lengths(random, calls);
    reply_sweep(random, calls);
}

// ---- the reader ----

fn of_drives() -> Shape {
    shape(Family::Drives)
}

fn on_a_fresh_state(piece: &[u8], random: &mut Random, generator: &'static str) -> Call {
    reader_call(of_drives(), &fresh_state(of_drives()), piece, &random.bytes(255)).from(generator)
}

/// A message with so many data characters: a reply where it may be one, or a request.
pub fn drives_message(random: &mut Random, payload: usize) -> Message {
    let opening = match payload > MOST_IN_A_REPLY {
        true => drives::ENQ,
        false => random.pick(&OPENINGS),
    };
    let (station, letter) = (streams::station(random), random.pick(&LETTERS));
    Message { opening, station, letter, payload: random.digits(payload) }
}

/// Frames of every opening byte and every length, with every choice of wrong character and wrong
/// sum, so that the limits and the order of the checks show.
fn frame_matrix(random: &mut Random, calls: &mut Vec<Call>) {
    for opening in OPENINGS {
        for length in (2..=48).chain([100, 255, 256, 257, 300]) {
            for wrong in 0..4 {
                let frame = streams::drives_frame_with(random, opening, length, wrong);
                calls.push(on_a_fresh_state(&frame, random, FRAMES));
            }
        }
    }
}

/// A frame with three data characters, and every byte instead of each of its own: the sum takes in
/// the byte that stands there, or that which stood there.
fn every_byte(random: &mut Random, calls: &mut Vec<Call>) {
    for place in 0..10 {
        for byte in 0..=255 {
            let mut frame = drives::frame(&drives_message(random, 3));
            frame[place] = byte;
            if random.one_in(4) {
                calls.push(on_a_fresh_state(&frame, random, BYTES));
            }
            if (1..7).contains(&place) {
                let sum = drives::sum_of(&frame[1..7]);
                frame[7..9].copy_from_slice(&drives::in_two_digits(sum));
            }
            calls.push(on_a_fresh_state(&frame, random, BYTES));
        }
    }
}

/// Frames of every sum: right, one more, with its two characters exchanged and in small letters; and
/// one frame with every two characters for its sum.
fn every_sum(random: &mut Random, calls: &mut Vec<Call>) {
    for sum in 0..=255 {
        let frame = frame_of_sum(random, sum);
        let position = frame.len() - 3;
        let [first, second] = drives::in_two_digits(sum);
        let small = [first.to_ascii_lowercase(), second.to_ascii_lowercase()];
        let one_more = drives::in_two_digits(sum.wrapping_add(1));
        for characters in [[first, second], [second, first], small, one_more] {
            let mut frame = frame.clone();
            frame[position..position + 2].copy_from_slice(&characters);
            calls.push(on_a_fresh_state(&frame, random, SUMS));
        }
        let page = [b"\x0501R30001", &drives::in_two_digits(sum)[..], &[drives::EOT]].concat();
        calls.push(on_a_fresh_state(&page, random, SUMS));
    }
}

fn frame_of_sum(random: &mut Random, sum: u8) -> Vec<u8> {
    loop {
        let length = random.between(3, 30);
        let frame = drives::frame(&drives_message(random, length));
        if drives::sum_of(&frame[1..frame.len() - 3]) == sum {
            return frame;
        }
    }
}

/// Every byte as a stage: three are an opening byte, one is none, and all others are spoilt.
fn every_stage(random: &mut Random, calls: &mut Vec<Call>) {
    for stage in 0..=255 {
        for (count, lent) in [(0, 255), (5, 255), (65_533, 255), (0, 254)] {
            let held = Family::Drives.content(random, of_drives().held);
            let state = state_of(of_drives(), &held, stage, count, 0);
            let frame = drives::frame(&drives_message(random, 2));
            let lent = random.bytes(lent);
            calls.push(reader_call(of_drives(), &state, &frame, &lent).from(STAGES));
        }
    }
}

/// So many characters counted that a piece stays below what is held or can be told, reaches it or
/// passes it, with and without an EOT behind the piece.
fn count_sweep(random: &mut Random, calls: &mut Vec<Call>) {
    for opening in OPENINGS {
        let near = [65_277, 65_278].into_iter().chain(65_527..=65_533);
        for count in [0, 1, 5, 35, 36, 37, 40, 41, 42, 43, 254, 255].into_iter().chain(near) {
            for length in [0, random.between(1, 7), random.pick(&[255, 256, 300])] {
                let held = Family::Drives.content(random, of_drives().held);
                let state = state_of(of_drives(), &held, opening, count, 0);
                let mut piece = streams::without_ends(random, length);
                if length == 0 || random.one_in(2) {
                    piece.push(drives::EOT);
                }
                let lent = random.bytes(255);
                calls.push(reader_call(of_drives(), &state, &piece, &lent).from(COUNTS));
            }
        }
    }
}

/// A state that holds a right frame but for its EOT, and one that counts a character fewer or more;
/// each with the opening byte of the frame and with the others.
fn held_sweep(random: &mut Random, calls: &mut Vec<Call>) {
    for payload in 0..=drives::MOST_PAYLOAD {
        let frame = drives::frame(&drives_message(random, payload));
        let characters = &frame[1..frame.len() - 1];
        let mut held = random.digits(of_drives().held);
        held[..characters.len()].copy_from_slice(characters);
        for opening in OPENINGS {
            for count in [characters.len() - 1, characters.len(), characters.len() + 1] {
                let state = state_of(of_drives(), &held, opening, count as u16, 0);
                for piece in [&[drives::EOT][..], &[b'0', drives::EOT, drives::ENQ]] {
                    let lent = random.bytes(255);
                    calls.push(reader_call(of_drives(), &state, piece, &lent).from(HELD));
                }
            }
        }
    }
}

/// Frames cut at every byte, the second part read from what the first left.
fn cut_sweep(random: &mut Random, calls: &mut Vec<Call>) {
    for payload in [0, 1, MOST_IN_A_REPLY, drives::MOST_PAYLOAD] {
        let frame = drives::frame(&drives_message(random, payload));
        for cut in 0..=frame.len() {
            let held = Family::Drives.content(random, of_drives().held);
            let mut state = state_of(of_drives(), &held, 0, 0, 0);
            for piece in [&frame[..cut], &frame[cut..]] {
                let lent = random.bytes(255);
                let call = reader_call(of_drives(), &state, piece, &lent).from(CUTS);
                state = after(of_drives(), &call.bytes).2;
                calls.push(call);
            }
        }
    }
}

/// From a fresh state an opening byte and five pieces of as many bytes as a list may have, then an
/// EOT: digits, zeros, and what opens frames.
fn long_frames(random: &mut Random, calls: &mut Vec<Call>) {
    for byte in [b'0', 0x00, drives::ENQ] {
        let (opening, piece) = ([random.pick(&OPENINGS)], vec![byte; 16_384]);
        let pieces = [&[&opening[..]], &[&piece[..]; 5][..], &[&[drives::EOT][..]]].concat();
        let mut state = fresh_state(of_drives());
        for piece in pieces {
            let lent = random.bytes(255);
            let call = reader_call(of_drives(), &state, piece, &lent).from(LONG_FRAMES);
            state = after(of_drives(), &call.bytes).2;
            calls.push(call);
        }
    }
}

/// One frame over many calls, from a state that may have counted any number of characters.
pub fn frame_chain(_: Family, random: &mut Random, calls: &mut Vec<Call>) {
    let anywhere = random.word().min(65_533);
    let near = random.between(65_500, 65_533) as u16;
    let count = random.pick(&[0, 0, 1, 5, 30, 40, near, near, anywhere]);
    let held = Family::Drives.content(random, of_drives().held);
    let mut state = state_of(of_drives(), &held, random.pick(&OPENINGS), count, 0);
    let longest_piece = random.pick(&[1, 2, 10, 60]);
    for order in 0..=30 {
        let length = random.between(0, longest_piece);
        let mut piece = streams::without_ends(random, length);
        if order == 30 {
            piece.push(drives::EOT);
        }
        let lent = random.bytes(255);
        let call = reader_call(of_drives(), &state, &piece, &lent).from(FRAME_IN_PIECES);
        state = after(of_drives(), &call.bytes).2;
        calls.push(call);
    }
}

// ---- the writer ----

/// Opening byte, station and letter; now and then one of them is outside its set.
pub fn drives_writer_lead(random: &mut Random) -> Vec<u8> {
    let station = streams::station(random);
    let mut lead = vec![random.pick(&OPENINGS), station[0], station[1], random.pick(&LETTERS)];
    if random.one_in(6) {
        let position = random.below(lead.len());
        lead[position] = random.special_of_drives();
    }
    lead
}

/// Digits; now and then one is none.
pub fn drives_writer_payload(random: &mut Random, length: usize) -> Vec<u8> {
    let mut payload = random.digits(length);
    if length > 0 && random.one_in(5) {
        let position = random.pick(&[0, length / 2, length - 1]);
        payload[position] = random.special_of_drives();
    }
    payload
}

/// The exact length, whatever refuses the call.
fn frame_length(payload: &[u8]) -> usize {
    drives::SHORTEST_FRAME + payload.len()
}

fn write_call(lead: &[u8], payload: &[u8], room: usize, random: &mut Random) -> Call {
    writer_call(Family::Drives, lead, payload, &random.bytes(room))
}

/// Every byte as the opening, of a message that is not too long, of one that is too long for a reply
/// and of one that is too long; and every byte as each character of a message that is else right.
fn writer_bytes(random: &mut Random, calls: &mut Vec<Call>) {
    for byte in 0..=255 {
        for length in [0, 5, 32, 33, 37, 38] {
            let (payload, lead) = (random.digits(length), [byte, b'0', b'1', b'R']);
            let exact = frame_length(&payload);
            let room = random.pick(&[0, exact - 1, exact, exact, exact, exact + 1]);
            calls.push(write_call(&lead, &payload, room, random));
        }
        for place in 1..7 {
            let mut lead = [random.pick(&OPENINGS), b'A', b'9', b'W'];
            let mut payload = random.digits(3);
            match place {
                1..=3 => lead[place] = byte,
                _ => payload[place - 4] = byte,
            }
            let exact = frame_length(&payload);
            for room in [exact, random.pick(&[0, exact - 1])] {
                calls.push(write_call(&lead, &payload, room, random));
            }
        }
    }
}

/// Every length past both limits, right and with a character outside its set, with every telling
/// room; the longest frames with every room.
fn writer_lengths(random: &mut Random, calls: &mut Vec<Call>) {
    for opening in [drives::ENQ, drives::ACK, drives::NAK, 0x07, drives::EOT] {
        for length in (0..=40).chain([255, 256, 257, 16_384]) {
            for wrong in 0..=5 {
                let mut lead = [opening, b'F', b'0', random.pick(&LETTERS)];
                let mut payload = random.digits(length);
                match wrong {
                    1 | 2 => lead[wrong] = streams::outside_its_set(random, wrong - 1),
                    3 => lead[3] = streams::outside_its_set(random, 2),
                    4 | 5 if length > 0 => {
                        let place = if wrong == 4 { random.below(length) } else { length - 1 };
                        payload[place] = streams::outside_its_set(random, 3);
                    }
                    _ => {}
                }
                let exact = frame_length(&payload).min(16_000);
                let rooms = [0, exact - 1, exact, exact + 1];
                let some = [random.pick(&rooms)];
                for &room in if wrong == 0 { &rooms[..] } else { &some } {
                    calls.push(write_call(&lead, &payload, room, random));
                }
            }
        }
    }
    for (opening, length) in [(drives::ENQ, 37), (drives::ACK, 32), (drives::NAK, 32)] {
        for room in 0..=frame_length(&vec![0; length]) + 4 {
            let payload = vec![random.pick(&[b'F', b'0']); length];
            calls.push(write_call(&[opening, b'F', b'F', b'Y'], &payload, room, random));
        }
    }
}

// ---- replies ----

fn reply_call(opening: u8, first: u8, second: u8) -> Call {
    op(0x24).b(opening).b(first).b(second).from(REPLIES)
}

/// Every byte as the opening and as each character of the station; and every station.
fn reply_sweep(random: &mut Random, calls: &mut Vec<Call>) {
    for byte in 0..=255 {
        for station in [*b"FF", *b"01", *b"0F", *b"F0", *b"fF", *b"G0"] {
            calls.push(reply_call(byte, station[0], station[1]));
        }
        for opening in OPENINGS {
            let other = random.pick(&[b'F', b'0']);
            calls.push(reply_call(opening, byte, b'F'));
            calls.push(reply_call(opening, b'F', byte));
            calls.push(reply_call(opening, byte, other));
        }
    }
    for first in DIGITS {
        for second in DIGITS {
            calls.push(reply_call(drives::ENQ, first, second));
            calls.push(reply_call(random.pick(&[drives::ACK, drives::NAK]), first, second));
        }
    }
}

pub fn random_reply(random: &mut Random) -> Call {
    let lead = drives_writer_lead(random);
    reply_call(lead[0], lead[1], lead[2])
}
