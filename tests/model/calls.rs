//! Calls of the programs `test_probe_..`: sweeps over every limit, and random ones.

use crate::checksum_calls::{checksum_sweep, random_checksum, too_long_to_sum};
use crate::drives_calls::{
    drives_counts, drives_sweep, drives_writer_lead, drives_writer_payload, frame_chain,
    random_reply,
};
use crate::in_place_calls::{in_place_chain, in_place_sweep, random_in_place, too_many_held};
use crate::listing_calls::{
    line_sweep, listing_chain, listing_sweep, port_chain, port_sweep, random_line, random_listing,
    random_port, random_word, word_sweep,
};
use crate::random::Random;
use crate::slice_calls::{few_calls, too_long, SLICES_TOO_LONG};
use crate::streams::{self, Family, FAMILIES};
use crate::SLICES;
use right::{number, packet, probe};

/// The generators of a session's last call, where that one has no result, by the program.
const END_EARLY: [&str; 4] = [
    "session of the readers that ends early",
    "session of the listing that ends early",
    "session of the other calls that ends early",
    "session of the slices that ends early",
];

pub struct Call {
    pub generator: &'static str,
    pub bytes: Vec<u8>,
}

impl Call {
    pub fn ends_early(&self) -> bool {
        END_EARLY.contains(&self.generator)
    }

    /// Which program it is for: its opcode says so, but for what ends a session.
    pub fn program(&self) -> usize {
        let ended = END_EARLY.iter().position(|&generator| generator == self.generator);
        ended.unwrap_or_else(|| probe::program_of(self.bytes[0]))
    }
}

/// What ends a session of one of the programs.
pub fn ending(program: usize, bytes: Vec<u8>) -> Call {
    Call { generator: END_EARLY[program], bytes }
}

/// A call that grows argument after argument.
pub struct Making {
    pub bytes: Vec<u8>,
}

pub fn op(op: u8) -> Making {
    Making { bytes: vec![op] }
}

impl Making {
    pub fn raw(mut self, bytes: &[u8]) -> Making {
        self.bytes.extend(bytes);
        self
    }

    pub fn b(self, byte: u8) -> Making {
        self.raw(&[byte])
    }

    pub fn w(self, word: u16) -> Making {
        self.raw(&word.to_le_bytes())
    }

    pub fn d(self, number: u32) -> Making {
        self.raw(&number.to_le_bytes())
    }

    pub fn q(self, number: u64) -> Making {
        self.raw(&number.to_le_bytes())
    }

    pub fn list(self, bytes: &[u8]) -> Making {
        self.raw(&probe::as_list(bytes))
    }

    pub fn from(self, generator: &'static str) -> Call {
        Call { generator, bytes: self.bytes }
    }

    /// The same arguments, for another call.
    pub fn again(&self) -> Making {
        Making { bytes: self.bytes.clone() }
    }
}

// ---- readers ----

/// How a family's reader is called: its opcodes, by value, fresh and in place, the bytes it holds,
/// the bytes of its state, and where the state stands in a result.
#[derive(Clone, Copy)]
pub struct Shape {
    pub family: Family,
    pub op: u8,
    fresh: u8,
    pub in_place: u8,
    pub held: usize,
    pub state: usize,
    pub state_in_result: usize,
    chain: &'static str,
    forged: &'static str,
    grid: &'static str,
    lent: &'static str,
}

pub fn shape(family: Family) -> Shape {
    match family {
        Family::ComLynx => Shape {
            family,
            op: 0x01,
            fresh: 0x04,
            in_place: 0x07,
            held: 265,
            state: 270,
            state_in_result: 12,
            chain: "ComLynx reader, stream in pieces",
            forged: "ComLynx reader, forged state",
            grid: "ComLynx reader, limits of the state",
            lent: "ComLynx reader, every lent length",
        },
        Family::Eversolar => Shape {
            family,
            op: 0x02,
            fresh: 0x05,
            in_place: 0x08,
            held: 263,
            state: 268,
            state_in_result: 13,
            chain: "Eversolar reader, stream in pieces",
            forged: "Eversolar reader, forged state",
            grid: "Eversolar reader, limits of the state",
            lent: "Eversolar reader, every lent length",
        },
        Family::Fronius => Shape {
            family,
            op: 0x03,
            fresh: 0x06,
            in_place: 0x09,
            held: 130,
            state: 135,
            state_in_result: 10,
            chain: "Fronius reader, stream in pieces",
            forged: "Fronius reader, forged state",
            grid: "Fronius reader, limits of the state",
            lent: "Fronius reader, every lent length",
        },
        Family::Drives => Shape {
            family,
            op: 0x0A,
            fresh: 0x0B,
            in_place: 0x0C,
            held: 42,
            state: 45,
            state_in_result: 11,
            chain: "drives reader, stream in pieces",
            forged: "drives reader, forged state",
            grid: "drives reader, limits of the state",
            lent: "drives reader, every lent length",
        },
    }
}

pub fn fresh_state(shape: Shape) -> Vec<u8> {
    let result = probe::answer(&[shape.fresh]).expect("a fresh state needs no argument");
    result[1..].to_vec()
}

/// A state out of its parts, of which the last is how many bytes came for ComLynx and the length
/// for Eversolar and Fronius; drives have none.
pub fn state_of(shape: Shape, held: &[u8], stage: u8, count: u16, last: u16) -> Vec<u8> {
    let mut state = held.to_vec();
    state.push(stage);
    state.extend(count.to_le_bytes());
    state.extend(last.to_le_bytes());
    state.truncate(shape.state);
    state
}

pub fn reader_call(shape: Shape, state: &[u8], piece: &[u8], lent: &[u8]) -> Making {
    op(shape.op).raw(state).list(piece).list(lent)
}

/// The number, the bytes used and the next state the call must give.
pub fn after(shape: Shape, call: &[u8]) -> (u8, usize, Vec<u8>) {
    let result = probe::answer(call).expect("a whole call");
    let used = usize::from(result[1]) + 256 * usize::from(result[2]);
    let state = &result[shape.state_in_result..shape.state_in_result + shape.state];
    (result[0], used, state.to_vec())
}

/// A stream in pieces, "each piece called on until it is used up".
pub fn reader_chain(family: Family, random: &mut Random, calls: &mut Vec<Call>) {
    let shape = shape(family);
    let mut state = fresh_state(shape);
    let least = random.pick(&[30, 100, 400]);
    let stream = streams::stream(family, random, least);
    let longest_piece = random.pick(&[1, 5, 40, 300, 1000]);
    let mut rest = &stream[..];
    for _ in 0..60 {
        if rest.is_empty() {
            break;
        }
        let (mut piece, later) = rest.split_at(random.between(1, longest_piece).min(rest.len()));
        rest = later;
        loop {
            let call = reader_call(shape, &state, piece, &lent_to_reader(random)).from(shape.chain);
            let (number, used, next) = after(shape, &call.bytes);
            calls.push(call);
            state = next;
            piece = &piece[used..];
            if number == number::DONE {
                break;
            }
        }
    }
}

/// Mostly enough, at times just below.
pub fn lent_to_reader(random: &mut Random) -> Vec<u8> {
    let length = match random.below(24) {
        0 => random.pick(&[0, 1, 127, 253, 254]),
        1 => random.between(256, 532),
        _ => random.pick(&[255, 255, 256]),
    };
    random.bytes(length)
}

/// A state as a stream left it, then spoilt or not; or one made of numbers near the limits.
pub fn forged_call(family: Family, random: &mut Random) -> Call {
    let shape = shape(family);
    let (state, piece) = if random.one_in(3) {
        state_of_numbers(shape, random)
    } else {
        state_on_the_way(shape, random)
    };
    reader_call(shape, &state, &piece, &lent_to_reader(random)).from(shape.forged)
}

/// A state made of numbers near the limits, and a piece for it.
pub fn state_of_numbers(shape: Shape, random: &mut Random) -> (Vec<u8>, Vec<u8>) {
    let family = shape.family;
    let held = family.content(random, shape.held);
    let stage = match family {
        Family::Drives => random.pick(&[0, 5, 5, 5, 6, 6, 0x15, 0x15, 4, 7, 0x14, 0x16, 255]),
        _ => random.pick(&[0, 1, 1, 2, 2, 3, 3, 4, 255]),
    };
    let last = match family {
        Family::ComLynx => any_came(random),
        _ => random.pick(&[0, 0, 1, 2, 126, 127, 128, 254, 255, 256, 65_535]),
    };
    let near: u16 = random.pick(&[0, 0, 3, 7, 8, 9, 263, 265]);
    let with_last = near.wrapping_add(random.pick(&[0, 0, last]));
    let count = match family {
        Family::Drives => random.pick(&drives_counts()),
        _ => with_last.wrapping_add(random.pick(&[0, 0, 1, 2, 65_535])),
    };
    let piece_length = random.pick(&[0, 1, 2, 5, 20, 300]);
    (state_of(shape, &held, stage, count, last), family.specials(random, piece_length))
}

/// How many bytes came: few, or so many that the next ones reach 65,535 or pass it.
fn any_came(random: &mut Random) -> u16 {
    let near = random.between(65_530, 65_535) as u16;
    let anywhere = random.word();
    random.pick(&[0, 0, 0, 1, 9, 255, 256, near, near, near, 65_535 - 300, anywhere])
}

/// A frame or a damage cut in two: the first part read over held bytes of before, the second part
/// to come.
pub fn state_on_the_way(shape: Shape, random: &mut Random) -> (Vec<u8>, Vec<u8>) {
    let frame = match random.one_in(3) {
        true => streams::shaped(shape.family, random),
        false => streams::frame(shape.family, random),
    };
    let (first, second) = frame.split_at(random.between(0, frame.len() - 1));
    let begin = state_of(shape, &shape.family.specials(random, shape.held), 0, 0, 0);
    let call = reader_call(shape, &begin, first, &[0; 255]).bytes;
    let (_, _, mut state) = after(shape, &call);
    if random.one_in(2) {
        spoil_a_number(shape, &mut state, random);
    }
    if random.one_in(3) {
        let position = random.below(shape.held);
        state[position] = shape.family.special(random);
    }
    if shape.family == Family::ComLynx && random.one_in(3) {
        let came = any_came(random);
        state[shape.state - 2..].copy_from_slice(&came.to_le_bytes());
    }
    if shape.family == Family::Drives && random.one_in(6) {
        let count = random.pick(&drives_counts());
        state[shape.state - 2..].copy_from_slice(&count.to_le_bytes());
    }
    let mut piece = second.to_vec();
    if random.one_in(3) {
        piece.extend(streams::frame(shape.family, random));
    }
    (state, piece)
}

/// The stage, the count or the last number by one or two more or less.
fn spoil_a_number(shape: Shape, state: &mut [u8], random: &mut Random) {
    let offset = random.pick(&[0, 1, 1, 2, 3, 3]);
    let byte = &mut state[(shape.held + offset).min(shape.state - 1)];
    *byte = byte.wrapping_add(random.pick(&[1, 1, 2, 254, 255, 255]));
}

/// Each stage with counts and lengths, or numbers of bytes come, on both sides of each limit;
/// every telling piece where the state is in its range, else one piece, with enough lent and with
/// too little.
pub fn grid_calls(family: Family, random: &mut Random) -> Vec<Call> {
    let (shape, mut calls) = (shape(family), Vec::new());
    let lasts: &[u16] = match family {
        Family::ComLynx => &[0, 1, 65_533, 65_535],
        Family::Eversolar => &[0, 1, 254, 255, 256, 65_535],
        Family::Fronius => &[0, 1, 126, 127, 128, 65_535],
        Family::Drives => &[0],
    };
    let stages: &[u8] = match family {
        Family::Drives => &[0, 5, 6, 0x15, 1, 2, 3, 4, 7, 14, 16, 20, 22, 255],
        _ => &[0, 1, 2, 3, 4, 255],
    };
    for &stage in stages {
        for &last in lasts {
            for count in counts_for(family, last) {
                let held = family.content(random, shape.held);
                let state = state_of(shape, &held, stage, count, last);
                calls_on_a_state(shape, &state, random, &mut calls);
            }
        }
    }
    calls
}

fn calls_on_a_state(shape: Shape, state: &[u8], random: &mut Random, calls: &mut Vec<Call>) {
    let empty_piece = reader_call(shape, state, &[], &[0; 255]).bytes;
    let in_range = after(shape, &empty_piece).0 == number::DONE;
    let pieces = telling_pieces(shape.family);
    for &piece in if in_range { pieces } else { &pieces[1..2] } {
        let lent = random.bytes(255);
        calls.push(reader_call(shape, state, piece, &lent).from(shape.grid));
    }
    let too_little = random.pick(&[0, 1, 254]);
    let piece = random.pick(pieces);
    calls.push(reader_call(shape, state, piece, &random.bytes(too_little)).from(shape.grid));
}

fn counts_for(family: Family, last: u16) -> Vec<u16> {
    match family {
        Family::ComLynx => vec![0, 1, 9, 10, 11, 263, 264, 265, 266, 267, 65_535],
        Family::Eversolar => {
            let whole = last.saturating_add(8);
            vec![0, 1, 5, 6, 7, 8, whole - 1, whole, whole.saturating_add(1), 65_535]
        }
        Family::Fronius => {
            let whole = last.saturating_add(3);
            vec![0, 1, 2, 3, 4, whole - 1, whole, whole.saturating_add(1), 65_535]
        }
        Family::Drives => drives_counts().to_vec(),
    }
}

fn telling_pieces(family: Family) -> &'static [&'static [u8]] {
    match family {
        Family::ComLynx => &[
            &[],
            &[0x7E],
            &[0x5E],
            &[0x5D, 0x7E],
            &[0x7D],
            &[0x7D, 0x7E],
            &[0x00, 0x7E],
            &[0x11, 0x22, 0x33],
            &[0x7D, 0x5E, 0x7D, 0x5D, 0x5E],
            &[0x7D, 0x7D, 0x5D, 0x5E],
        ],
        Family::Eversolar => &[
            &[],
            &[0x55],
            &[0xAA, 0xAA, 0x55, 0x01],
            &[0xAA, 0x00, 0x55],
            &[0x55, 1, 2, 3, 4, 5, 6, 0, 0x11],
            &[0x11, 0x22],
        ],
        Family::Fronius => &[
            &[],
            &[0x80],
            &[0x80, 0x00],
            &[0x81],
            &[0x7F],
            &[0x00, 0x01, 0x02],
            &[0xFF, 0x80, 0x80, 0x80],
        ],
        Family::Drives => &[
            &[],
            &[0x04],
            &[0x05],
            &[0x30, 0x04],
            &[0x05, 0x04],
            &[0x15, 0x06, 0x05],
            &[0x11, 0x22, 0x33],
            &[0x04, 0x05, 0x04],
            &[0x05, 0x30, 0x31, 0x52, 0x33, 0x30, 0x30, 0x30, 0x31, 0x41, 0x37, 0x04],
        ],
    }
}

/// ComLynx stretches with every choice of wrong pair, beginning, size and checksum, of every
/// telling length, so that the order of the checks shows.
fn stretch_matrix(random: &mut Random, calls: &mut Vec<Call>) {
    let shape = shape(Family::ComLynx);
    for length in [1, 2, 9, 10, 11, 30, 264, 265, 266, 267] {
        for wrong in 0..16 {
            let stretch = streams::stretch_with(random, length, wrong);
            let state = fresh_state(shape);
            let lent = random.bytes(255);
            calls.push(reader_call(shape, &state, &stretch, &lent).from(STRETCHES));
        }
    }
}

const STRETCHES: &str = "ComLynx reader, stretches with several things wrong";

// ---- bytes lost ----

const CAME: &str = "ComLynx reader, limits of the bytes come";
const LONG_STRETCHES: &str = "ComLynx reader, stretches longer than can be told";
const STRETCH_IN_PIECES: &str = "ComLynx reader, one stretch over many calls";
const LENGTHS_LOST: &str = "bytes lost with every length";
const FURTHER_80: &str = "Fronius reader, further 80 before a wrong frame";

/// Every stage with so many bytes come that a piece stays below 65,535, reaches it or passes it,
/// with and without a flag behind the piece.
fn came_sweep(random: &mut Random, calls: &mut Vec<Call>) {
    let shape = shape(Family::ComLynx);
    for stage in 0..=3 {
        for count in [0, 1, 10, 265, 266] {
            let near = [65_279, 65_280].into_iter().chain(65_529..=65_535);
            for came in [0, 1, 2, 254, 255, 256].into_iter().chain(near) {
                let held = random.content(shape.held);
                let state = state_of(shape, &held, stage, count, came);
                for length in [0, random.between(1, 7), random.pick(&[255, 256, 300])] {
                    let mut piece = streams::without_flags(random, length);
                    if length == 0 || random.one_in(2) {
                        piece.push(0x7E);
                    }
                    let lent = random.bytes(255);
                    calls.push(reader_call(shape, &state, &piece, &lent).from(CAME));
                }
            }
        }
    }
}

/// From a fresh state five pieces of as many bytes as a list may have, then a flag: plain bytes,
/// pairs, a broken pair and plain bytes.
fn long_stretches(random: &mut Random, calls: &mut Vec<Call>) {
    let (shape, longest) = (shape(Family::ComLynx), 16_384);
    let pairs = streams::pair(random).repeat(longest / 2);
    for (first, piece) in [
        (&[0x7E][..], vec![0x00; longest]),
        (&[0x7E], pairs),
        (&[0x7E, 0x7D, 0x00], vec![0x5E; longest]),
    ] {
        let mut state = fresh_state(shape);
        let pieces = [&[first], &[&piece[..]; 5][..], &[&[0x7E][..]]].concat();
        for piece in pieces {
            let call = reader_call(shape, &state, piece, &random.bytes(255)).from(LONG_STRETCHES);
            state = after(shape, &call.bytes).2;
            calls.push(call);
        }
    }
}

/// Frames of every length with a wrong sum, read whole, and by a forged state that lacks their last
/// byte alone, whose length is not the byte held.
fn lengths_lost(family: Family, random: &mut Random, calls: &mut Vec<Call>) {
    let shape = shape(family);
    let (body, held_beside_the_payload) = if family == Family::Eversolar { (3, 8) } else { (1, 3) };
    for length in 0..=family.most_payload() {
        let mut frame = streams::frame_with(family, random, vec![0x11; length]);
        let last = frame.len() - 1;
        frame[last] = frame[last].wrapping_add(1);
        let lent = random.bytes(255);
        calls.push(reader_call(shape, &fresh_state(shape), &frame, &lent).from(LENGTHS_LOST));
        let count = held_beside_the_payload + length as u16;
        let held = random.content(shape.held);
        let state = state_of(shape, &held, body, count, length as u16);
        calls.push(reader_call(shape, &state, &random.bytes(1), &lent).from(LENGTHS_LOST));
    }
}

/// No or more 80 than a start needs, in the piece or counted by the state, then a wrong length or a
/// frame with a wrong sum.
fn further_starts(random: &mut Random, calls: &mut Vec<Call>) {
    let shape = shape(Family::Fronius);
    for further in [0, 1, 2, 3, 4, 5, 100, 300] {
        for counted in 0..=3 {
            for wrong in [&[0x81][..], &[0xFF], &[0, 0, 0, 1, 2], &[2, 1, 1, 0x10, 4, 0xD2, 0]] {
                let held = random.content(shape.held);
                let state = state_of(shape, &held, 0, counted, 0);
                let starts = usize::from(3 - counted) + further;
                let piece = [&vec![0x80; starts], wrong].concat();
                let lent = random.bytes(255);
                calls.push(reader_call(shape, &state, &piece, &lent).from(FURTHER_80));
            }
        }
    }
}

fn lost_sweep(random: &mut Random, calls: &mut Vec<Call>) {
    came_sweep(random, calls);
    long_stretches(random, calls);
    lengths_lost(Family::Eversolar, random, calls);
    lengths_lost(Family::Fronius, random, calls);
    further_starts(random, calls);
}

/// One stretch over many calls, from a state in which any number of bytes may have come.
fn stretch_chain(_: Family, random: &mut Random, calls: &mut Vec<Call>) {
    let shape = shape(Family::ComLynx);
    let (stage, count) = (random.between(1, 3) as u8, random.pick(&[0, 0, 1, 9, 250, 266]));
    let (held, came) = (random.specials(shape.held), any_came(random));
    let mut state = state_of(shape, &held, stage, count, came);
    let longest_piece = random.pick(&[1, 2, 10, 60]);
    for order in 0..=30 {
        let length = random.between(0, longest_piece);
        let mut piece = streams::without_flags(random, length);
        if order == 30 {
            piece.push(0x7E);
        }
        let call = reader_call(shape, &state, &piece, &random.bytes(255)).from(STRETCH_IN_PIECES);
        state = after(shape, &call.bytes).2;
        calls.push(call);
    }
}

/// A message whose last byte comes, with every lent length.
fn reader_lent_lengths(family: Family, random: &mut Random, calls: &mut Vec<Call>) {
    let shape = shape(family);
    for length in (0..=260).chain([532, 1000, 8192, 16_384]) {
        let payload = if length % 2 == 0 {
            random.content(family.most_payload())
        } else {
            vec![0xFF; family.most_payload()]
        };
        let frame = streams::frame_with(family, random, payload);
        let lent = random.bytes(length);
        let state = fresh_state(shape);
        calls.push(reader_call(shape, &state, &frame, &lent).from(shape.lent));
    }
}

// ---- writers ----

const WRITERS: [&str; 4] =
    ["ComLynx writer", "Eversolar writer", "Fronius writer", "drives writer"];

pub fn writer_call(family: Family, lead: &[u8], payload: &[u8], lent: &[u8]) -> Call {
    let (making, generator) = match family {
        Family::ComLynx => (op(0x11).raw(&lead[..5]), WRITERS[0]),
        Family::Eversolar => (op(0x12).raw(&lead[..6]), WRITERS[1]),
        Family::Fronius => (op(0x13).raw(&lead[..3]), WRITERS[2]),
        Family::Drives => (op(0x14).raw(&lead[..4]), WRITERS[3]),
    };
    making.list(payload).list(lent).from(generator)
}

/// The exact length the call would write, or that of the longest frame where it refuses.
fn exact_length(family: Family, lead: &[u8], payload: &[u8]) -> usize {
    let call = writer_call(family, lead, payload, &[0; 600]);
    let result = probe::answer(&call.bytes).expect("a whole call");
    match usize::from(result[1]) + 256 * usize::from(result[2]) {
        0 => 532,
        length => length,
    }
}

fn writer_with_telling_room(family: Family, random: &mut Random, payload: &[u8]) -> Call {
    let lead = match family {
        Family::Drives => drives_writer_lead(random),
        _ => random.specials(6),
    };
    let exact = exact_length(family, &lead, payload);
    let room = match random.below(6) {
        0 => exact - 1,
        1 => exact,
        2 => exact + 1,
        3 => random.between(0, exact),
        4 => 0,
        _ => 532.max(exact),
    };
    writer_call(family, &lead, payload, &random.bytes(room))
}

fn random_writer(family: Family, random: &mut Random) -> Call {
    let mut length = streams::payload_length(family, random);
    if random.one_in(8) {
        length = family.most_payload() + random.pick(&[0, 1, 2, 129, 16_129]);
    }
    let payload = match family {
        Family::Drives => drives_writer_payload(random, length),
        _ => random.content(length),
    };
    writer_with_telling_room(family, random, &payload)
}

/// Every payload length past the limit, with telling rooms; one long frame with every room.
fn writer_sweep(family: Family, random: &mut Random, calls: &mut Vec<Call>) {
    for length in 0..=family.most_payload() + 3 {
        let (lead, payload) = (random.specials(6), random.content(length));
        let exact = exact_length(family, &lead, &payload);
        for room in [exact - 1, exact, exact + 1] {
            calls.push(writer_call(family, &lead, &payload, &random.bytes(room)));
        }
    }
    let longest = vec![0x7E; family.most_payload()];
    let most_room = exact_length(family, &[0x7E; 6], &longest) + 4;
    for room in 0..=most_room {
        calls.push(writer_call(family, &[0x7E; 6], &longest, &random.bytes(room)));
    }
    for length in family.most_payload() - 3..=family.most_payload() {
        let heaviest = vec![0xFF; length];
        calls.push(writer_call(family, &[0xFF; 6], &heaviest, &random.bytes(600)));
    }
    for room in [0, 265, 532, 600] {
        let too_long = vec![0; family.most_payload() + 1];
        calls.push(writer_call(family, &[0; 6], &too_long, &random.bytes(room)));
    }
}

// ---- meaning and addresses ----

fn meaning_call(kind: u8, payload: &[u8]) -> Call {
    op(0x21).b(kind).list(payload).from("meaning of a type byte")
}

fn meaning_sweep(random: &mut Random, calls: &mut Vec<Call>) {
    for kind in 0..=255 {
        for length in [0, 1, 2] {
            calls.push(meaning_call(kind, &random.bytes(length)));
        }
    }
}

fn random_meaning(random: &mut Random) -> Call {
    let length = random.pick(&[0, 1, 1, 1, 2, 3, 255]);
    meaning_call(random.byte(), &random.bytes(length))
}

fn address_call(word: u16) -> Call {
    op(0x22).w(word).from("address of a word")
}

fn word_call(network: u8, subnet: u8, node: u8) -> Call {
    op(0x23).b(network).b(subnet).b(node).from("word of an address")
}

fn address_sweep(random: &mut Random, calls: &mut Vec<Call>) {
    for bit in 0..16 {
        calls.push(address_call(1 << bit));
        calls.push(address_call(0xFFFF ^ 1 << bit));
    }
    for network in (0..=17).chain([128, 255]) {
        for subnet in [0, 1, 14, 15, 16, 17, 255] {
            calls.push(word_call(network, subnet, random.special()));
        }
    }
}

fn random_address(random: &mut Random) -> Call {
    if random.one_in(2) {
        return address_call(random.word());
    }
    word_call(random.below(18) as u8, random.below(18) as u8, random.byte())
}

// ---- requests, energy, waits ----

fn to_all_call(which: u8, lent: &[u8]) -> Call {
    op(0x31).b(which).list(lent).from("request to all")
}

fn to_one_call(which: u8, address: u8, lent: &[u8]) -> Call {
    op(0x32).b(which).b(address).list(lent).from("request to one")
}

fn give_address_call(serial: &[u8], address: u8, lent: &[u8]) -> Call {
    op(0x33).list(serial).b(address).list(lent).from("give an address")
}

fn request_sweep(random: &mut Random, calls: &mut Vec<Call>) {
    for which in [0, 1, 2, 3, 255] {
        for room in 0..=13 {
            calls.push(to_all_call(which, &random.bytes(room)));
        }
    }
    for address in 0..=255 {
        let which = random.pick(&[0, 1, 2, 3, 4, 5, 255]);
        calls.push(to_one_call(which, address, &random.bytes(20)));
    }
    for which in [0, 1, 2, 3, 4, 5, 255] {
        for address in [0, 1, 85, 170, 254, 255] {
            for room in [0, 10, 11, 12] {
                calls.push(to_one_call(which, address, &random.bytes(room)));
            }
        }
    }
    for length in (0..=18).chain([32, 255, 256]) {
        for address in [0, 1, 254, 255] {
            for room in [0, 27, 28, 29] {
                let serial = random.content(length);
                calls.push(give_address_call(&serial, address, &random.bytes(room)));
            }
        }
    }
}

fn random_request(random: &mut Random) -> Call {
    let address = random.pick(&[0, 1, 2, 100, 200, 254, 255]);
    match random.below(4) {
        0 => {
            let room = random.between(0, 40);
            to_all_call(random.below(4) as u8, &random.bytes(room))
        }
        1 => {
            let room = random.between(8, 16);
            to_one_call(random.below(6) as u8, address, &random.bytes(room))
        }
        _ => {
            let length = random.pick(&[16, 16, 16, 16, 15, 17, 0]);
            let room = random.pick(&[26, 27, 28, 28, 29, 60]);
            give_address_call(&random.content(length), random.byte(), &random.bytes(room))
        }
    }
}

fn energy_call(control: u8, function: u8, payload: &[u8]) -> Call {
    op(0x34).b(control).b(function).list(payload).from("total energy")
}

fn energy_sweep(random: &mut Random, calls: &mut Vec<Call>) {
    for length in (0..=50).chain([254, 255, 256]) {
        let payload = random.bytes(length);
        calls.push(energy_call(0x11, 0x90, &payload));
    }
    for byte in 0..=255 {
        let payload = random.bytes(44);
        calls.push(energy_call(byte, 0x90, &payload));
        calls.push(energy_call(0x11, byte, &payload));
    }
}

fn random_energy(random: &mut Random) -> Call {
    let length = random.pick(&[42, 43, 44, 44, 45, 60, 255]);
    let control = random.pick(&[0x11, 0x11, 0x11, 0x10]);
    let function = random.pick(&[0x90, 0x90, 0x90, 0x10]);
    energy_call(control, function, &random.content(length))
}

fn wait_call(serial: u64, attempt: u8) -> Call {
    op(0x35).q(serial).b(attempt).from("wait")
}

fn wait_sweep(calls: &mut Vec<Call>) {
    for serial in
        [0, 1, 14, 15, 16, 224, 225, 226, 1000, 3374, 3375, 50_625, 1 << 32, 1 << 63, u64::MAX]
    {
        for attempt in [0, 1, 2, 3, 4, 5, 6, 255] {
            calls.push(wait_call(serial, attempt));
        }
    }
}

fn random_wait(random: &mut Random) -> Call {
    let serial = random.next() >> random.below(64);
    wait_call(serial, random.below(6) as u8)
}

// ---- Fronius values ----

fn value_call(signed: bool, payload: &[u8]) -> Call {
    op(0x41).b(u8::from(signed)).list(payload).from("measured value")
}

fn reading_call(device: u8, command: u8, payload: &[u8]) -> Call {
    op(0x42).b(device).b(command).list(payload).from("reading")
}

const VALUES: [[u8; 2]; 8] = [
    [0, 0],
    [0, 1],
    [0x04, 0xD2],
    [0x7F, 0xFF],
    [0x80, 0x00],
    [0x80, 0x01],
    [0xFF, 0xFE],
    [0xFF, 0xFF],
];

fn value_sweep(random: &mut Random, calls: &mut Vec<Call>) {
    for exponent in 0..=255 {
        let [high, low] = random.pick(&VALUES);
        for signed in [false, true] {
            calls.push(value_call(signed, &[high, low, exponent]));
        }
        calls.push(reading_call(1, 0x10, &[high, low, exponent]));
    }
    for exponent in [0xFD, 0xFE, 0xFF, 0, 1, 9, 10] {
        for [high, low] in VALUES {
            calls.push(value_call(false, &[high, low, exponent]));
            calls.push(value_call(true, &[high, low, exponent]));
            calls.push(reading_call(1, 0x12, &[high, low, exponent]));
        }
    }
    for command in 0..=255 {
        calls.push(reading_call(1, command, &[0x04, 0xD2, 0xFE]));
        calls.push(reading_call(1, command, &[0x04, 0xD2, random.pick(&[0x0B, 0xFC])]));
    }
    for device in [0, 1, 2, 3, 255] {
        for length in [0, 1, 2, 3, 4, 255] {
            calls.push(reading_call(device, 0x10, &vec![0x0B; length]));
            calls.push(value_call(device == 1, &vec![0xFC; length]));
        }
    }
}

fn random_value(random: &mut Random) -> Call {
    let length = random.pick(&[3, 3, 3, 3, 3, 3, 2, 4, 0]);
    let mut payload = random.bytes(length);
    if length == 3 && !random.one_in(8) {
        payload[2] = random.pick(&[0xFC, 0xFD, 0xFE, 0xFF, 0, 1, 2, 3, 4, 5, 6, 7, 8, 9, 10, 11]);
    }
    if random.one_in(3) {
        return value_call(random.one_in(2), &payload);
    }
    let device = random.pick(&[1, 1, 1, 1, 1, 0, 2]);
    reading_call(device, random.between(0x0F, 0x2F) as u8, &payload)
}

// ---- roster ----

const PLACES: usize = 254;
const PLACE_BYTES: usize = 17;

/// What is wrong with a roster.
#[derive(Clone, Copy)]
enum Spoil {
    Nothing,
    Size(isize),
    Mark(u8),
    FreePlace,
    SharedSerial,
}

const SPOILS: [Spoil; 14] = [
    Spoil::Size(1),
    Spoil::Size(-1),
    Spoil::Size(16),
    Spoil::Size(17),
    Spoil::Size(18),
    Spoil::Size(-17),
    Spoil::Size(-4318),
    Spoil::Size(-4301),
    Spoil::Mark(2),
    Spoil::Mark(0x81),
    Spoil::Mark(0xFF),
    Spoil::FreePlace,
    Spoil::SharedSerial,
    Spoil::SharedSerial,
];

/// A roster with `used` places, anywhere or from the front; one may have the all-zero serial.
fn roster(random: &mut Random, used: usize) -> Vec<u8> {
    let mut roster = vec![0; PLACES * PLACE_BYTES];
    let mut places: Vec<usize> = (0..PLACES).collect();
    if !random.one_in(3) {
        shuffle(&mut places, random);
    }
    let first_number = random.between(0, 1) as u16;
    let anywhere = random.below(15);
    for (order, place) in places.into_iter().take(used).enumerate() {
        let begin = place * PLACE_BYTES;
        roster[begin] = 1;
        let number = (first_number + order as u16).to_be_bytes();
        roster[begin + 1 + anywhere..begin + 3 + anywhere].copy_from_slice(&number);
    }
    roster
}

fn shuffle(places: &mut [usize], random: &mut Random) {
    for last in (1..places.len()).rev() {
        places.swap(last, random.between(0, last));
    }
}

fn spoil(roster: &mut Vec<u8>, spoil: Spoil, random: &mut Random) {
    let place = random.pick(&[0, 1, 100, 252, 253]) * PLACE_BYTES;
    match spoil {
        Spoil::Nothing => {}
        Spoil::Size(by) => {
            let size = (roster.len() as isize + by) as usize;
            let filling = random.pick(&[0, 1]);
            roster.resize(size, filling);
        }
        Spoil::Mark(mark) => roster[place] = mark,
        Spoil::FreePlace => {
            roster[place] = 0;
            roster[place + random.pick(&[1, 2, 9, 15, 16])] = random.pick(&[1, 0x80, 0xFF]);
        }
        Spoil::SharedSerial => {
            let other = random.pick(&[0, 1, 2, 101, 252, 253].map(|other| other * PLACE_BYTES));
            let shared = if random.one_in(3) { vec![0; 16] } else { random.bytes(16) };
            for begin in [place, other] {
                roster[begin] = 1;
                roster[begin + 1..begin + PLACE_BYTES].copy_from_slice(&shared);
            }
        }
    }
}

const ROSTERS: [&str; 6] = [
    "roster over bytes, give",
    "roster over bytes, remove",
    "roster over bytes, find",
    "roster over structs, give",
    "roster over structs, remove",
    "roster over structs, find",
];

fn roster_call(which: usize, roster: &[u8], serial: &[u8], address: u8) -> Call {
    let making = op(0x51 + which as u8).list(roster);
    let making = if which % 3 == 1 { making.b(address) } else { making.list(serial) };
    making.from(ROSTERS[which])
}

/// A serial of a place (used or not), a new one, the all-zero one, or one of another length.
fn serial_for(roster: &[u8], random: &mut Random) -> Vec<u8> {
    let place = random.below(PLACES) * PLACE_BYTES;
    match random.below(10) {
        0 => vec![0; 16],
        1 => {
            let length = random.pick(&[0, 1, 15, 17, 32]);
            random.content(length)
        }
        2 | 3 => random.bytes(16),
        4 => {
            let mut nearly = used_serial(roster, random);
            nearly[random.pick(&[0, 8, 15])] ^= 1;
            nearly
        }
        5 => roster.get(place + 1..place + PLACE_BYTES).map_or(vec![1; 16], <[u8]>::to_vec),
        _ => used_serial(roster, random),
    }
}

/// The serial of a used place, if there is one.
fn used_serial(roster: &[u8], random: &mut Random) -> Vec<u8> {
    let used: Vec<&[u8]> = roster.chunks_exact(PLACE_BYTES).filter(|place| place[0] == 1).collect();
    match used.len() {
        0 => vec![7; 16],
        count => {
            let anywhere = random.below(count);
            used[random.pick(&[0, count - 1, anywhere])][1..].to_vec()
        }
    }
}

fn address_for(random: &mut Random) -> u8 {
    match random.below(3) {
        0 => random.pick(&[0, 1, 2, 253, 254, 255]),
        _ => random.byte(),
    }
}

fn random_roster(random: &mut Random, kind: Spoil) -> Call {
    let used = match random.below(4) {
        0 => random.pick(&[0, 1, 2]),
        1 => random.pick(&[252, 253]),
        2 => 254,
        _ => random.between(0, 254),
    };
    let mut roster = roster(random, used);
    spoil(&mut roster, kind, random);
    let serial = serial_for(&roster, random);
    roster_call(random.below(6), &roster, &serial, address_for(random))
}

fn roster_sweep(random: &mut Random, calls: &mut Vec<Call>) {
    for kind in SPOILS {
        for _ in 0..24 {
            calls.push(random_roster(random, kind));
        }
    }
    for place in [0, 127, 253] {
        for byte in 1..PLACE_BYTES {
            let mut roster = roster(random, 200);
            let begin = place * PLACE_BYTES;
            roster[begin..begin + PLACE_BYTES].fill(0);
            roster[begin + byte] = random.pick(&[1, 0x80]);
            let serial = used_serial(&roster, random);
            calls.push(roster_call(random.below(6), &roster, &serial, random.byte()));
        }
    }
    for hole in [0, 1, 126, 252, 253] {
        let mut roster = roster(random, PLACES);
        roster[hole * PLACE_BYTES..(hole + 1) * PLACE_BYTES].fill(0);
        for which in 0..6 {
            calls.push(roster_call(which, &roster, &random.bytes(16), hole as u8 + 1));
            let known = used_serial(&roster, random);
            calls.push(roster_call(which, &roster, &known, hole as u8 + 2));
        }
    }
    for used in [0, 1, 253, 254] {
        let roster = roster(random, used);
        for which in 0..6 {
            for _ in 0..6 {
                let serial = serial_for(&roster, random);
                calls.push(roster_call(which, &roster, &serial, address_for(random)));
            }
        }
    }
}

// ---- packet ----

fn packet_call(bytes: &[u8]) -> Call {
    op(0x61).list(bytes).from("packet reader")
}

fn packet_write_call(port: u8, piece: &[u8], lent: &[u8]) -> Call {
    op(0x62).b(port).list(piece).list(lent).from("packet writer")
}

/// A packet of 27 bytes, wrong where a bit of `wrong` says so: mark, version, port, count.
pub fn lead_with(wrong: u8, random: &mut Random) -> Vec<u8> {
    let mut packet = packet::packet(random.between(1, 4) as u8, &random.bytes(20));
    for (bit, position, value) in [(0, 2, b'S'), (1, 4, 3), (2, 5, 5), (3, 6, 241)] {
        if wrong >> bit & 1 == 1 {
            packet[position] = value;
        }
    }
    packet
}

/// Leads of every version about the known ones with every port about the four, and with counts
/// about their limits.
pub fn versions_and_ports() -> Vec<Vec<u8>> {
    let mut leads = Vec::new();
    for version in
        [[0, 0], [0, 1], [0, 2], [0, 3], [0, 4], [1, 0], [1, 1], [2, 0], [2, 2], [255, 2]]
    {
        for port in [0, 1, 2, 3, 4, 5, 6, 0x40, 255] {
            for count in [0, 1, 240, 241] {
                leads.push([b"SBR", &version[..], &[port, count]].concat());
            }
        }
    }
    leads
}

fn packet_sweep(random: &mut Random, calls: &mut Vec<Call>) {
    let whole = packet::packet(2, &random.bytes(3));
    for length in 0..=whole.len() {
        calls.push(packet_call(&whole[..length]));
    }
    for position in 0..7 {
        for value in [0, 1, 2, 3, 4, 5, 0x42, 0x52, 0x53, 240, 241, 255] {
            for length in [6, 7, 8, 10, 247, 300] {
                let port = random.pick(&[1, 4]);
                let mut packet = [packet::packet(port, &[9]), vec![9; 300]].concat();
                packet[position] = value;
                calls.push(packet_call(&packet[..length]));
            }
        }
    }
    for lead in versions_and_ports() {
        for length in [7, 8, 300] {
            let packet = [&lead[..], &[9; 300]].concat();
            calls.push(packet_call(&packet[..length]));
        }
    }
    for wrong in 0..16 {
        for length in [6, 7, 26, 27] {
            calls.push(packet_call(&lead_with(wrong, random)[..length]));
        }
    }
    for port in [0, 1, 2, 3, 4, 5, 255] {
        for length in [0, 1, 2, 239, 240, 241, 255, 256, 257, 300] {
            for room in [0, length + 6, length + 7, length + 8] {
                let (piece, lent) = (random.content(length), random.bytes(room));
                calls.push(packet_write_call(port, &piece, &lent));
            }
        }
    }
}

fn random_packet(random: &mut Random) -> Call {
    let length = random.pick(&[1, 2, 3, 50, 239, 240]);
    let piece = random.content(length);
    if random.one_in(3) {
        let room = length + random.pick(&[0, 6, 7, 8, 100]);
        return packet_write_call(random.below(6) as u8, &piece, &random.bytes(room));
    }
    let mut packet = packet::packet(random.between(1, 4) as u8, &piece);
    for _ in 0..random.below(3) {
        streams::spoil_a_lead(&mut packet, random);
    }
    match random.below(3) {
        0 => packet.truncate(random.between(0, packet.len())),
        1 => packet.extend(random.specials(5)),
        _ => {}
    }
    packet_call(&packet)
}

fn fresh_calls(calls: &mut Vec<Call>) {
    for fresh in [0x04, 0x05, 0x06, 0x0B, 0x86, 0x88] {
        calls.push(op(fresh).from("fresh state"));
    }
}

// ---- all of them ----

/// Every limit once, from both sides.
pub fn sweeps(random: &mut Random) -> Vec<Call> {
    let mut calls = Vec::new();
    fresh_calls(&mut calls);
    stretch_matrix(random, &mut calls);
    lost_sweep(random, &mut calls);
    for family in FAMILIES {
        calls.extend(grid_calls(family, random));
        reader_lent_lengths(family, random, &mut calls);
    }
    for family in [Family::ComLynx, Family::Eversolar, Family::Fronius] {
        writer_sweep(family, random, &mut calls);
    }
    drives_sweep(random, &mut calls);
    in_place_sweep(random, &mut calls);
    meaning_sweep(random, &mut calls);
    address_sweep(random, &mut calls);
    request_sweep(random, &mut calls);
    energy_sweep(random, &mut calls);
    wait_sweep(&mut calls);
    value_sweep(random, &mut calls);
    roster_sweep(random, &mut calls);
    packet_sweep(random, &mut calls);
    checksum_sweep(random, &mut calls);
    word_sweep(random, &mut calls);
    line_sweep(random, &mut calls);
    port_sweep(random, &mut calls);
    listing_sweep(random, &mut calls);
    calls
}

/// At least `count` random calls of every kind, mostly readers.
pub fn random_calls(random: &mut Random, count: usize) -> Vec<Call> {
    let mut calls = Vec::new();
    while calls.len() < count {
        let family = random.pick(&FAMILIES);
        match random.below(43) {
            0 => {
                let longest = if family == Family::Drives { frame_chain } else { stretch_chain };
                let chains = [reader_chain, reader_chain, in_place_chain, longest];
                let chain = random.pick(&chains);
                chain(family, random, &mut calls);
            }
            1..=9 => calls.push(forged_call(family, random)),
            10..=13 => calls.push(random_writer(family, random)),
            14 => calls.push(random_meaning(random)),
            15 => calls.push(random_address(random)),
            16 | 17 => calls.push(random_request(random)),
            18 => calls.push(random_energy(random)),
            19 => calls.push(random_wait(random)),
            20 | 21 => calls.push(random_value(random)),
            22..=24 => calls.push(random_roster(random, Spoil::Nothing)),
            25 => {
                let kind = random.pick(&SPOILS);
                calls.push(random_roster(random, kind));
            }
            26 | 27 => calls.push(random_packet(random)),
            28 => fresh_calls(&mut calls),
            29 => calls.push(random_word(random)),
            30 | 31 => calls.push(random_line(random)),
            32 | 33 => calls.push(random_port(random)),
            34 | 35 => calls.push(random_listing(random)),
            36 => {
                let chain = random.pick(&[port_chain, listing_chain]);
                chain(random, &mut calls);
            }
            37 | 38 => calls.push(random_in_place(family, random)),
            39 => calls.push(random_reply(random)),
            _ => calls.extend(random_checksum(random)),
        }
    }
    calls
}

/// A random call of one of the programs.
fn call_of(program: usize, random: &mut Random) -> Vec<u8> {
    if program == SLICES {
        let mut calls = few_calls(random);
        return calls.swap_remove(random.below(calls.len())).bytes;
    }
    loop {
        let call = random_calls(random, 1).remove(0);
        if call.program() == program {
            return call.bytes;
        }
    }
}

/// A call of one of the programs with more bytes than a list may have.
fn too_long_a_list(program: usize, random: &mut Random) -> Vec<u8> {
    match program {
        0 => too_many_held(random).bytes,
        1 => {
            let length = random.pick(&[16_385, 16_386, 32_768, 65_535]);
            op(0x81).list(&random.bytes(length)).bytes
        }
        SLICES => too_long(random.below(SLICES_TOO_LONG), random).bytes,
        _ => too_long_to_sum(random).bytes,
    }
}

/// What ends a session of one of the programs: an opcode that is not listed, a call of another
/// program, or more bytes than a list may have, and then a call that must get no answer; or a call
/// that is not all there.
pub fn broken_ending(program: usize, random: &mut Random) -> Call {
    let broken = match random.between(0, 3) {
        0 => vec![random.pick(&[
            0x00, 0x0D, 0x10, 0x15, 0x25, 0x30, 0x38, 0x43, 0x50, 0x57, 0x63, 0x70, 0x7A, 0x80,
            0x82, 0x8E, 0x90, 0x97, 0xFF,
        ])],
        1 => call_of((program + random.between(1, 3)) % 4, random),
        2 => too_long_a_list(program, random),
        _ => {
            let mut whole = call_of(program, random);
            whole.truncate(random.between(0, whole.len() - 1));
            return ending(program, whole);
        }
    };
    ending(program, [broken, call_of(program, random)].concat())
}
