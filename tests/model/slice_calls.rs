//! Slices and what is asked of them (document 02, Req 10): telling ones written out, ones about each
//! limit, long ones and random ones, asked from every place or from some, and asked on and on.

use crate::calls::{ending, op, Call, Making};
use crate::known::bytes;
use crate::random::Random;
use crate::storms::left_open;
use crate::streams::{self, Family, FAMILIES};
use crate::SLICES;
use right::{comlynx, drives, number, slices};
use std::ops::Range;

/// What a call asks, and how many bytes are lent to it.
#[derive(Clone, Copy)]
pub enum Ask {
    Next { family: Family, place: u64, lent: usize },
    Stretch { lent: usize },
}

/// A slice and what is asked of it.
pub struct Asked {
    pub slice: Vec<u8>,
    /// The first sets the slice, but for the slice that is never set.
    pub calls: Vec<Call>,
    /// What the calls ask that do not set the slice.
    pub asks: Vec<Ask>,
    /// Which of them ask on and on: from 0, and then from each place given until nothing is found.
    pub on_and_on: Vec<(Family, Range<usize>)>,
    generator: &'static str,
}

/// What is lent at least.
pub const ENOUGH: usize = 255;

/// Places past the end of every slice but the longest. Some are small where their high bits are cut
/// off.
const FAR: [u64; 7] = [65_536, 65_537, 1 << 32, (1 << 32) + 1, 1 << 63, u64::MAX - 1, u64::MAX];

fn op_of(family: Family) -> u8 {
    match family {
        Family::ComLynx => 0x92,
        Family::Eversolar => 0x93,
        Family::Fronius => 0x94,
        Family::Drives => 0x95,
    }
}

/// Mostly as few as may be lent, at times too few or more.
fn lent_length(random: &mut Random) -> usize {
    match random.below(12) {
        0 => random.pick(&[0, 254]),
        1 => random.pick(&[256, 300]),
        _ => ENOUGH,
    }
}

/// The call that sets a slice.
fn setting(slice: &[u8]) -> Making {
    op(0x91).d(slice.len() as u32).raw(slice)
}

/// The number and the place that the right model gives.
fn next_of(family: Family, slice: &[u8], place: u64) -> (u8, usize) {
    let mut lent = [0; ENOUGH];
    match family {
        Family::ComLynx => number_and_place(slices::comlynx(slice, place, &mut lent)),
        Family::Eversolar => number_and_place(slices::eversolar(slice, place, &mut lent)),
        Family::Fronius => number_and_place(slices::fronius(slice, place, &mut lent)),
        Family::Drives => number_and_place(slices::drives(slice, place, &mut lent)),
    }
}

fn number_and_place<M>(found: slices::Found<M>) -> (u8, usize) {
    (found.number, found.place)
}

impl Asked {
    /// The empty slice that there is before the first one is set.
    fn never_set(generator: &'static str) -> Asked {
        Asked { slice: vec![], calls: vec![], asks: vec![], on_and_on: vec![], generator }
    }

    fn of(generator: &'static str, slice: Vec<u8>) -> Asked {
        let calls = vec![setting(&slice).from(generator)];
        Asked { slice, calls, ..Asked::never_set(generator) }
    }

    fn ask(&mut self, family: Family, place: u64, lent: usize, random: &mut Random) {
        let making = op(op_of(family)).q(place).list(&random.bytes(lent));
        self.calls.push(making.from(self.generator));
        self.asks.push(Ask::Next { family, place, lent });
    }

    fn as_a_stretch(&mut self, lent: usize, random: &mut Random) {
        self.calls.push(op(0x96).list(&random.bytes(lent)).from(self.generator));
        self.asks.push(Ask::Stretch { lent });
    }

    /// From 0 to one past the end, and from far behind it.
    fn from_every_place(mut self, family: Family, random: &mut Random) -> Asked {
        for place in 0..=self.slice.len() as u64 + 1 {
            let lent = lent_length(random);
            self.ask(family, place, lent, random);
        }
        let (far, lent) = (random.pick(&FAR), lent_length(random));
        self.ask(family, far, lent, random);
        self.ask(family, u64::MAX, ENOUGH, random);
        self
    }

    /// From the first places, the middle and the last, and from one past the end.
    fn from_some_places(mut self, family: Family, random: &mut Random) -> Asked {
        let length = self.slice.len();
        let mut places = vec![0, 1, 2, length / 2, length.saturating_sub(2)];
        places.extend([length.saturating_sub(1), length, length + 1]);
        for place in places {
            let lent = random.pick(&[ENOUGH, ENOUGH, ENOUGH, 256, 300]);
            self.ask(family, place as u64, lent, random);
        }
        self
    }

    /// From 0 and then from each place given, until nothing is found.
    fn on_and_on(mut self, family: Family, random: &mut Random) -> Asked {
        let first = self.asks.len();
        self.goes_on(family, 0, random);
        self.on_and_on.push((family, first..self.asks.len()));
        self
    }

    fn goes_on(&mut self, family: Family, from: usize, random: &mut Random) {
        let mut place = from as u64;
        loop {
            self.ask(family, place, ENOUGH, random);
            let (number, next) = next_of(family, &self.slice, place);
            if number == number::DONE {
                break;
            }
            place = next as u64;
        }
    }
}

// ---- slices that are written out ----

const P1: &str = "7E FF 03 00 02 11 FF 00 15 79 91 7E";
/// The body of P1, and its last flag, which another flag stands before.
const P1_GOING_ON: &str = "FF 03 00 02 11 FF 00 15 79 91 7E";
const STUFFED: &str = "7E FF 03 00 02 7D 5D 7D 5E 00 15 99 C9 7E";
const P3: &str = "AA 55 01 00 00 00 10 00 00 01 10";
const P3_LOW_BYTE_FIRST: &str = "AA 55 01 00 00 00 10 00 00 10 01";
const P4: &str = "80 80 80 00 00 00 01 01";
const P5: &str = "80 80 80 03 01 01 10 04 D2 00 EB";
const D1: &str = "05 30 31 52 33 30 30 30 31 41 37 04";

/// Flags alone, frames that share a flag and that do not, a 7D before a flag, pairs and broken
/// pairs, and one thing wrong in P1.
const TELLING_OF_COMLYNX: [&[&str]; 31] = [
    &["7E"],
    &["7D"],
    &["7E 7E"],
    &["7E 7E 7E"],
    &["7E 7E 7E 7E 41 7E 7E"],
    &["41 7E 41"],
    &["41 42 43"],
    &["7E 41 7E 42 7E"],
    &["7E 41 7D 7E"],
    &["7E 7D 7E 41 7E"],
    &["7D 7E 7D 7E 7D"],
    &["7E 7D 5E 7E 7D 5D 7E"],
    &["7E 7D 7D 5E 7E"],
    &["7E 7D 7D 7E"],
    &["7E 7D 5E 5E 7D 5D 5D 7E"],
    &["5E 7E 5D 7E 7D 7E 5E 7E"],
    &[P1],
    &[P1, P1],
    &[P1, P1_GOING_ON],
    &[P1, P1_GOING_ON, "7E 7E", P1],
    &["00 5E", P1, "00"],
    &["7E 41", P1],
    &["7E 41 7D", P1],
    &[STUFFED, P1_GOING_ON],
    &["7E FF 03 00 02 11 FF 00 15 79 7D", P1],
    &["7E FE 03 00 02 11 FF 00 15 79 91 7E", P1_GOING_ON],
    &["7E FF 02 00 02 11 FF 00 15 79 91 7E", P1_GOING_ON],
    &["7E FF 03 00 02 11 FF 01 15 79 91 7E", P1_GOING_ON],
    &["7E FF 03 00 02 11 FF 00 15 79 90 7E", P1_GOING_ON],
    &["7E FF 03 00 02 11 FF 00 15 79 91 00 7E"],
    &["7E FF 03 00 02 11 FF 00 15 79 7E 41"],
];

/// AA before a header and in it, a header alone, one inside a frame with a wrong sum or a right one,
/// and a frame that promises more than there is.
const TELLING_OF_EVERSOLAR: [&[&str]; 20] = [
    &["AA"],
    &["55"],
    &["AA 55"],
    &["55 AA"],
    &["AA AA 55"],
    &["AA 00 55"],
    &[P3],
    &["AA", P3],
    &["AA AA", P3],
    &["AA 55", P3],
    &["AA 55 AA", P3, P3],
    &[P3, P3],
    &[P3, "55", P3],
    &[P3_LOW_BYTE_FIRST, P3],
    &["AA 55 01 00 00 00 10 00 0B", P3, "00 00"],
    &["AA 55 01 00 00 00 10 00 0B", P3, "02 3C"],
    &["AA 55 01 00 00 00 10 00 05", P3, "00"],
    &["AA 55 01 00 00 00 10 00 20", P3, P3],
    &["AA 55 01 00 00 00 10 00 01 F1 02 02"],
    &["AA 55 01 00 00 00 10 00 00 01 AA 55", P3],
];

/// Too few 80 and too many, wrong lengths, an 80 where the sum is, a start inside a frame with a
/// wrong sum, and a frame that promises more than there is.
const TELLING_OF_FRONIUS: [&[&str]; 22] = [
    &["80"],
    &["80 80"],
    &["80 80 80"],
    &["80 80 80 80 80"],
    &["80 80 80 81"],
    &["80 80 80 FF 80 80 80 81"],
    &["80 80 80 80 80 81 80"],
    &["80 80 81 80 80 80 00"],
    &[P4],
    &["80", P4],
    &["80 80", P4],
    &[P4, P4],
    &[P5, P4],
    &["80 80 00", P4],
    &["80 80 80 00 00 00 80 80", P4],
    &["80 80 80 00 00 00 01 80", P4],
    &["80 80 80 00 00 00 01 02", P4],
    &["80 80 80 08 01 01 10", P4, "00"],
    &["80 80 80 08 01 01 10", P4, "9C"],
    &["80 80 80 05 01 01 10", P4],
    &["80 80 80 7F", P4, P4],
    &["80 80 80 81", P4],
];

/// An EOT with no opening byte, an opening byte inside a frame, frames too short, and one thing
/// wrong in D1.
const TELLING_OF_DRIVES: [&[&str]; 20] = [
    &["04"],
    &["05"],
    &["05 04"],
    &["04 05"],
    &["04 04 30 04"],
    &["05 05 04 06 04 15 04"],
    &["05 30 31 52 04"],
    &["05 30 31 52 42 33 04"],
    &[D1],
    &["04", D1],
    &["05", D1],
    &["06", D1, D1],
    &[D1, D1],
    &[D1, "30 31 04", D1],
    &["05 30 31 52 33 15 30 30 31 41 37 04", D1],
    &["05 30 31 72 33 30 30 30 31 43 37 04"],
    &["05 30 31 52 33 30 30 30 31 61 37 04"],
    &["05 30 31 52 33 30 30 30 31 41 38 04", D1],
    &["15 30 31 52 33 30 30 30 31 41 37 04"],
    &["07 30 31 52 33 30 30 30 31 41 37 04"],
];

fn telling(family: Family) -> &'static [&'static [&'static str]] {
    match family {
        Family::ComLynx => &TELLING_OF_COMLYNX,
        Family::Eversolar => &TELLING_OF_EVERSOLAR,
        Family::Fronius => &TELLING_OF_FRONIUS,
        Family::Drives => &TELLING_OF_DRIVES,
    }
}

const TELLING: &str = "slices that tell something, from every place";
const CUT: &str = "slices with a frame cut off";

/// Each from every place and on and on; and a frame without its last byte, without its last two and
/// so on.
fn telling_slices(family: Family, random: &mut Random) -> Vec<Asked> {
    let mut asked = Vec::new();
    for parts in telling(family) {
        let slice = bytes(&parts.join(" "));
        let every = Asked::of(TELLING, slice).from_every_place(family, random);
        asked.push(every.on_and_on(family, random));
    }
    let length = random.between(0, 6);
    let payload = random.content(length);
    let frame = streams::frame_with(family, random, payload);
    for cut in 0..=frame.len() {
        let slice = Asked::of(CUT, frame[..cut].to_vec()).from_some_places(family, random);
        asked.push(slice.on_and_on(family, random));
    }
    asked
}

// ---- limits of a stretch or a frame ----

const STRETCHES: &str = "slices of stretches with several things wrong, on and on";
const LAST_PAIRS: &str = "slices with a stretch of a telling length that ends with a pair";
const LONGEST_PAYLOAD: &str = "slices with a frame of the longest payload, whole or not";
const LENGTHS: &str = "slices of drives' frames of telling lengths, on and on";

/// Stretches with every choice of wrong pair, beginning, size and checksum, of every telling
/// length, without their flags.
fn stretches(random: &mut Random) -> Vec<Vec<u8>> {
    let mut stretches = Vec::new();
    for length in [1, 2, 9, 10, 11, 30, 264, 265, 266, 267] {
        for wrong in 0..16 {
            let stretch = streams::stretch_with(random, length, wrong);
            stretches.push(stretch[1..stretch.len() - 1].to_vec());
        }
    }
    stretches
}

/// So many unstuffed bytes of which the last is a pair, right or broken.
fn ending_with_a_pair() -> Vec<Vec<u8>> {
    let mut stretches = Vec::new();
    for length in [1, 9, 10, 11, 264, 265, 266, 267] {
        for pair in [&[0x7D, 0x5E][..], &[0x7D, 0x5D], &[0x7D, 0x00], &[0x7D, 0x7D], &[0x7D]] {
            stretches.push([&vec![0x00; length - 1], pair].concat());
        }
    }
    stretches
}

fn between_flags(stretch: &[u8]) -> Vec<u8> {
    [&[comlynx::FLAG], stretch, &[comlynx::FLAG]].concat()
}

/// Many stretches in one slice, which share their flags now and then.
fn limits_of_stretches(random: &mut Random) -> Vec<Asked> {
    let mut asked = Vec::new();
    for some in stretches(random).chunks(40) {
        let mut slice = Vec::new();
        for stretch in some {
            slice.extend(between_flags(stretch));
            if random.one_in(2) {
                slice.pop();
            }
        }
        slice.push(comlynx::FLAG);
        asked.push(Asked::of(STRETCHES, slice).on_and_on(Family::ComLynx, random));
    }
    for stretch in ending_with_a_pair() {
        let slice = between_flags(&stretch);
        asked.push(Asked::of(LAST_PAIRS, slice).from_some_places(Family::ComLynx, random));
    }
    asked
}

/// A frame of the longest payload, right or with a wrong last byte, without its last byte, and
/// with more behind it.
fn limits_of_a_frame(family: Family, random: &mut Random) -> Vec<Asked> {
    let mut asked = Vec::new();
    for payload in [vec![0xFF; family.most_payload()], random.content(family.most_payload())] {
        let frame = streams::frame_with(family, random, payload);
        let (mut wrong, last) = (frame.clone(), frame.len() - 1);
        wrong[last] ^= 1;
        let further = [&frame[..], &streams::frame_with(family, random, vec![])].concat();
        for slice in [frame[..last].to_vec(), frame, wrong, further] {
            asked.push(Asked::of(LONGEST_PAYLOAD, slice).from_some_places(family, random));
        }
    }
    asked
}

/// Frames of every telling length with every opening byte: right, with a wrong character, with a
/// wrong sum, and with both.
fn lengths_of_drives(random: &mut Random) -> Vec<Asked> {
    let mut asked = Vec::new();
    for opening in streams::OPENINGS {
        let mut slice = Vec::new();
        for length in [2, 3, 6, 7, 8, 38, 39, 40, 43, 44, 45, 46] {
            for wrong in 0..4 {
                slice.extend(streams::drives_frame_with(random, opening, length, wrong));
            }
        }
        asked.push(Asked::of(LENGTHS, slice).on_and_on(Family::Drives, random));
    }
    asked
}

// ---- refusals ----

const NEVER_SET: &str = "the slice that is never set";
const REFUSALS: &str = "slices, refusals together";

/// A slice of `length` bytes that has a frame at its front, where there is room for one.
fn with_a_frame_in_front(family: Family, length: usize) -> Vec<u8> {
    let frame = match family {
        Family::ComLynx => P1,
        Family::Eversolar => P3,
        Family::Fronius => P5,
        Family::Drives => D1,
    };
    let mut slice = bytes(frame);
    slice.resize(length, 0x00);
    slice
}

/// What is asked before a slice is set; then slices on both sides of every limit, from places on
/// both sides of theirs, with too little lent and with enough, each with each.
fn refusals(random: &mut Random) -> Vec<Asked> {
    let mut never_set = Asked::never_set(NEVER_SET);
    for family in FAMILIES {
        for place in [0, 1, u64::MAX] {
            for lent in [0, 254, ENOUGH] {
                never_set.ask(family, place, lent, random);
            }
        }
    }
    never_set.as_a_stretch(254, random);
    never_set.as_a_stretch(ENOUGH, random);
    let mut asked = vec![never_set];
    for family in FAMILIES {
        for length in [0, 1, 12, 65_535, 65_536, 65_537] {
            let mut refused = Asked::of(REFUSALS, with_a_frame_in_front(family, length));
            let near = [0, 1, length.saturating_sub(1), length, length + 1, 65_538];
            let near = near.into_iter().map(|place| place as u64);
            for place in near.chain(FAR).chain([(1 << 32) + length as u64]) {
                for lent in [0, 254, ENOUGH, 256, 300] {
                    refused.ask(family, place, lent, random);
                }
            }
            refused.ask(family, 0, 16_384, random);
            asked.push(refused);
        }
    }
    asked
}

// ---- long slices ----

/// "slices of up to 64 KiB".
const LONGEST: usize = 65_536;

const OF_ONE_BYTE: &str = "long slices of one byte";
const LONG_STREAMS: &str = "long slices, on and on";
const AT_THE_END: &str = "long slices with a frame at their end, whole or cut off";
const LONGEST_FRAMES: &str = "long slices that are one stretch or one frame";
const DENSE: &str = "long slices of short frames, on and on near their end";

/// 64 KiB of one byte, asked by every family, and judged as one stretch.
fn of_one_byte(random: &mut Random) -> Vec<Asked> {
    let mut asked = Vec::new();
    for byte in [0x7E, 0x7D, 0x5E, 0xAA, 0x55, 0x80, 0x81, 0x05, 0x04, 0x00] {
        let mut slice = Asked::of(OF_ONE_BYTE, vec![byte; LONGEST]);
        for family in FAMILIES {
            slice = slice.from_some_places(family, random);
        }
        slice.as_a_stretch(ENOUGH, random);
        asked.push(slice);
    }
    asked
}

fn long_streams(family: Family, random: &mut Random) -> Vec<Asked> {
    let mut asked = Vec::new();
    for length in [LONGEST - 1, LONGEST] {
        let mut slice = streams::stream(family, random, length);
        slice.truncate(length);
        let slice = Asked::of(LONG_STREAMS, slice).from_some_places(family, random);
        asked.push(slice.on_and_on(family, random));
    }
    asked
}

/// Zeros and then a frame, or a frame without its last byte; asked from about its front too.
fn at_the_end(family: Family, random: &mut Random) -> Vec<Asked> {
    let mut asked = Vec::new();
    for length in [LONGEST - 1, LONGEST] {
        for missing in [0, 1] {
            let mut frame = streams::frame(family, random);
            frame.truncate(frame.len() - missing);
            let begin = length - frame.len();
            let slice = [vec![0x00; begin], frame].concat();
            let mut slice = Asked::of(AT_THE_END, slice).from_some_places(family, random);
            for place in [begin - 1, begin, begin + 1] {
                slice.ask(family, place as u64, ENOUGH, random);
            }
            asked.push(slice.on_and_on(family, random));
        }
    }
    asked
}

/// All of a slice, or all but a byte before it, is one stretch or one frame of drives: of more bytes
/// than can be told, or of as many.
fn longest_frames(random: &mut Random) -> Vec<Asked> {
    let mut asked = Vec::new();
    for before in [0, 1] {
        let count = LONGEST - 2 - before;
        let mut pairs = streams::pair(random).repeat(LONGEST / 2);
        pairs.truncate(count);
        let broken_first = [&[0x7D, 0x00][..], &vec![0x41; count - 2]].concat();
        for stretch in [vec![0x00; count], pairs, broken_first] {
            let slice = [vec![0x41; before], between_flags(&stretch)].concat();
            asked.push(one_frame(Family::ComLynx, slice, random));
        }
        for opening in streams::OPENINGS {
            let characters = vec![b'0'; count];
            let frame = [&[opening], &characters[..], &[drives::EOT]].concat();
            asked.push(one_frame(Family::Drives, [vec![0x41; before], frame].concat(), random));
        }
    }
    asked
}

fn one_frame(family: Family, slice: Vec<u8>, random: &mut Random) -> Asked {
    let asked = Asked::of(LONGEST_FRAMES, slice).from_some_places(family, random);
    asked.on_and_on(family, random)
}

/// As many answers as a slice can have; the last of them are asked for one by one.
fn dense(random: &mut Random) -> Vec<Asked> {
    let mut asked = Vec::new();
    for (family, short) in [
        (Family::ComLynx, "7E 00"),
        (Family::Eversolar, "AA 55 00 00 00 00 00 00 00 00 FF"),
        (Family::Fronius, "80 80 80 81"),
        (Family::Drives, "05 04"),
    ] {
        let slice = bytes(short).into_iter().cycle().take(LONGEST).collect();
        let mut slice = Asked::of(DENSE, slice).from_some_places(family, random);
        for from in [LONGEST - 100, LONGEST - 99] {
            slice.goes_on(family, from, random);
        }
        asked.push(slice);
    }
    asked
}

// ---- one whole stretch ----

const WHOLE: &str = "a slice judged as one stretch";
const FLAGS_INSIDE: &str = "a stretch with flags among its bytes";
const LONG_STRETCHES: &str = "a stretch longer than can be told";

fn judged(generator: &'static str, stretch: Vec<u8>, random: &mut Random) -> Asked {
    let mut asked = Asked::of(generator, stretch);
    asked.as_a_stretch(ENOUGH, random);
    asked
}

fn whole_stretches(random: &mut Random) -> Vec<Asked> {
    let mut asked = Vec::new();
    for lent in [0, 1, 254, ENOUGH, 256, 300, 16_384] {
        for stretch in [&[][..], &[0x00], &bytes(P1)[1..11]] {
            let mut slice = Asked::of(WHOLE, stretch.to_vec());
            slice.as_a_stretch(lent, random);
            asked.push(slice);
        }
    }
    for stretch in [stretches(random), ending_with_a_pair()].concat() {
        asked.push(judged(WHOLE, stretch, random));
    }
    for parts in TELLING_OF_COMLYNX {
        asked.push(judged(FLAGS_INSIDE, bytes(&parts.join(" ")), random));
    }
    for length in [0, 1, 2, 12, 254, 255] {
        let with_flags = with_flags_unstuffed(random, length);
        asked.push(judged(FLAGS_INSIDE, with_flags, random));
    }
    for length in 65_533..=65_537 {
        let mut pairs = streams::pair(random).repeat(40_000);
        pairs.truncate(length);
        let flags = vec![comlynx::FLAG; length];
        for stretch in [vec![0x00; length], pairs, flags] {
            asked.push(judged(LONG_STRETCHES, stretch, random));
        }
    }
    asked
}

/// The body of a message with flags among its payload, of which only the 7D are stuffed: each flag
/// counts as any other byte, so it is read as that message.
fn with_flags_unstuffed(random: &mut Random, length: usize) -> Vec<u8> {
    let some = [comlynx::FLAG, 0x41, comlynx::ESCAPE];
    let payload = (0..length).map(|_| random.pick(&some)).collect();
    let message = comlynx::Message {
        source: random.word(),
        destination: random.word(),
        kind: random.byte(),
        payload,
    };
    let body = comlynx::body(&message);
    let stuffed = |&byte: &u8| match byte {
        comlynx::ESCAPE => vec![comlynx::ESCAPE, comlynx::ESCAPE_STUFFED],
        other => vec![other],
    };
    body.iter().flat_map(stuffed).collect()
}

// ---- random slices ----

const SHORT: &str = "short slices, from every place and on and on";
const MIDDLING: &str = "slices with long frames, from every place and on and on";
const OF_ANOTHER: &str = "slices of another family";
const STRETCH: &str = "random stretches";
const BEFORE_THE_END: &str = "slices before a session ends early";

/// How many bytes a part of a short slice has at most, and a short slice itself.
const MOST_IN_A_PART: usize = 40;
const MOST_IN_A_SHORT_SLICE: usize = 160;
const MOST_IN_A_SLICE: usize = 330;

/// A few parts of a stream, none of them long, cut at an end now and then, or with something left
/// open behind them.
fn short_slice(family: Family, random: &mut Random) -> Vec<u8> {
    let mut slice = Vec::new();
    for _ in 0..random.between(1, 5) {
        let part = short_part(family, random);
        share_a_flag(&mut slice, &part, random);
        slice.extend(part);
    }
    match random.below(6) {
        0 => slice.truncate(random.between(0, slice.len())),
        1 => drop(slice.drain(..random.between(0, slice.len()))),
        2 => slice.extend(left_open(family, random)),
        _ => {}
    }
    slice.truncate(MOST_IN_A_SHORT_SLICE);
    slice
}

fn short_part(family: Family, random: &mut Random) -> Vec<u8> {
    loop {
        let part = streams::stream(family, random, 1);
        if part.len() <= MOST_IN_A_PART {
            return part;
        }
    }
}

/// Where a flag ends the one part and begins the next, one of them may go.
fn share_a_flag(slice: &mut Vec<u8>, part: &[u8], random: &mut Random) {
    let flag = Some(&comlynx::FLAG);
    if slice.last() == flag && part.first() == flag && random.one_in(2) {
        slice.pop();
    }
}

/// Parts of every length, from the middle of one on.
fn middling_slice(family: Family, random: &mut Random) -> Vec<u8> {
    let mut slice = streams::stream(family, random, 200);
    let anywhere = random.between(0, slice.len() / 2);
    let begin = random.pick(&[0, 0, anywhere]);
    slice.drain(..begin);
    slice.truncate(MOST_IN_A_SLICE);
    slice
}

/// Short slices and longer ones of each family, and stretches.
pub fn random_slices(random: &mut Random) -> Vec<Asked> {
    let mut asked = Vec::new();
    for family in FAMILIES {
        for _ in 0..4 {
            let slice = short_slice(family, random);
            asked.push(every_place(SHORT, slice, family, random));
        }
        let slice = middling_slice(family, random);
        asked.push(every_place(MIDDLING, slice, family, random));
        let (other, slice) = (random.pick(&FAMILIES), short_slice(family, random));
        asked.push(Asked::of(OF_ANOTHER, slice).from_some_places(other, random));
    }
    for _ in 0..12 {
        let (mut slice, lent) = (Asked::of(STRETCH, random_stretch(random)), lent_length(random));
        slice.as_a_stretch(lent, random);
        asked.push(slice);
    }
    asked
}

fn every_place(
    generator: &'static str,
    slice: Vec<u8>,
    family: Family,
    random: &mut Random,
) -> Asked {
    let asked = Asked::of(generator, slice).from_every_place(family, random);
    asked.on_and_on(family, random)
}

/// Without its flags, or with flags inside it.
fn random_stretch(random: &mut Random) -> Vec<u8> {
    let stretch = match random.below(6) {
        0 => return short_slice(Family::ComLynx, random),
        1 => {
            let length = random.pick(&[0, 1, 3, 20, 255]);
            return with_flags_unstuffed(random, length);
        }
        2 => streams::frame(Family::ComLynx, random),
        3 => streams::spoilt_frame(Family::ComLynx, random),
        _ => streams::shaped(Family::ComLynx, random),
    };
    stretch.into_iter().filter(|&byte| byte != comlynx::FLAG).collect()
}

/// A slice is set and asked a little, by calls of every kind.
pub fn few_calls(random: &mut Random) -> Vec<Call> {
    let family = random.pick(&FAMILIES);
    let mut asked = Asked::of(BEFORE_THE_END, short_slice(family, random));
    for _ in 0..2 {
        let (place, lent) = (random.below(4) as u64, lent_length(random));
        asked.ask(family, place, lent, random);
    }
    asked.as_a_stretch(ENOUGH, random);
    asked.calls
}

// ---- what ends a session ----

/// How many calls there are that are too long.
pub const SLICES_TOO_LONG: usize = 7;

/// A whole call but for its slice, which is longer than a slice that is set may be, or for what is
/// lent, which is longer than a list may be.
pub fn too_long(which: usize, random: &mut Random) -> Making {
    match which {
        0 => setting(&random.bytes(65_538)),
        1 => setting(&random.bytes(65_539)),
        2 => op(0x96).list(&random.bytes(16_385)),
        _ => op(op_of(FAMILIES[which - 3])).q(0).list(&random.bytes(16_385)),
    }
}

/// What ends the session of a sweep, a way for each: what is too long, an opcode that is not its
/// own, and then a call that must get no answer; or a call that is not all there.
pub fn ending_of_a_sweep(which: usize, random: &mut Random) -> Call {
    let (set, ask) = (setting(&[0x7E; 9]), op(0x92).q(0).list(&random.bytes(ENOUGH)));
    let broken = match which {
        0..SLICES_TOO_LONG => too_long(which, random),
        7 => op(0x90),
        8 => op(0x97),
        9 => op(0x71).list(&[0x41]),
        _ => {
            let mut cut = [&set, &set, &ask, &ask][which - 10].bytes.clone();
            cut.truncate([cut.len() - 1, 4, cut.len() - 1, 8][which - 10]);
            return ending(SLICES, cut);
        }
    };
    ending(SLICES, [broken.bytes, set.bytes, ask.bytes].concat())
}

// ---- all of them ----

/// How many sweeps there are, and ways to end the session of one.
pub const SWEEPS: usize = 14;

/// Every limit once, from both sides.
pub fn sweep(which: usize, random: &mut Random) -> Vec<Asked> {
    let mut asked = Vec::new();
    match which {
        0 => asked.extend(refusals(random)),
        1..=4 => {
            let family = FAMILIES[which - 1];
            asked.extend(telling_slices(family, random));
            asked.extend(limits_of_a_frame(family, random));
        }
        5 => {
            asked.extend(limits_of_stretches(random));
            asked.extend(lengths_of_drives(random));
        }
        6 => asked.extend(whole_stretches(random)),
        7 => asked.extend(of_one_byte(random)),
        8 => {
            asked.extend(longest_frames(random));
            asked.extend(dense(random));
        }
        9 => FAMILIES.iter().for_each(|&family| asked.extend(at_the_end(family, random))),
        _ => asked.extend(long_streams(FAMILIES[which - 10], random)),
    }
    asked
}
