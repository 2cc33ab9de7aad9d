//! Storms: any bytes at all, and then the bytes of a list of written messages, read by calls of a
//! reader and listed by the program. What is asked of the answers is document 02, Req 13: of
//! ComLynx that the list is told after any storm and from any state that is not refused. Of drives
//! the first message may be lost, and no other. Of Eversolar and Fronius nothing is asked, but that
//! model and program agree.

use crate::calls::{
    after, fresh_state, reader_call, shape, state_of_numbers, state_on_the_way, Call, Shape,
};
use crate::drives_calls::drives_message;
use crate::fields::hex;
use crate::in_place_calls::in_place;
use crate::listing_calls::{list_by_packets, read_packets};
use crate::random::Random;
use crate::streams::{self, Family, FAMILIES};
use right::{comlynx, drives, eversolar, fronius, lines, number};
use std::ops::Range;

// ---- the messages of a list ----

/// A message as it is written, and what a reader and the listing tell of it.
#[derive(Clone)]
struct Sent {
    frame: Vec<u8>,
    /// What a reader's result has between the bytes lost and the payload's length.
    fields: Vec<u8>,
    payload: Vec<u8>,
    line: String,
}

/// The most bytes of a message that is sent again and again, so that a piece may have all of them.
const MOST_AGAIN: usize = 4000;

/// A message or a few, or one again and again, which may swallow each other for ever.
fn list(family: Family, random: &mut Random) -> Vec<Sent> {
    if random.one_in(3) {
        let message = message(family, random);
        let times = random.pick(&[2, 5, 12, 30]);
        let most = 1 + MOST_AGAIN / message.frame.len();
        return vec![message; most.min(times)];
    }
    let count = random.pick(&[1, 1, 2, 4]);
    (0..count).map(|_| message(family, random)).collect()
}

fn message(family: Family, random: &mut Random) -> Sent {
    match family {
        Family::ComLynx => comlynx_message(random),
        Family::Eversolar => eversolar_message(random),
        Family::Fronius => fronius_message(random),
        Family::Drives => {
            let length = streams::payload_length(Family::Drives, random);
            drives_sent(drives_message(random, length))
        }
    }
}

/// No payload, the longest, one with what leaves a frame of the family open, or any.
fn payload(family: Family, random: &mut Random) -> Vec<u8> {
    let mut payload = match random.below(10) {
        0..=2 => vec![],
        3 => random.content(family.most_payload()),
        4 | 5 => left_open(family, random),
        _ => {
            let length = random.between(1, 12);
            random.content(length)
        }
    };
    payload.truncate(family.most_payload());
    payload
}

/// The source's first byte is the first of a body that may have to be stuffed; often it has to be.
fn comlynx_message(random: &mut Random) -> Sent {
    let lead = random.specials(5);
    let first = random.pick(&[comlynx::FLAG, comlynx::ESCAPE, lead[0], lead[0]]);
    let message = comlynx::Message {
        source: u16::from_be_bytes([first, lead[1]]),
        destination: u16::from_be_bytes([lead[2], lead[3]]),
        kind: lead[4],
        payload: payload(Family::ComLynx, random),
    };
    let (source, destination) = (message.source.to_le_bytes(), message.destination.to_le_bytes());
    Sent {
        frame: comlynx::frame(&message),
        fields: [&source[..], &destination, &[message.kind]].concat(),
        line: lines::message(1, &lines::of_comlynx(&message)),
        payload: message.payload,
    }
}

fn eversolar_message(random: &mut Random) -> Sent {
    let lead = random.specials(6);
    let message = eversolar::Message {
        source: [lead[0], lead[1]],
        destination: [lead[2], lead[3]],
        control: lead[4],
        function: lead[5],
        payload: payload(Family::Eversolar, random),
    };
    Sent {
        frame: eversolar::frame(&message),
        fields: lead,
        line: lines::message(2, &lines::of_eversolar(&message)),
        payload: message.payload,
    }
}

fn fronius_message(random: &mut Random) -> Sent {
    let lead = random.specials(3);
    let message = fronius::Message {
        device: lead[0],
        number: lead[1],
        command: lead[2],
        payload: payload(Family::Fronius, random),
    };
    Sent {
        frame: fronius::frame(&message),
        fields: lead,
        line: lines::message(3, &lines::of_fronius(&message)),
        payload: message.payload,
    }
}

fn drives_sent(message: drives::Message) -> Sent {
    let [first, second] = message.station;
    Sent {
        frame: drives::frame(&message),
        fields: vec![message.opening, first, second, message.letter],
        line: lines::message(4, &lines::of_drives(&message)),
        payload: message.payload,
    }
}

// ---- storms ----

/// Nothing, any bytes, bytes that mean something, frames cut off or spoilt, whole streams; and
/// often what leaves something open, alone or behind others.
fn storm(family: Family, random: &mut Random) -> Vec<u8> {
    match random.below(12) {
        0 => vec![],
        1 => {
            let count = random.between(1, 40);
            random.bytes(count)
        }
        2 => {
            let count = random.between(1, 40);
            family.specials(random, count)
        }
        3 | 4 => cut_off(streams::frame(family, random), random),
        5 => streams::spoilt_frame(family, random),
        6 => streams::stream(family, random, 30),
        7 => [streams::stream(family, random, 1), left_open(family, random)].concat(),
        _ => left_open(family, random),
    }
}

/// Without its last bytes, or its last byte alone.
fn cut_off(mut bytes: Vec<u8>, random: &mut Random) -> Vec<u8> {
    let last = bytes.len() - 1;
    let anywhere = random.between(0, last);
    bytes.truncate(random.pick(&[anywhere, anywhere, last]));
    bytes
}

/// What is open at the end: a frame that is not all there, or what may be the front of one.
pub fn left_open(family: Family, random: &mut Random) -> Vec<u8> {
    match family {
        Family::ComLynx => open_stretch(random),
        Family::Eversolar => open_eversolar(random),
        Family::Fronius => open_fronius(random),
        Family::Drives => open_drives(random),
    }
}

/// A flag or a 7D alone or together, a broken pair, or all of a stretch but the flag that closes
/// it, cut off now and then.
fn open_stretch(random: &mut Random) -> Vec<u8> {
    match random.below(10) {
        0 => vec![comlynx::FLAG],
        1 => vec![comlynx::FLAG, comlynx::ESCAPE],
        2 => vec![comlynx::ESCAPE],
        3 => vec![comlynx::FLAG, comlynx::ESCAPE, random.pick(&[0x00, 0x7D, 0x5F, 0xFF])],
        4 => cut_off(open_body(random), random),
        _ => open_body(random),
    }
}

/// A flag and a stuffed body, right or with something wrong, of every telling length: at the next
/// flag it is a message, or any of the damages.
fn open_body(random: &mut Random) -> Vec<u8> {
    let length = random.pick(&[1, 2, 9, 10, 10, 11, 12, 30, 264, 265, 265, 266, 267, 300]);
    let any = random.below(16) as u8;
    let wrong = random.pick(&[0, 0, 0, 1, 2, 4, 8, any]);
    let mut stretch = streams::stretch_with(random, length, wrong);
    stretch.pop();
    stretch
}

/// The front of a frame whose length byte may promise much, or a part of it.
fn open_eversolar(random: &mut Random) -> Vec<u8> {
    let promised = random.pick(&[0, 1, 7, 9, 10, 11, 20, 100, 254, 255]);
    let (lead, more) = (open_lead(6, random), random.between(0, 6));
    let mut front = [&eversolar::HEADER[..], &lead, &[promised], &random.content(more)].concat();
    let anywhere = random.between(1, front.len());
    front.truncate(random.pick(&[1, 2, 8, 9, anywhere, front.len()]));
    front
}

/// The same; a length byte of 80 is part of the start, and one of 81 is none.
fn open_fronius(random: &mut Random) -> Vec<u8> {
    let promised = random.pick(&[0, 1, 3, 4, 5, 9, 20, 126, 127, 127, 128, 129]);
    let (further, more) = (random.pick(&[0, 0, 0, 1, 5]), random.between(0, 6));
    let lead = [vec![fronius::START; 3 + further], vec![promised]].concat();
    let mut front = [lead, random.content(more)].concat();
    let anywhere = random.between(1, front.len());
    front.truncate(random.pick(&[1, 2, 3, 4, anywhere, front.len()]));
    front
}

/// Zeros, as on a line at rest, or bytes that mean something.
fn open_lead(count: usize, random: &mut Random) -> Vec<u8> {
    match random.one_in(2) {
        true => vec![0; count],
        false => random.specials(count),
    }
}

/// An opening byte alone, and one with characters: fewer than a frame may have, as many, or more.
fn open_drives(random: &mut Random) -> Vec<u8> {
    let opening = random.pick(&streams::OPENINGS);
    let count = random.pick(&[0, 0, 1, 3, 5, 20, 26, 27, 31, 32, 41, 42, 43, 44, 45, 60, 300]);
    let characters = match random.one_in(3) {
        true => streams::without_ends(random, count),
        false => random.digits(count),
    };
    [vec![opening], characters].concat()
}

// ---- a storm and what follows it ----

/// A storm, a list, and how many of their bytes are handed over: all of the storm's, and mostly all
/// of the list's.
pub struct Case {
    family: Family,
    storm: Vec<u8>,
    list: Vec<Sent>,
    handed_over: usize,
}

impl Case {
    fn of(family: Family, random: &mut Random) -> Case {
        let (storm, list) = (storm(family, random), list(family, random));
        let written: usize = list.iter().map(|sent| sent.frame.len()).sum();
        let anywhere = random.between(0, written);
        let stop = random.pick(&[written, written, written, written, anywhere, written - 1]);
        let handed_over = storm.len() + stop;
        Case { family, storm, list, handed_over }
    }

    fn bytes(&self) -> Vec<u8> {
        let frames = self.list.iter().flat_map(|sent| &sent.frame);
        self.storm.iter().chain(frames).take(self.handed_over).copied().collect()
    }

    /// The messages whose last byte was handed over, each with the place of that byte, counted from
    /// 1 and from the storm's first.
    fn whole_messages(&self) -> Vec<(usize, &Sent)> {
        let mut place = self.storm.len();
        let mut messages = Vec::new();
        for sent in &self.list {
            place += sent.frame.len();
            messages.push((place, sent));
        }
        messages.retain(|&(place, _)| place <= self.handed_over);
        messages
    }

    fn lines(&self) -> Vec<&str> {
        self.whole_messages().iter().map(|(_, sent)| sent.line.as_str()).collect()
    }

    fn in_words(&self) -> String {
        let list: Vec<String> = self.list.iter().map(|sent| hex(&sent.frame)).collect();
        let (storm, list) = (hex(&self.storm), list.join("\n    "));
        format!("{} bytes of\n  storm: {storm}\n  list:\n    {list}", self.handed_over)
    }
}

// ---- calls of one reader ----

/// A generator for each family, in the order of their ports.
const BY_CALLS: [&str; 4] = [
    "ComLynx reader after a storm",
    "Eversolar reader after a storm",
    "Fronius reader after a storm",
    "drives reader after a storm",
];
/// How many of each are made at once: most of that family of which most is asked.
const CHAINS: [usize; 4] = [16, 4, 4, 8];
/// What is lent to every call.
const LENT: usize = 255;

/// The calls that a reader is given a case by, each with the state that the one before it handed
/// back, and how many bytes were used before each.
pub struct Chain {
    case: Case,
    pub calls: Vec<Call>,
    used_before: Vec<usize>,
}

/// Some of each family.
pub fn chains(random: &mut Random) -> Vec<Chain> {
    let mut chains = Vec::new();
    for (index, count) in CHAINS.into_iter().enumerate() {
        for _ in 0..count {
            chains.push(chain(FAMILIES[index], BY_CALLS[index], random));
        }
    }
    chains
}

/// Pieces cut anywhere, "each piece called on until it is used up", by value or in place.
fn chain(family: Family, generator: &'static str, random: &mut Random) -> Chain {
    let (shape, case) = (shape(family), Case::of(family, random));
    let (bytes, mut state) = (case.bytes(), state_before(shape, random));
    let lends_what_is_held = random.one_in(4);
    let mut chain = Chain { case, calls: vec![], used_before: vec![] };
    for piece in pieces(&chain.case, random) {
        let mut position = piece.start;
        loop {
            let rest = &bytes[position..piece.end];
            let call = reader_call(shape, &state, rest, &random.bytes(LENT)).from(generator);
            let (number, used, next) = after(shape, &call.bytes);
            chain.used_before.push(position);
            chain.calls.push(match lends_what_is_held {
                true => in_place(shape, &call, shape.held, random).from(generator),
                false => call,
            });
            state = next;
            position += used;
            if number == number::DONE {
                break;
            }
        }
    }
    chain
}

/// A fresh state, one that reading left, or a forged one; in its range.
fn state_before(shape: Shape, random: &mut Random) -> Vec<u8> {
    loop {
        let state = match random.below(6) {
            0..=2 => fresh_state(shape),
            3 => state_of_numbers(shape, random).0,
            4 => state_on_the_way(shape, random).0,
            _ => left_by(shape, &left_open(shape.family, random)),
        };
        let empty_piece = reader_call(shape, &state, &[], &[0; LENT]).bytes;
        if after(shape, &empty_piece).0 == number::DONE {
            return state;
        }
    }
}

fn left_by(shape: Shape, piece: &[u8]) -> Vec<u8> {
    after(shape, &reader_call(shape, &fresh_state(shape), piece, &[0; LENT]).bytes).2
}

/// One piece, some cut anywhere, or a cut at and about the storm's end; few bytes one by one.
fn pieces(case: &Case, random: &mut Random) -> Vec<Range<usize>> {
    let (storm, whole) = (case.storm.len(), case.handed_over);
    let mut cuts = match random.below(5) {
        0 => vec![],
        1 => vec![storm, storm + 1],
        2 => vec![storm.saturating_sub(1), storm + 2],
        3 if whole <= 60 => (1..whole).collect(),
        _ => (0..random.between(1, 12)).map(|_| random.between(0, whole)).collect(),
    };
    cuts.retain(|&cut| cut <= whole);
    cuts.extend([0, whole]);
    cuts.sort_unstable();
    cuts.windows(2).map(|pair| pair[0]..pair[1]).collect()
}

/// What a call told: the place of the byte that settled it, counted from 1 and from the storm's
/// first, its number, and of a message the fields and the payload.
#[derive(Debug)]
struct Told {
    place: usize,
    number: u8,
    fields: Vec<u8>,
    payload: Vec<u8>,
}

impl Told {
    /// Nothing where the piece was used up.
    fn of(shape: Shape, used_before: usize, result: &[u8]) -> Option<Told> {
        let word = |at: usize| usize::from(result[at]) + 256 * usize::from(result[at + 1]);
        let (length, lent) = (shape.state_in_result - 2, &result[result.len() - LENT..]);
        (result[0] != number::DONE).then(|| Told {
            place: used_before + word(1),
            number: result[0],
            fields: result[5..length].to_vec(),
            payload: lent[..word(length)].to_vec(),
        })
    }

    fn is(&self, &(place, sent): &(usize, &Sent)) -> bool {
        let message = (self.place, self.number, &self.fields, &self.payload);
        message == (place, number::MESSAGE, &sent.fields, &sent.payload)
    }

    /// The opening byte of a message is outside every set of characters, so that a frame which was
    /// open before it is damage for its length or for a character.
    fn is_a_lost_frame_at(&self, place: usize) -> bool {
        let damages = [number::WRONG_WHOLE_LENGTH, number::WRONG_CHARACTER];
        self.place == place && damages.contains(&self.number)
    }
}

/// Each message is told at its last byte, and nothing else is.
fn are(told: &[&Told], messages: &[(usize, &Sent)]) -> bool {
    told.len() == messages.len() && told.iter().zip(messages).all(|(told, sent)| told.is(sent))
}

/// "are read [..] as exactly that list, following at most one more answer, given at the first
/// message's opening flag".
fn is_exactly_the_list(case: &Case, told: &[Told]) -> bool {
    let opening_flag = case.storm.len() + 1;
    let at_the_flag = told.iter().filter(|told| told.place == opening_flag).count();
    let behind: Vec<&Told> = told.iter().filter(|told| told.place > opening_flag).collect();
    at_the_flag <= 1 && are(&behind, &case.whole_messages())
}

/// Nothing is told within the first message. At its last byte it is told itself, or a frame that
/// was open before it is lost with it; all others are told.
fn is_all_but_the_first(case: &Case, told: &[Told]) -> bool {
    let behind: Vec<&Told> = told.iter().filter(|told| told.place > case.storm.len()).collect();
    match (behind.split_first(), case.whole_messages().split_first()) {
        (None, None) => true,
        (Some((at_its_end, later)), Some((first, others))) => {
            (at_its_end.is(first) || at_its_end.is_a_lost_frame_at(first.0)) && are(later, others)
        }
        _ => false,
    }
}

impl Chain {
    pub fn generator(&self) -> &'static str {
        self.calls[0].generator
    }

    /// What is wrong with the results of the calls, if anything is.
    pub fn wrong(&self, results: &[Vec<u8>]) -> Option<String> {
        let (case, shape) = (&self.case, shape(self.case.family));
        let of_calls = self.used_before.iter().zip(results);
        let told =
            of_calls.filter_map(|(&used_before, result)| Told::of(shape, used_before, result));
        let told: Vec<Told> = told.collect();
        let right = match case.family {
            Family::ComLynx => is_exactly_the_list(case, &told),
            Family::Drives => is_all_but_the_first(case, &told),
            _ => true,
        };
        (!right).then(|| format!("{}\n  told: {told:?}", case.in_words()))
    }
}

// ---- all ports ----

/// The same by calls of all ports and of the listing by packets.
const BY_PORTS: &str = "all ports after a storm on each";
const BY_PACKETS: &str = "listing by packets, a storm on each port";

/// A case on each port, and an input with all of them, its packets cut anywhere and interleaved.
pub struct Storms {
    cases: [Case; 4],
    packets: Vec<Vec<u8>>,
}

pub fn on_all_ports(random: &mut Random) -> Storms {
    let cases = FAMILIES.map(|family| Case::of(family, random));
    let streams = cases.each_ref().map(Case::bytes);
    let packets = streams::interleaved(streams, random);
    Storms { cases, packets }
}

/// Calls of all ports in turn, and calls of the listing, packet by packet.
pub fn calls_of_all_ports(random: &mut Random) -> Vec<Call> {
    let mut calls = Vec::new();
    read_packets(&few_packets(random), BY_PORTS, random, &mut calls);
    let input = few_packets(random).concat();
    list_by_packets(&input, (60, 2000), BY_PACKETS, random, &mut calls);
    calls
}

fn few_packets(random: &mut Random) -> Vec<Vec<u8>> {
    loop {
        let packets = on_all_ports(random).packets;
        if packets.len() <= 40 {
            return packets;
        }
    }
}

impl Storms {
    pub fn input(&self) -> Vec<u8> {
        self.packets.concat()
    }

    /// What is wrong with the lines of the listing, if anything is.
    pub fn wrong(&self, listing: &[u8]) -> Option<String> {
        let text = String::from_utf8_lossy(listing);
        let of_port = |port| text.split_inclusive('\n').filter(move |line| line.starts_with(port));
        let (first, fourth): (Vec<&str>, Vec<&str>) =
            (of_port("1 ").collect(), of_port("4 ").collect());
        if !list_is_listed(&self.cases[0], &first) {
            return Some(format!("{}\n  port 1: {first:?}", self.cases[0].in_words()));
        }
        let right = all_but_the_first_are_listed(&self.cases[3], &fourth);
        (!right).then(|| format!("{}\n  port 4: {fourth:?}", self.cases[3].in_words()))
    }
}

/// Behind the lines of the storm at most one, and then the lines of the list.
fn list_is_listed(case: &Case, lines: &[&str]) -> bool {
    let (of_the_storm, list) = (comlynx::events(&case.storm).len(), case.lines());
    let more = lines.len().checked_sub(of_the_storm + list.len());
    matches!(more, Some(0 | 1)) && lines.ends_with(&list)
}

/// Behind the lines of the storm the first message's or that of a damage, and then those of the
/// others.
fn all_but_the_first_are_listed(case: &Case, lines: &[&str]) -> bool {
    let of_the_storm = drives::events(&case.storm).len();
    let behind = lines.get(of_the_storm..).unwrap_or(&[]).split_first();
    match (behind, case.lines().split_first()) {
        (None, None) => lines.len() == of_the_storm,
        (Some((at_its_end, later)), Some((first, others))) => {
            let lost = at_its_end.starts_with("4 3 ") || at_its_end.starts_with("4 21 ");
            (at_its_end == first || lost) && later == others
        }
        _ => false,
    }
}
