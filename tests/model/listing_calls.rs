//! Calls of the listing's lines, of the readers of all ports and of the listing packet by packet.

use crate::calls::{
    after, forged_call, fresh_state, grid_calls, lead_with, lent_to_reader, op, shape, state_of,
    state_on_the_way, versions_and_ports, Call, Making,
};
use crate::random::Random;
use crate::streams::{self, Family, FAMILIES};
use right::{lines, number, packet, probe};

// ---- lines ----

const LINES: &str = "lines of the listing";
const MESSAGE_LINES: &str = "lines of messages";
const LINE_ROOMS: &str = "lines of the listing, every lent length";

fn header_line() -> Making {
    op(0x81)
}

fn damage_line(port: u8, number: u8, lost: u16) -> Making {
    op(0x83).b(port).b(number).w(lost)
}

fn stop_line(number: u8) -> Making {
    op(0x84).b(number)
}

fn end_line(messages: u64, damages: u64) -> Making {
    op(0x85).q(messages).q(damages)
}

/// The opcodes of a message's line, and the lengths of from, to and code that each fixes.
const FIXED: [(u8, [usize; 3]); 4] =
    [(0x8A, [2, 2, 1]), (0x8B, [2, 2, 2]), (0x8C, [0, 2, 1]), (0x8D, [1, 2, 1])];

/// A message's line, and how many bytes it has.
fn message_line(which: usize, port: u8, payload: usize, random: &mut Random) -> (Making, usize) {
    let (opcode, lengths) = FIXED[which];
    let [from, to, code] = lengths.map(|length| random.specials(length));
    let payload = random.content(payload);
    let making = op(opcode).b(port).raw(&from).raw(&to).raw(&code).list(&payload);
    let exact = lines::message(port, &lines::Fields { from, to, code, payload }).len();
    (making, exact)
}

/// How many bytes a line has that nothing but the room refuses.
fn exact_length(line: &Making) -> usize {
    let result = probe::answer(&line.again().list(&[0; 100]).bytes).expect("a whole call");
    usize::from(result[1]) + 256 * usize::from(result[2])
}

fn every_room(line: Making, exact: usize, random: &mut Random, calls: &mut Vec<Call>) {
    for room in 0..=exact + 2 {
        calls.push(line.again().list(&random.bytes(room)).from(LINE_ROOMS));
    }
}

fn telling_room(line: Making, exact: usize, random: &mut Random) -> Call {
    let anything = random.between(0, exact);
    let room = random.pick(&[0, anything, exact - 1, exact - 1, exact, exact, exact + 1, 2100]);
    line.list(&random.bytes(room)).from(LINES)
}

/// Where a number gets a digit more, from both sides.
fn counts_of_digits() -> Vec<u64> {
    let powers = (0..20).map(|digits| 10_u64.pow(digits));
    let both_sides = powers.flat_map(|power| [power - 1, power, power + 1]);
    both_sides.chain([15_728_640, 1 << 32, 1 << 63, u64::MAX - 1, u64::MAX]).collect()
}

const BYTES_OF_DIGITS: [u8; 11] = [0, 1, 2, 9, 10, 11, 99, 100, 101, 200, 255];
const WORDS_OF_DIGITS: [u16; 19] = [
    0, 1, 4, 9, 10, 11, 99, 100, 255, 256, 999, 1000, 1001, 9999, 10_000, 32_767, 32_768, 65_534,
    65_535,
];

pub fn line_sweep(random: &mut Random, calls: &mut Vec<Call>) {
    for line in [
        header_line(),
        damage_line(1, 2, 0),
        damage_line(3, 7, 4),
        damage_line(4, 21, 12),
        damage_line(255, 255, 65_535),
        stop_line(9),
        stop_line(13),
        end_line(0, 0),
        end_line(u64::MAX, u64::MAX),
    ] {
        let exact = exact_length(&line);
        every_room(line, exact, random, calls);
    }
    line_digits(random, calls);
    message_lines(random, calls);
}

fn rooms_about_the_exact(line: Making, random: &mut Random, calls: &mut Vec<Call>) {
    let exact = exact_length(&line);
    for room in [exact - 1, exact, exact + 1] {
        calls.push(line.again().list(&random.bytes(room)).from(LINES));
    }
}

fn line_digits(random: &mut Random, calls: &mut Vec<Call>) {
    for byte in 0..=255 {
        let other = random.pick(&BYTES_OF_DIGITS);
        let lost = random.pick(&WORDS_OF_DIGITS);
        let damages = [damage_line(byte, other, lost), damage_line(other, byte, lost)];
        for line in [stop_line(byte)].into_iter().chain(damages) {
            rooms_about_the_exact(line, random, calls);
        }
        let (line, exact) = message_line(usize::from(byte) % FIXED.len(), byte, 1, random);
        calls.push(line.list(&random.bytes(exact)).from(MESSAGE_LINES));
    }
    for lost in WORDS_OF_DIGITS {
        rooms_about_the_exact(damage_line(random.between(1, 4) as u8, 6, lost), random, calls);
        rooms_about_the_exact(damage_line(4, 21, lost), random, calls);
    }
    let counts = counts_of_digits();
    for &count in &counts {
        let other = random.pick(&counts);
        for line in [end_line(count, other), end_line(other, count), end_line(count, count)] {
            let exact = exact_length(&line);
            calls.push(line.again().list(&random.bytes(exact)).from(LINES));
            calls.push(telling_room(line, exact, random));
        }
    }
}

/// Lines whose lengths the opcode says but for the payload's: every room of a short one, every
/// digit of the port, and payloads up to the first that are too long with every kind of room.
fn message_lines(random: &mut Random, calls: &mut Vec<Call>) {
    for which in 0..FIXED.len() {
        let (line, exact) = message_line(which, 3, 2, random);
        every_room(line, exact, random, calls);
        for port in BYTES_OF_DIGITS {
            let (line, exact) = message_line(which, port, 1, random);
            calls.push(line.list(&random.bytes(exact)).from(MESSAGE_LINES));
        }
        for payload in [0, 1, 2, 254, 255, 256, 257, 300] {
            let (line, exact) = message_line(which, 1 + which as u8, payload, random);
            for room in [0, exact - 1, exact, exact + 1, 2100] {
                calls.push(line.again().list(&random.bytes(room)).from(MESSAGE_LINES));
            }
        }
    }
}

pub fn random_line(random: &mut Random) -> Call {
    let (line, exact) = match random.below(5) {
        0 => {
            let lost = random.word() >> random.below(16);
            let line = damage_line(random.byte(), random.byte(), lost);
            let exact = exact_length(&line);
            (line, exact)
        }
        1 => {
            let messages = random.next() >> random.below(64);
            let line = end_line(messages, random.next() >> random.below(64));
            let exact = exact_length(&line);
            (line, exact)
        }
        _ => {
            let payload = random.pick(&[0, 1, 2, 20, 254, 255, 256]);
            let port = random.byte() >> random.below(8);
            message_line(random.below(FIXED.len()), port, payload, random)
        }
    };
    telling_room(line, exact, random)
}

// ---- words ----

const WORDS: &str = "Eversolar words";

pub fn word_sweep(random: &mut Random, calls: &mut Vec<Call>) {
    for byte in 0..=255 {
        calls.push(op(0x36).b(byte).b(random.special()).from(WORDS));
        calls.push(op(0x36).b(random.special()).b(byte).from(WORDS));
        calls.push(op(0x37).b(byte).b(random.special()).from(WORDS));
        calls.push(op(0x37).b(random.special()).b(byte).from(WORDS));
    }
}

pub fn random_word(random: &mut Random) -> Call {
    op(random.pick(&[0x36, 0x37])).w(random.word()).from(WORDS)
}

// ---- ports ----

const PORTS: &str = "all ports, states and ports of every kind";
const PORTS_GRID: &str = "all ports, limits of the states";
const PORTS_LENT: &str = "all ports, every lent length";
const PORTS_FORGED: &str = "all ports, forged states";
const PORTS_CHAIN: &str = "all ports, streams in pieces";
/// The bytes of PORTS: the four states.
const PORTS_BYTES: usize = 270 + 268 + 135 + 45;

/// The states of the four readers, as bytes.
type States = [Vec<u8>; 4];
/// What spoils all of them, a bit for each.
const ALL: usize = 15;

fn fresh_states() -> States {
    FAMILIES.map(|family| fresh_state(shape(family)))
}

/// A state that is outside its range.
pub fn spoilt_state(family: Family, random: &mut Random) -> Vec<u8> {
    let shape = shape(family);
    let held = family.content(random, shape.held);
    if family == Family::Drives {
        let (stage, count) = random.pick(&[
            (0, 1),
            (0, 42),
            (4, 0),
            (1, 0),
            (7, 5),
            (0x14, 0),
            (0x16, 0),
            (255, 0),
            (5, 65_534),
            (6, 65_535),
            (0x15, 65_534),
        ]);
        return state_of(shape, &held, stage, count, 0);
    }
    let (stage, count, last) = random.pick(&[
        (0, 4, 0),
        (0, 0, 1),
        (0, 0, 65_535),
        (4, 0, 0),
        (255, 0, 0),
        (1, 267, 0),
        (2, 65_535, 0),
    ]);
    state_of(shape, &held, stage, count, last)
}

/// A state that reading has left, or a fresh one.
fn good_state(family: Family, random: &mut Random) -> Vec<u8> {
    let shape = shape(family);
    if random.one_in(3) {
        return fresh_state(shape);
    }
    let begin = state_of(shape, &family.specials(random, shape.held), 0, 0, 0);
    let frame = streams::frame(family, random);
    let cut = random.between(0, frame.len() - 1);
    let call = op(shape.op).raw(&begin).list(&frame[..cut]).list(&[0; 255]).bytes;
    after(shape, &call).2
}

/// States that are spoilt where a bit of `spoilt` says so.
fn states_with(spoilt: usize, random: &mut Random) -> States {
    let mut state = |index: usize| match spoilt >> index & 1 {
        1 => spoilt_state(FAMILIES[index], random),
        _ => good_state(FAMILIES[index], random),
    };
    [state(0), state(1), state(2), state(3)]
}

fn port_call(states: &States, port: u8, piece: &[u8], lent: &[u8]) -> Making {
    op(0x87).raw(&states.concat()).b(port).list(piece).list(lent)
}

/// The number, the bytes used and the next states the call must give.
fn after_a_port(call: &[u8], lent: usize) -> (u8, usize, States) {
    let result = probe::answer(call).expect("a whole call");
    let used = usize::from(result[1]) + 256 * usize::from(result[2]);
    let end = result.len() - 2 - lent;
    (result[0], used, cut_into_states(&result[end - PORTS_BYTES..end]))
}

fn cut_into_states(ports: &[u8]) -> States {
    let (rest, drives) = ports[..PORTS_BYTES].split_at(270 + 268 + 135);
    let (rest, fronius) = rest.split_at(270 + 268);
    let (comlynx, eversolar) = rest.split_at(270);
    [comlynx, eversolar, fronius, drives].map(<[u8]>::to_vec)
}

/// A reader's call made through its port, beside other states.
fn through_its_port(family: Family, call: &Call, random: &mut Random) -> Making {
    let spoilt = random.pick(&[0, 0, 0, ALL]);
    let mut states = states_with(spoilt, random);
    let (state, rest) = call.bytes[1..].split_at(shape(family).state);
    states[index_of(family)] = state.to_vec();
    op(0x87).raw(&states.concat()).b(index_of(family) as u8 + 1).raw(rest)
}

fn index_of(family: Family) -> usize {
    FAMILIES.iter().position(|&other| other == family).expect("one of the four")
}

pub fn port_sweep(random: &mut Random, calls: &mut Vec<Call>) {
    for port in [0, 1, 2, 3, 4, 5, 6, 255] {
        for spoilt in 0..=ALL {
            for lent in [0, 254, 255, 256] {
                let states = states_with(spoilt, random);
                let family = FAMILIES[usize::from(port).saturating_sub(1).min(3)];
                let frame = streams::frame(family, random);
                let lent = random.bytes(lent);
                calls.push(port_call(&states, port, &frame, &lent).from(PORTS));
            }
        }
    }
    for length in (0..=258).chain([532, 8192, 16_384]) {
        let index = length % FAMILIES.len();
        let frame = streams::frame(FAMILIES[index], random);
        let port = index as u8 + 1;
        let lent = random.bytes(length);
        calls.push(port_call(&fresh_states(), port, &frame, &lent).from(PORTS_LENT));
    }
    for family in FAMILIES {
        for call in grid_calls(family, random) {
            if random.one_in(3) {
                calls.push(through_its_port(family, &call, random).from(PORTS_GRID));
            }
        }
    }
}

pub fn random_port(random: &mut Random) -> Call {
    let family = random.pick(&FAMILIES);
    let call = forged_call(family, random);
    through_its_port(family, &call, random).from(PORTS_FORGED)
}

/// The streams of the four ports in turn, in pieces, "each piece called on until it is used up".
pub fn port_chain(random: &mut Random, calls: &mut Vec<Call>) {
    let least = random.pick(&[20, 60, 300]);
    let streams = FAMILIES.map(|family| streams::stream(family, random, least));
    let longest_piece = random.pick(&[1, 5, 40, 300]);
    let (mut states, mut positions) = (fresh_states(), [0; FAMILIES.len()]);
    for _ in 0..30 {
        let port = random.below(FAMILIES.len());
        let rest = &streams[port][positions[port]..];
        let piece = &rest[..random.between(1, longest_piece).min(rest.len())];
        positions[port] += piece.len();
        states = read_piece(states, port as u8 + 1, piece, PORTS_CHAIN, random, calls);
    }
}

/// The pieces of packets, in their order, each by its port's reader.
pub fn read_packets(
    packets: &[Vec<u8>],
    generator: &'static str,
    random: &mut Random,
    calls: &mut Vec<Call>,
) {
    let mut states = fresh_states();
    for packet in packets {
        let (port, piece) = (packet[5], &packet[7..]);
        states = read_piece(states, port, piece, generator, random, calls);
    }
}

/// A piece of a port, called on until it is used up; the states that it leaves.
fn read_piece(
    mut states: States,
    port: u8,
    mut piece: &[u8],
    generator: &'static str,
    random: &mut Random,
    calls: &mut Vec<Call>,
) -> States {
    loop {
        let lent = lent_to_reader(random);
        let call = port_call(&states, port, piece, &lent).from(generator);
        let (number, used, next) = after_a_port(&call.bytes, lent.len());
        calls.push(call);
        states = next;
        piece = &piece[used..];
        if number == number::DONE {
            return states;
        }
    }
}

// ---- listings packet by packet ----

const COUNTS: &str = "listing by packets, limits of the counts";
const ROOMS: &str = "listing by packets, lent lengths";
const CUTS: &str = "listing by packets, packets cut anywhere";
const LEADS: &str = "listing by packets, wrong leads";
const STATES: &str = "listing by packets, spoilt states";
const CHAIN: &str = "listing by packets, a whole input";
const ANY: &str = "listing by packets, forged listings";
const BUSY: &str = "listing by packets, packets of many lines";

const MOST_PACKETS: u64 = 65_536;
const LINES_OF_A_PACKET: u64 = 240;
const ENOUGH: usize = 8192;

/// What a listing is made of.
struct Listing {
    states: States,
    packets: u64,
    messages: u64,
    damages: u64,
}

impl Listing {
    fn of_counts(packets: u64, messages: u64, damages: u64, random: &mut Random) -> Listing {
        Listing { states: states_with(0, random), packets, messages, damages }
    }

    fn fresh() -> Listing {
        Listing { states: fresh_states(), packets: 0, messages: 0, damages: 0 }
    }

    /// Counts in their range, mostly.
    fn on_the_way(states: States, random: &mut Random) -> Listing {
        let anywhere = random.below(65_537) as u64;
        let packets = random.pick(&[0, 1, 10, 65_534, 65_535, 65_535, 65_536, anywhere]);
        let most = packets * LINES_OF_A_PACKET;
        let over = u64::from(random.one_in(24));
        let any = [random.next() % (most + 1), random.next() % (most + 1)];
        let messages = random.pick(&[any[0], any[0], 0, most]) + over * random.pick(&[0, most + 1]);
        let damages = random.pick(&[any[1], any[1], 0, most]) + over;
        Listing { states, packets, messages, damages }
    }

    fn call(&self, ended: bool, input: &[u8], lent: &[u8]) -> Making {
        let making = op(0x89).raw(&self.states.concat());
        let making = making.q(self.packets).q(self.messages).q(self.damages);
        making.b(u8::from(ended)).list(input).list(lent)
    }

    /// The call, with just enough lent.
    fn enough_lent(&self, ended: bool, input: &[u8], random: &mut Random) -> Making {
        self.call(ended, input, &random.bytes(ENOUGH))
    }
}

/// A packet with a frame of its port's family, or a part of it.
fn packet_of_a_frame(random: &mut Random) -> Vec<u8> {
    let index = random.below(FAMILIES.len());
    let mut frame = streams::frame(FAMILIES[index], random);
    frame.truncate(240);
    packet::packet(index as u8 + 1, &frame)
}

/// Inputs of every kind: nothing, whole packets, packets cut, and packets refused.
fn telling_inputs(random: &mut Random) -> Vec<Vec<u8>> {
    let whole = packet_of_a_frame(random);
    let last = whole.len() - 1;
    let two = [whole.clone(), packet_of_a_frame(random)].concat();
    let with = |position: usize, value: u8| {
        let mut spoilt = whole.clone();
        spoilt[position] = value;
        spoilt
    };
    let mut inputs = vec![
        vec![],
        whole[..1].to_vec(),
        whole[..6].to_vec(),
        whole[..7].to_vec(),
        whole[..last].to_vec(),
        two,
        with(0, 0),
        with(4, 1),
        with(4, 2),
        with(4, 3),
        with(5, 0),
        with(5, 4),
        with(5, 5),
        with(6, 0),
        with(6, 241),
        vec![0],
    ];
    inputs.push(whole);
    inputs
}

pub fn listing_sweep(random: &mut Random, calls: &mut Vec<Call>) {
    listing_counts(random, calls);
    listing_rooms(random, calls);
    listing_cuts(random, calls);
    listing_leads(random, calls);
    listing_states(random, calls);
    listing_busy(random, calls);
}

/// Counts on both sides of every limit; where they are in their range, every kind of input.
fn listing_counts(random: &mut Random, calls: &mut Vec<Call>) {
    let wraps = u64::MAX / LINES_OF_A_PACKET + 1;
    let packets_of_telling = [
        0,
        1,
        2,
        65_535,
        MOST_PACKETS,
        MOST_PACKETS + 1,
        1 << 17,
        1 << 32,
        (1 << 32) + 2,
        wraps,
        wraps + 1,
        u64::MAX,
    ];
    for packets in packets_of_telling {
        let most = packets.wrapping_mul(LINES_OF_A_PACKET);
        let lines = [0, most.wrapping_sub(1), most, most.wrapping_add(1), u64::MAX];
        for messages in lines {
            for damages in lines {
                let listing = Listing::of_counts(packets, messages, damages, random);
                let inputs = telling_inputs(random);
                let input = &inputs[random.below(inputs.len())];
                let lent = random.pick(&[8191, 8192, 8192, 8192, 8193]);
                let making = listing.call(random.one_in(2), input, &random.bytes(lent));
                calls.push(making.from(COUNTS));
            }
        }
    }
    for packets in [0, 1, 65_535, MOST_PACKETS, MOST_PACKETS + 1] {
        let most = packets * LINES_OF_A_PACKET;
        for (messages, damages) in [(most, 0), (0, most), (most + 1, 0), (0, most + 1)] {
            for input in telling_inputs(random) {
                let listing = Listing::of_counts(packets, messages, damages, random);
                let ended = random.one_in(2);
                calls.push(listing.enough_lent(ended, &input, random).from(COUNTS));
            }
        }
    }
}

/// Too little lent and enough, with counts in and out of their range.
fn listing_rooms(random: &mut Random, calls: &mut Vec<Call>) {
    for length in [0, 1, 254, 255, 4096, 8190, 8191, 8192, 8193, 16_384] {
        for input in telling_inputs(random) {
            let spoilt = u64::from(random.one_in(4));
            let listing = Listing::of_counts(7, 7 * 240 + spoilt, 7 * 240, random);
            let making = listing.call(random.one_in(2), &input, &random.bytes(length));
            calls.push(making.from(ROOMS));
        }
    }
}

/// A packet and what follows it, cut at every byte, at the end of the input and before it.
fn listing_cuts(random: &mut Random, calls: &mut Vec<Call>) {
    for index in 0..FAMILIES.len() {
        let frame = streams::frame_with(FAMILIES[index], random, vec![0x11; 3]);
        let both = [packet::packet(index as u8 + 1, &frame), packet_of_a_frame(random)].concat();
        for cut in 0..=(7 + frame.len() + 8) {
            for ended in [false, true] {
                let listing = Listing { states: fresh_states(), ..with_some_counts(random) };
                calls.push(listing.enough_lent(ended, &both[..cut], random).from(CUTS));
            }
        }
    }
    let index = random.below(FAMILIES.len());
    let longest = packet::packet(index as u8 + 1, &FAMILIES[index].content(random, 240));
    for cut in (0..=longest.len()).filter(|cut| cut % 8 == 0 || *cut > 237) {
        let listing = with_some_counts(random);
        calls.push(listing.enough_lent(cut % 16 == 0, &longest[..cut], random).from(CUTS));
    }
}

fn with_some_counts(random: &mut Random) -> Listing {
    let packets = random.pick(&[1, 9, 1000, 65_535]);
    let [messages, damages] = [0, 1].map(|_| random.next() % (packets * LINES_OF_A_PACKET + 1));
    Listing::of_counts(packets, messages, damages, random)
}

/// Every byte of the lead, and several of them at once, at the end of the input and before it,
/// and where 65,536 packets are counted.
fn listing_leads(random: &mut Random, calls: &mut Vec<Call>) {
    for position in 0..7 {
        for value in [0, 1, 2, 3, 4, 5, 0x42, 0x52, 0x53, 240, 241, 255] {
            for length in [6, 7, 8, 247] {
                let port = random.pick(&[1, 4]);
                let mut input = [packet::packet(port, &[0x7E]), vec![0x7E; 300]].concat();
                input[position] = value;
                let listing = with_some_counts(random);
                let ended = random.one_in(2);
                let making = listing.enough_lent(ended, &input[..length], random);
                calls.push(making.from(LEADS));
            }
        }
    }
    for lead in versions_and_ports() {
        let input = [&lead[..], &[0x05; 240]].concat();
        let (listing, ended) = (with_some_counts(random), random.one_in(2));
        calls.push(listing.enough_lent(ended, &input, random).from(LEADS));
    }
    for wrong in 0..16 {
        for length in [6, 7, 26, 27] {
            for ended in [false, true] {
                let input = lead_with(wrong, random);
                let packets = random.pick(&[0, 5, 65_535, 65_536]);
                let listing = Listing::of_counts(packets, packets, 0, random);
                let making = listing.enough_lent(ended, &input[..length], random);
                calls.push(making.from(LEADS));
            }
        }
    }
}

/// Spoilt states of the packet's port and of others, with everything that is told before.
fn listing_states(random: &mut Random, calls: &mut Vec<Call>) {
    for spoilt in 0..=ALL {
        for port in [0, 1, 2, 3, 4, 5] {
            for (packets, over, cut, lent) in [
                (3, 0, 0, 8192),
                (3, 0, 1, 8192),
                (3, 1, 0, 8192),
                (3, 0, 0, 8191),
                (65_535, 0, 0, 8192),
                (65_536, 0, 0, 8192),
                (3, 0, 1000, 8192),
            ] {
                let most = packets * LINES_OF_A_PACKET;
                let states = states_with(spoilt, random);
                let listing = Listing { states, packets, messages: most + over, damages: most };
                let frame = streams::frame(FAMILIES[port.clamp(1, 4) - 1], random);
                let input = packet::packet(port as u8, &frame[..frame.len().min(240)]);
                let input = &input[..input.len().saturating_sub(cut)];
                let making = listing.call(random.one_in(2), input, &random.bytes(lent));
                calls.push(making.from(STATES));
            }
        }
    }
}

/// Packets that settle as many lines as they can, or a long one and many behind it.
fn listing_busy(random: &mut Random, calls: &mut Vec<Call>) {
    let parts: [&[u8]; 10] = [
        &[0x00, 0x7E],
        &[0x7D, 0x7E],
        &[0x7E, 0xFF, 3, 0, 2, 0x11, 0xFF, 0, 0x15, 0x79, 0x91],
        &[0xAA, 0x55, 1, 0, 0, 0, 0x10, 0, 0, 0x01, 0x10],
        &[0x80, 0x80, 0x80, 0x81],
        &[0x80, 0x80, 0x80, 0, 0, 0, 1, 1],
        &[0x05, 0x04],
        &[0x05, 0x46, 0x46, 0x58, 0x45, 0x34, 0x04],
        &[0x06, 0x30, 0x30, 0x72, 0x44, 0x32, 0x04],
        &[0x15, 0x30, 0x31, 0x57, 0x34, 0x44, 0x33, 0x31, 0x04],
    ];
    for (order, part) in parts.iter().enumerate() {
        let index = [0, 0, 0, 1, 2, 2, 3, 3, 3, 3][order];
        for first in 0..8 {
            let frame = streams::frame_with(FAMILIES[index], random, vec![0xA5; first * 16]);
            let begun = frame.len() - (1 + first).min(frame.len());
            let begin = fresh_state(shape(FAMILIES[index]));
            let call = op(shape(FAMILIES[index]).op).raw(&begin).list(&frame[..begun]);
            let (_, _, state) = after(shape(FAMILIES[index]), &call.list(&[0; 255]).bytes);
            let mut piece = [&frame[begun..], &part.repeat(120)].concat();
            piece.truncate(random.pick(&[240, 240, 239, 120]));
            let mut listing = with_some_counts(random);
            listing.states[index] = state;
            let input = packet::packet(index as u8 + 1, &piece);
            calls.push(listing.enough_lent(random.one_in(2), &input, random).from(BUSY));
        }
    }
}

/// A packet whose piece goes on where its port's state stands.
pub fn random_listing(random: &mut Random) -> Call {
    let index = random.below(FAMILIES.len());
    let spoilt = random.pick(&[0, 0, 0, 0, 0, 1, 2, 4, 8, ALL]);
    let mut states = states_with(spoilt, random);
    let (state, mut piece) = state_on_the_way(shape(FAMILIES[index]), random);
    states[index] = state;
    piece.extend(streams::stream(FAMILIES[index], random, 10));
    piece.truncate(random.pick(&[1, 10, 100, 240, 240, 240]));
    let mut input = packet::packet(index as u8 + 1, &piece);
    if random.one_in(4) {
        streams::spoil_a_lead(&mut input, random);
    }
    match random.below(4) {
        0 => input.extend(packet_of_a_frame(random)),
        1 if random.one_in(2) => input.truncate(random.between(0, input.len())),
        _ => {}
    }
    let listing = Listing::on_the_way(states, random);
    let lent = random.pick(&[8192, 8192, 8192, 8192, 8192, 8192, 8192, 8193, 8191]);
    listing.call(random.one_in(2), &input, &random.bytes(lent)).from(ANY)
}

/// The first packets of an input.
pub fn listing_chain(random: &mut Random, calls: &mut Vec<Call>) {
    let whole = streams::listing_input(random);
    let more = random.pick(&[1, 9, 300, 2000]);
    list_by_packets(&whole, (24, more), CHAIN, random, calls);
}

/// A whole input, more and more of it at hand, until its listing ends or so many calls were made.
pub fn list_by_packets(
    whole: &[u8],
    (most_calls, more): (usize, usize),
    generator: &'static str,
    random: &mut Random,
    calls: &mut Vec<Call>,
) {
    let (mut listing, mut ended) = (Listing::fresh(), false);
    let (mut position, mut at_hand) = (0, 0);
    for _ in 0..most_calls {
        let input = &whole[position..at_hand.max(position)];
        let call = listing.enough_lent(ended, input, random).from(generator);
        let result = probe::answer(&call.bytes).expect("a whole call");
        calls.push(call);
        position += usize::from(result[2]) + 256 * usize::from(result[3]);
        listing = listing_in(&result[6..]);
        match result[1] {
            1 if at_hand == whole.len() => ended = true,
            1 => at_hand = whole.len().min(at_hand + random.between(1, more)),
            2 => {}
            _ => break,
        }
    }
}

fn listing_in(bytes: &[u8]) -> Listing {
    let count = |index: usize| {
        let begin = PORTS_BYTES + 8 * index;
        u64::from_le_bytes(bytes[begin..begin + 8].try_into().expect("eight bytes"))
    };
    let states = cut_into_states(bytes);
    Listing { states, packets: count(0), messages: count(1), damages: count(2) }
}
