//! Streams of the four families, rich in special bytes and limits, and whole inputs of the
//! listing program made of them.

use crate::random::{Random, DIGITS};
use right::{comlynx, drives, eversolar, fronius, packet};

#[derive(Clone, Copy, PartialEq)]
pub enum Family {
    ComLynx,
    Eversolar,
    Fronius,
    Drives,
}

/// In the order of their ports.
pub const FAMILIES: [Family; 4] =
    [Family::ComLynx, Family::Eversolar, Family::Fronius, Family::Drives];

impl Family {
    pub fn most_payload(self) -> usize {
        match self {
            Family::Fronius => fronius::MOST_PAYLOAD,
            Family::Drives => drives::MOST_PAYLOAD,
            _ => comlynx::MOST_PAYLOAD,
        }
    }

    fn opening(self, random: &mut Random) -> u8 {
        match self {
            Family::ComLynx => comlynx::FLAG,
            Family::Eversolar => eversolar::HEADER[0],
            Family::Fronius => fronius::START,
            Family::Drives => random.pick(&OPENINGS),
        }
    }

    /// Mostly a byte that means something to the family.
    pub fn special(self, random: &mut Random) -> u8 {
        match self {
            Family::Drives => random.special_of_drives(),
            _ => random.special(),
        }
    }

    pub fn specials(self, random: &mut Random, count: usize) -> Vec<u8> {
        (0..count).map(|_| self.special(random)).collect()
    }

    /// Special bytes, any bytes, or one byte again and again; for drives digits too.
    pub fn content(self, random: &mut Random, count: usize) -> Vec<u8> {
        match self {
            Family::Drives => match random.below(4) {
                0 => random.bytes(count),
                1 => vec![self.special(random); count],
                2 => random.digits(count),
                _ => self.specials(random, count),
            },
            _ => random.content(count),
        }
    }
}

/// Parts one after another, until there are `least` bytes.
pub fn stream(family: Family, random: &mut Random, least: usize) -> Vec<u8> {
    let mut stream = Vec::new();
    while stream.len() < least {
        stream.extend(part(family, random));
    }
    stream
}

fn part(family: Family, random: &mut Random) -> Vec<u8> {
    match random.below(12) {
        0..=3 => frame(family, random),
        4 | 5 => spoilt_frame(family, random),
        6 | 7 => shaped(family, random),
        8 => overlapping(family, random),
        9 => family.specials(random, 1).repeat(3),
        10 => vec![family.opening(random); random.pick(&[1, 2, 3, 4, 5, 6])],
        _ => junk(family, random),
    }
}

fn junk(family: Family, random: &mut Random) -> Vec<u8> {
    let count = random.between(1, 12);
    family.specials(random, count)
}

pub fn payload_length(family: Family, random: &mut Random) -> usize {
    let most = family.most_payload();
    if family == Family::Drives && random.one_in(3) {
        return random.pick(&[MOST_IN_A_REPLY - 1, MOST_IN_A_REPLY, MOST_IN_A_REPLY + 1]);
    }
    match random.below(8) {
        0 => most,
        1 => most - 1,
        2 => random.between(0, most),
        3 => 0,
        4 => 1,
        _ => random.between(0, 12),
    }
}

/// A valid frame.
pub fn frame(family: Family, random: &mut Random) -> Vec<u8> {
    let length = payload_length(family, random);
    let payload = random.content(length);
    frame_with(family, random, payload)
}

pub fn frame_with(family: Family, random: &mut Random, payload: Vec<u8>) -> Vec<u8> {
    let lead = if random.one_in(8) { vec![0xFF; 6] } else { random.specials(6) };
    match family {
        Family::ComLynx => comlynx::frame(&comlynx::Message {
            source: u16::from_be_bytes([lead[0], lead[1]]),
            destination: u16::from_be_bytes([lead[2], lead[3]]),
            kind: lead[4],
            payload,
        }),
        Family::Eversolar => eversolar::frame(&eversolar::Message {
            source: [lead[0], lead[1]],
            destination: [lead[2], lead[3]],
            control: lead[4],
            function: lead[5],
            payload,
        }),
        Family::Fronius => fronius::frame(&fronius::Message {
            device: lead[0],
            number: lead[1],
            command: lead[2],
            payload,
        }),
        Family::Drives => frame_of_digits(random, digits_of(&payload)),
    }
}

pub const OPENINGS: [u8; 3] = [drives::ENQ, drives::ACK, drives::NAK];
pub const LETTERS: [u8; 4] = *b"RWXY";
/// The data characters of the longest reply.
pub const MOST_IN_A_REPLY: usize = 32;

/// A digit for each byte, but no more than a request may have; a byte that is a digit stays.
fn digits_of(bytes: &[u8]) -> Vec<u8> {
    let digit = |&byte: &u8| match DIGITS.contains(&byte) {
        true => byte,
        false => DIGITS[usize::from(byte) % DIGITS.len()],
    };
    bytes.iter().take(drives::MOST_PAYLOAD).map(digit).collect()
}

/// A reply where it may be one, or a request.
fn frame_of_digits(random: &mut Random, payload: Vec<u8>) -> Vec<u8> {
    let opening = match payload.len() > MOST_IN_A_REPLY {
        true => drives::ENQ,
        false => random.pick(&OPENINGS),
    };
    let station = station(random);
    drives::frame(&drives::Message { opening, station, letter: random.pick(&LETTERS), payload })
}

/// Now and then the one of every drive.
pub fn station(random: &mut Random) -> [u8; 2] {
    match random.one_in(4) {
        true => *b"FF",
        false => [random.pick(&DIGITS), random.pick(&DIGITS)],
    }
}

/// A frame with one byte changed, dropped, doubled, added or exchanged with its neighbour,
/// or cut.
pub fn spoilt_frame(family: Family, random: &mut Random) -> Vec<u8> {
    let mut frame = frame(family, random);
    let position = position_in(&frame, random);
    match random.below(7) {
        0 | 1 => frame[position] = family.special(random),
        2 => frame[position] ^= 1 << random.below(8),
        3 => drop(frame.remove(position)),
        4 => frame.insert(position, frame[position]),
        5 => frame.insert(position, family.special(random)),
        _ => frame.truncate(position),
    }
    if random.one_in(4) && frame.len() > 1 {
        let last = frame.len() - 1;
        frame.swap(last - 1, last);
    }
    frame
}

/// Often near the front or the end, where the rules are.
fn position_in(frame: &[u8], random: &mut Random) -> usize {
    let last = frame.len() - 1;
    match random.below(3) {
        0 => random.below(frame.len()),
        1 => random.below(12).min(last),
        _ => last - random.below(4).min(last),
    }
}

/// Two frames, the second beginning inside the first, or put into it.
fn overlapping(family: Family, random: &mut Random) -> Vec<u8> {
    let (mut first, second) = (frame(family, random), frame(family, random));
    let position = position_in(&first, random);
    let rest = first.split_off(position);
    first.extend(second);
    if random.one_in(2) {
        first.extend(rest);
    }
    first
}

/// What tells near a limit of the family, damages mostly.
pub fn shaped(family: Family, random: &mut Random) -> Vec<u8> {
    match family {
        Family::ComLynx => match random.below(4) {
            0 => stretch_of_pairs(random),
            1 => long_broken_stretch(random),
            _ => shaped_stretch(random),
        },
        Family::Eversolar => shaped_eversolar(random),
        Family::Fronius => shaped_fronius(random),
        Family::Drives => match random.below(6) {
            0 => long_frame(random),
            1 | 2 => frame_with_a_sum(random),
            _ => shaped_drives(random),
        },
    }
}

/// A body near its limits, where each check may fail or not, so that their order shows.
fn shaped_stretch(random: &mut Random) -> Vec<u8> {
    let length = random.pick(&[1, 2, 8, 9, 10, 11, 12, 20, 264, 265, 266, 267, 300]);
    let mut stretch = vec![comlynx::FLAG];
    let mut stuffed = comlynx::stuffed(&shaped_body(random, length));
    if random.one_in(4) {
        break_a_pair(&mut stuffed, random);
    }
    stretch.extend(stuffed);
    stretch.push(comlynx::FLAG);
    stretch
}

fn shaped_body(random: &mut Random, length: usize) -> Vec<u8> {
    let mut body = random.content(length);
    let begin: [u8; 2] = random.pick(&[
        [0xFF, 0x03],
        [0xFF, 0x03],
        [0xFF, 0x03],
        [0xFF, 0x02],
        [0xFE, 0x03],
        [3, 0xFF],
    ]);
    for (byte, wanted) in body.iter_mut().zip(begin) {
        *byte = wanted;
    }
    if length > 6 {
        let right_size = length.saturating_sub(10) as u8;
        let size = random.pick(&[
            right_size,
            right_size,
            right_size.wrapping_add(1),
            right_size.wrapping_sub(1),
            255,
        ]);
        body[6] = size;
    }
    if length > 2 && !random.one_in(4) {
        body.truncate(length - 2);
        body = comlynx::with_checksum(body);
    }
    if length > 2 && random.one_in(8) {
        body.swap(length - 2, length - 1);
    }
    body
}

/// Pairs and little else, so that a stretch has up to twice as many bytes as its body.
fn stretch_of_pairs(random: &mut Random) -> Vec<u8> {
    let pairs = random.pick(&[1, 4, 5, 9, 10, 132, 133, 264, 265, 266, 300]);
    let begin = random.pick(&[&[][..], &[0xFF, 0x03], &[0x00]]);
    [&[comlynx::FLAG], begin, &pair(random).repeat(pairs), &[comlynx::FLAG]].concat()
}

/// A pair as the writer makes them.
pub fn pair(random: &mut Random) -> [u8; 2] {
    [comlynx::ESCAPE, random.pick(&[comlynx::FLAG_STUFFED, comlynx::ESCAPE_STUFFED])]
}

/// A broken pair early in a stretch, and many bytes after it, pairs and broken pairs among them.
fn long_broken_stretch(random: &mut Random) -> Vec<u8> {
    let (before, after) = (random.pick(&[0, 0, 1, 8, 270]), random.pick(&[0, 1, 2, 30, 255, 600]));
    let broken = [comlynx::ESCAPE, random.pick(&[0x00, comlynx::ESCAPE, 0x7F, 0xFF])];
    let [before, after] = [before, after].map(|count| without_flags(random, count));
    [&[comlynx::FLAG], &before[..], &broken, &after, &[comlynx::FLAG]].concat()
}

/// So many bytes that may stand inside one stretch.
pub fn without_flags(random: &mut Random, count: usize) -> Vec<u8> {
    let mut bytes = random.content(count);
    let instead = random.pick(&[0x00, comlynx::ESCAPE, comlynx::FLAG_STUFFED]);
    for byte in &mut bytes {
        if *byte == comlynx::FLAG {
            *byte = instead;
        }
    }
    bytes
}

/// Stretches about as long as the number of lost bytes can tell, and longer, then a frame.
pub fn longest_stretches(random: &mut Random) -> Vec<u8> {
    let mut stream = vec![comlynx::FLAG];
    for _ in 0..3 {
        let count =
            random.pick(&[65_533, 65_534, 65_535, 65_536, 65_537, 70_000, 131_072, 131_080]);
        let mut stretch = match random.below(3) {
            0 => pair(random).repeat(count / 2 + 1),
            1 => vec![random.pick(&[0x00, 0x5E, comlynx::ESCAPE]); count],
            _ => without_flags(random, count),
        };
        stretch.truncate(count);
        stream.extend(stretch);
        stream.push(comlynx::FLAG);
    }
    stream.extend(frame(Family::ComLynx, random));
    stream
}

/// A stretch whose body has `length` bytes, wrong where a bit of `wrong` says so: a broken pair,
/// the beginning, the size, the checksum.
pub fn stretch_with(random: &mut Random, length: usize, wrong: u8) -> Vec<u8> {
    let mut body = [vec![0xFF, 0x03], random.content(length)].concat();
    body.truncate(length);
    body[0] ^= wrong >> 1 & 1;
    if length > 6 {
        body[6] = (length.saturating_sub(10) as u8).wrapping_add(wrong >> 2 & 1);
    }
    if length > 2 {
        body.truncate(length - 2);
        body = comlynx::with_checksum(body);
        body[length - 1] ^= wrong >> 3 & 1;
    }
    let mut stuffed = comlynx::stuffed(&body);
    if wrong & 1 == 1 {
        break_a_pair(&mut stuffed, random);
    }
    [vec![comlynx::FLAG], stuffed, vec![comlynx::FLAG]].concat()
}

fn break_a_pair(stuffed: &mut Vec<u8>, random: &mut Random) {
    let position = random.between(0, stuffed.len());
    stuffed.insert(position, comlynx::ESCAPE);
    if random.one_in(2) {
        stuffed.insert(position + 1, random.special());
    }
    if random.one_in(3) {
        stuffed.push(comlynx::ESCAPE);
    }
}

/// Sums off by one, low byte first, without the header; headers found late.
fn shaped_eversolar(random: &mut Random) -> Vec<u8> {
    let mut frame = frame(Family::Eversolar, random);
    let last = frame.len() - 1;
    match random.below(7) {
        0 => frame.swap(last - 1, last),
        1 => frame[last] = frame[last].wrapping_add(1),
        2 => leave_the_header_out(&mut frame),
        3 => frame[last - 1] = frame[last - 1].wrapping_sub(1),
        4 => frame.insert(1, random.special()),
        5 => return [vec![0xAA; random.between(1, 3)], frame].concat(),
        _ => {
            let heavy = random.pick(&[253, 254, 255]);
            return frame_with(Family::Eversolar, random, vec![0xFF; heavy]);
        }
    }
    frame
}

/// The sum as it is where AA 55 is not counted, which may change both of its bytes.
fn leave_the_header_out(frame: &mut [u8]) {
    let position = frame.len() - 2;
    let sum = eversolar::word_of(frame[position], frame[position + 1]);
    let header: u16 = eversolar::HEADER.iter().copied().map(u16::from).sum();
    frame[position..].copy_from_slice(&eversolar::high_byte_first(sum.wrapping_sub(header)));
}

/// Further 80, too few 80, lengths from 80, sums that take more or less in.
fn shaped_fronius(random: &mut Random) -> Vec<u8> {
    let mut frame = frame(Family::Fronius, random);
    let last = frame.len() - 1;
    let length = frame[3];
    match random.below(8) {
        0 => frame[last] = frame[last].wrapping_add(0x80),
        1 => frame[last] = frame[last].wrapping_sub(length),
        2 => frame[last] = frame[last].wrapping_add(random.pick(&[1, 255])),
        3 | 6 => frame[3] = random.pick(&[0x7F, 0x80, 0x81, 0x81, 0x82, 0xFE, 0xFF]),
        4 => drop(frame.remove(0)),
        5 => frame[random.below(3)] = random.special(),
        _ => {}
    }
    if random.one_in(3) {
        let further = random.pick(&[1, 2, 3, 4, 5, 40]);
        return [vec![fronius::START; further], frame].concat();
    }
    frame
}

/// A frame about as long as a frame may be or a state holds, where each check may fail or not, so
/// that their order shows.
fn shaped_drives(random: &mut Random) -> Vec<u8> {
    let length = random.pick(&[2, 3, 5, 6, 7, 8, 12, 38, 39, 40, 41, 43, 44, 45, 46, 60]);
    let (opening, wrong) = (random.pick(&OPENINGS), random.pick(&[0, 0, 1, 2, 3]));
    drives_frame_with(random, opening, length, wrong)
}

/// A frame of `length` bytes from its opening byte through its EOT, wrong where a bit of `wrong`
/// says so: a character outside its set, which is counted in the sum, and the sum.
pub fn drives_frame_with(random: &mut Random, opening: u8, length: usize, wrong: u8) -> Vec<u8> {
    let mut summed = [&station(random)[..], &[random.pick(&LETTERS)]].concat();
    let rest = random.digits(length);
    summed.extend(rest);
    summed.truncate(length.saturating_sub(4));
    if wrong & 1 == 1 && !summed.is_empty() {
        let position = random.below(summed.len());
        summed[position] = outside_its_set(random, position);
    }
    let sum = drives::sum_of(&summed).wrapping_add(wrong >> 1 & 1);
    let mut characters = [&summed[..], &drives::in_two_digits(sum)].concat();
    characters.truncate(length - 2);
    [&[opening], &characters[..], &[drives::EOT]].concat()
}

/// A byte that may not stand at this place behind the opening byte, and ends no frame.
pub fn outside_its_set(random: &mut Random, position: usize) -> u8 {
    let outside = match position {
        2 => *b"QSVZrwxy0AF\x05\x06\x15\xD2\x00",
        _ => *b"/:@Gafg`RY\x05\x06\x15\xB0\xC1\x00",
    };
    random.pick(&outside)
}

/// A frame whose sum takes in too much or too little, is off by one, has its two characters
/// exchanged, or has small letters.
fn frame_with_a_sum(random: &mut Random) -> Vec<u8> {
    let mut frame = frame(Family::Drives, random);
    let position = frame.len() - 3;
    let (opening, last, sum) = (frame[0], frame[position - 1], drives::sum_of(&frame[1..position]));
    let other = match random.below(8) {
        0 => sum.wrapping_add(opening),
        1 => sum.wrapping_add(drives::EOT),
        2 => sum.wrapping_sub(last),
        3 => sum.wrapping_sub(frame[1]),
        4 => sum.wrapping_sub(frame[3]),
        5 => sum.wrapping_add(random.pick(&[1, 16, 240, 255])),
        6 => 0_u8.wrapping_sub(sum),
        _ => sum,
    };
    frame[position..position + 2].copy_from_slice(&drives::in_two_digits(other));
    match random.below(6) {
        0 => frame.swap(position, position + 1),
        1 => frame[position..position + 2].make_ascii_lowercase(),
        _ => {}
    }
    frame
}

/// A frame that does not end for a while, what opens frames among its bytes.
fn long_frame(random: &mut Random) -> Vec<u8> {
    let count = random.pick(&[41, 42, 43, 44, 100, 254, 255, 256, 257, 600]);
    frame_of(random, count)
}

/// A frame of so many bytes between its opening byte and its EOT.
fn frame_of(random: &mut Random, count: usize) -> Vec<u8> {
    let opening = random.pick(&OPENINGS);
    [&[opening], &without_ends(random, count)[..], &[drives::EOT]].concat()
}

/// So many bytes that may stand inside one frame of drives.
pub fn without_ends(random: &mut Random, count: usize) -> Vec<u8> {
    let mut bytes = Family::Drives.content(random, count);
    let instead = random.pick(&[0x00, 0x30, drives::ENQ]);
    for byte in &mut bytes {
        if *byte == drives::EOT {
            *byte = instead;
        }
    }
    bytes
}

/// Frames about as long as the number of lost bytes can tell, and longer, then one that is right.
pub fn longest_frames(random: &mut Random) -> Vec<u8> {
    let mut stream = Vec::new();
    for _ in 0..3 {
        let count =
            random.pick(&[65_531, 65_532, 65_533, 65_534, 65_535, 70_000, 131_070, 131_080]);
        stream.extend(frame_of(random, count));
    }
    stream.extend(frame(Family::Drives, random));
    stream
}

// ---- whole inputs of the listing program ----

/// Packets of the four ports, cut anywhere and interleaved, sometimes with something wrong.
pub fn listing_input(random: &mut Random) -> Vec<u8> {
    let streams = FAMILIES.map(|family| port_stream(family, random));
    let mut packets = interleaved(streams, random);
    if random.one_in(2) {
        spoil_the_packets(&mut packets, random);
    }
    packets.concat()
}

/// The streams of the four ports in packets, until all are used up.
pub fn interleaved(mut left: [Vec<u8>; 4], random: &mut Random) -> Vec<Vec<u8>> {
    let longest_cut = random.pick(&[1, 2, 7, 30, 240, 240]);
    let mut packets = Vec::new();
    while left.iter().any(|stream| !stream.is_empty()) {
        let port = random.below(FAMILIES.len());
        if !left[port].is_empty() {
            packets.push(next_packet(port, &mut left[port], longest_cut, random));
        }
    }
    packets
}

/// Mostly its own family; now and then another's bytes, or none.
fn port_stream(family: Family, random: &mut Random) -> Vec<u8> {
    let least = random.pick(&[0, 1, 20, 100, 400, 1200]);
    let family = if random.one_in(12) { random.pick(&FAMILIES) } else { family };
    stream(family, random, least)
}

fn next_packet(
    port: usize,
    stream: &mut Vec<u8>,
    longest_cut: usize,
    random: &mut Random,
) -> Vec<u8> {
    let cut = if random.one_in(3) { longest_cut } else { random.between(1, longest_cut) };
    let rest = stream.split_off(cut.min(stream.len()));
    let piece = std::mem::replace(stream, rest);
    packet::packet(port as u8 + 1, &piece)
}

/// One packet (mostly a late one) gets a wrong lead, or the input ends inside it.
fn spoil_the_packets(packets: &mut Vec<Vec<u8>>, random: &mut Random) {
    if packets.is_empty() {
        packets.push(packet::packet(1, &[0x7E]));
    }
    let index = packets.len() - 1 - random.below(packets.len().min(4));
    spoil_a_lead(&mut packets[index], random);
    if random.one_in(4) {
        spoil_a_lead(&mut packets[index], random);
    }
    if random.one_in(3) {
        let cut = random.below(packets[index].len());
        packets[index].truncate(cut);
        packets.truncate(index + 1);
    }
}

pub fn spoil_a_lead(packet: &mut [u8], random: &mut Random) {
    match random.below(6) {
        0 => packet[random.below(3)] = random.special(),
        1 => packet[3 + random.below(2)] = random.pick(&[0, 1, 2, 3, 0xFF]),
        2 => packet[5] = random.pick(&[0, 1, 2, 3, 4, 5, 0xFF]),
        3 => packet[6] = random.pick(&[0, 1, 239, 240, 241, 255]),
        4 => packet[random.below(7)] ^= 1 << random.below(8),
        _ => {}
    }
}

/// Packets of one byte each, `packets` in all, the ports in turn, then `tail`.
pub fn long_listing_input(random: &mut Random, packets: usize, tail: &[u8]) -> Vec<u8> {
    let ports = FAMILIES.len();
    let streams = FAMILIES.map(|family| stream(family, random, packets / ports + 1));
    let mut input = Vec::new();
    for order in 0..packets {
        let (port, byte) = (order % ports, streams[order % ports][order / ports]);
        input.extend(packet::packet(port as u8 + 1, &[byte]));
    }
    input.extend(tail);
    input
}
