//! The model against itself: a stream read whole, and the same stream read byte by byte in
//! pieces, must tell the same messages and damages at the same bytes; an input listed whole, and
//! the same input packet by packet, must give the same text; the checksum by the table's entries,
//! and bit by bit, must be the same.

use crate::fields::hex;
use crate::random::Random;
use crate::streams::{self, Family};
use right::{
    by_packet, checksum, checksum_by_bits, comlynx, drives, eversolar, fronius, lines, listing,
    number, packet, Event, Reading,
};

/// One stream in so many has stretches or frames of more bytes than a damage can tell.
const LONG_IN: usize = 60;

/// What was told, and after how many bytes of the stream.
type Told = (usize, String);

pub fn disagree(family: Family, random: &mut Random) -> Option<String> {
    let least = random.pick(&[10, 100, 1000]);
    let stream = match family {
        Family::ComLynx if random.one_in(LONG_IN) => streams::longest_stretches(random),
        Family::Drives if random.one_in(LONG_IN) => streams::longest_frames(random),
        _ => streams::stream(family, random, least),
    };
    let longest_piece = random.pick(&[1, 3, 50, 500]);
    let (whole, in_pieces) = match family {
        Family::ComLynx => {
            let mut state = comlynx::fresh();
            let read = |piece: &[u8], lent: &mut [u8]| comlynx::read(&mut state, piece, lent);
            (
                told(comlynx::events(&stream), of_comlynx),
                pieces(&stream, random, longest_piece, read, of_comlynx),
            )
        }
        Family::Eversolar => {
            let mut state = eversolar::fresh();
            let read = |piece: &[u8], lent: &mut [u8]| eversolar::read(&mut state, piece, lent);
            (
                told(eversolar::events(&stream), of_eversolar),
                pieces(&stream, random, longest_piece, read, of_eversolar),
            )
        }
        Family::Fronius => {
            let mut state = fronius::fresh();
            let read = |piece: &[u8], lent: &mut [u8]| fronius::read(&mut state, piece, lent);
            (
                told(fronius::events(&stream), of_fronius),
                pieces(&stream, random, longest_piece, read, of_fronius),
            )
        }
        Family::Drives => {
            let mut state = drives::fresh();
            let read = |piece: &[u8], lent: &mut [u8]| drives::read(&mut state, piece, lent);
            (
                told(drives::events(&stream), of_drives),
                pieces(&stream, random, longest_piece, read, of_drives),
            )
        }
    };
    (whole != in_pieces).then(|| format!("whole: {whole:?}\n  in pieces: {in_pieces:?}"))
}

fn of_comlynx(message: &comlynx::Message) -> String {
    let (from, to) = (message.source, message.destination);
    format!("{from} {to} {} {:?}", message.kind, message.payload)
}

fn of_eversolar(message: &eversolar::Message) -> String {
    let (from, to) = (message.source, message.destination);
    format!("{from:?} {to:?} {} {} {:?}", message.control, message.function, message.payload)
}

fn of_fronius(message: &fronius::Message) -> String {
    format!("{} {} {} {:?}", message.device, message.number, message.command, message.payload)
}

fn of_drives(message: &drives::Message) -> String {
    let (opening, station) = (message.opening, message.station);
    format!("{opening} {station:?} {} {:?}", message.letter, message.payload)
}

fn damage_in_words(number: u8, lost: u16) -> String {
    format!("damage {number}, {lost} lost")
}

fn told<M>(events: Vec<Event<M>>, words: fn(&M) -> String) -> Vec<Told> {
    let in_words = |event: Event<M>| match event.outcome {
        Ok(message) => (event.end, words(&message)),
        Err(damage) => (event.end, damage_in_words(damage.number, damage.lost)),
    };
    events.into_iter().map(in_words).collect()
}

/// "each piece called on until it is used up".
fn pieces<M>(
    stream: &[u8],
    random: &mut Random,
    longest_piece: usize,
    mut read: impl FnMut(&[u8], &mut [u8]) -> Reading<M>,
    words: fn(&M) -> String,
) -> Vec<Told> {
    let (mut told, mut position, mut piece_end) = (Vec::new(), 0, 0);
    while position < stream.len() {
        if position == piece_end {
            piece_end = stream.len().min(position + random.between(1, longest_piece));
        }
        let reading = read(&stream[position..piece_end], &mut [0; 255]);
        position += reading.used;
        match (reading.number, reading.message) {
            (number::DONE, _) => {}
            (_, Some(message)) => told.push((position, words(&message))),
            (damage, None) => told.push((position, damage_in_words(damage, reading.lost))),
        }
    }
    told
}

pub fn listings_disagree(random: &mut Random) -> Option<String> {
    let input = match random.below(LONG_IN) {
        0 => in_packets(1, &streams::longest_stretches(random)),
        1 => in_packets(4, &streams::longest_frames(random)),
        _ => streams::listing_input(random),
    };
    let whole = listing::listing(&input);
    let by_packet = listed_by_packet(&input, random);
    let (whole, by_packet) = (String::from_utf8_lossy(&whole), String::from_utf8_lossy(&by_packet));
    (whole != by_packet).then(|| format!("whole: {whole:?}\n  by packet: {by_packet:?}"))
}

fn in_packets(port: u8, stream: &[u8]) -> Vec<u8> {
    stream.chunks(240).flat_map(|piece| packet::packet(port, piece)).collect()
}

/// More and more of the input at hand, until the listing ends.
fn listed_by_packet(input: &[u8], random: &mut Random) -> Vec<u8> {
    let mut listing = by_packet::fresh();
    let mut text = lines::HEADER.as_bytes().to_vec();
    let (mut position, mut at_hand) = (0, 0);
    loop {
        let mut lent = [0; by_packet::LEAST_LENT];
        let ended = at_hand == input.len();
        let step = by_packet::next(&mut listing, ended, &input[position..at_hand], &mut lent);
        text.extend(&lent[..step.wrote]);
        position += step.used;
        match step.came {
            1 => at_hand = input.len().min(at_hand + random.between(1, 300)),
            2 => {}
            _ => return text,
        }
    }
}

/// Document 02, Req 05: "Nothing a caller is told changes."
pub fn checksums_disagree(random: &mut Random) -> Option<String> {
    let (state, length) = (random.word(), random.pick(&[0, 1, 2, 8, 100, 263, 1000]));
    let bytes = random.content(length);
    let cut = random.between(0, length);
    let (first, second) = bytes.split_at(cut);
    let by_entries = [
        checksum::over(&bytes),
        checksum::going_on(state, &bytes),
        checksum::over(first),
        checksum::over_both(first, second),
    ];
    let by_bits = [
        checksum_by_bits::over(&bytes),
        checksum_by_bits::going_on(state, &bytes),
        checksum_by_bits::over_the_first(cut, &bytes),
        checksum_by_bits::over_both(first, second),
    ];
    (by_entries != by_bits).then(|| {
        let asked = format!("from {state:04X}, cut at {cut}: {}", hex(&bytes));
        format!("{asked}\n  by entries: {by_entries:04X?}\n  by bits: {by_bits:04X?}")
    })
}
