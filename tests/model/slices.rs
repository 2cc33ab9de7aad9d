//! Slices: document 02, Req 10, "a second reader for each family that works on one slice by
//! searching for the frame edges, with no state carried from byte to byte, and gives the next answer
//! from a place in the slice, with the place after it".
//!
//! The rules are those of the streaming readers, written down a second time and in another way: the
//! edges are searched for, and what lies between them is judged as a whole. Of what a streaming
//! reader judges by only the checksum's rule is called here, so that each way can show a slip in the
//! other.

use crate::LEAST_LENT_TO_A_READER;
use crate::{checksum, comlynx, drives, eversolar, fronius, number};
use crate::{losing, put_in_front, Damage, Event, Outcome, Payload, Verdict};
use std::ops::RangeInclusive;

/// "23 for a slice above 65,536 bytes".
const LONGEST_SLICE: usize = 65_536;

/// What a reader of a slice hands back beside the lent buffer.
pub struct Found<M> {
    pub number: u8,
    /// After the byte that settles the answer; the slice's length where nothing settles one.
    pub place: usize,
    /// The bytes lost with a damage; 0 with any other answer.
    pub lost: u16,
    pub message: Option<M>,
}

/// With a refusal "every other number returned (length, bytes used, address, place) is 0".
fn refused<M>(refusal: u8) -> Found<M> {
    Found { number: refusal, place: 0, lost: 0, message: None }
}

/// As a reader whose piece is used up: nothing is told, and the lent buffer is as it was.
fn nothing<M>(place: usize) -> Found<M> {
    Found { number: number::DONE, place, lost: 0, message: None }
}

/// A message's payload goes to the front of the lent buffer; a damage leaves the buffer as it was.
fn told<M: Payload>(event: Event<M>, lent: &mut [u8]) -> Found<M> {
    let Event { end: place, outcome } = event;
    match outcome {
        Err(Damage { number, lost }) => Found { number, place, lost, message: None },
        Ok(message) => {
            put_in_front(message.payload(), lent);
            Found { number: number::MESSAGE, place, lost: 0, message: Some(message) }
        }
    }
}

/// "Refusals: 23 for a slice above 65,536 bytes, 24 for a place past the end, both before 9." The
/// place at the end is not past it.
fn refusal(slice: &[u8], place: u64, lent: &[u8]) -> Option<u8> {
    if slice.len() > LONGEST_SLICE {
        Some(number::SLICE_TOO_LONG)
    } else if place > slice.len() as u64 {
        Some(number::PLACE_PAST_THE_END)
    } else if lent.len() < LEAST_LENT_TO_A_READER {
        Some(number::NO_ROOM)
    } else {
        None
    }
}

/// One answer: refusals first, then what the family's search finds from the place on.
fn asked<M: Payload>(
    slice: &[u8],
    place: u64,
    lent: &mut [u8],
    search: fn(&[u8], usize) -> Option<Event<M>>,
) -> Found<M> {
    if let Some(refusal) = refusal(slice, place, lent) {
        return refused(refusal);
    }
    match search(slice, place as usize) {
        Some(event) => told(event, lent),
        None => nothing(slice.len()),
    }
}

pub fn comlynx(slice: &[u8], place: u64, lent: &mut [u8]) -> Found<comlynx::Message> {
    asked(slice, place, lent, next_stretch)
}

pub fn eversolar(slice: &[u8], place: u64, lent: &mut [u8]) -> Found<eversolar::Message> {
    asked(slice, place, lent, next_of_eversolar)
}

pub fn fronius(slice: &[u8], place: u64, lent: &mut [u8]) -> Found<fronius::Message> {
    asked(slice, place, lent, next_of_fronius)
}

pub fn drives(slice: &[u8], place: u64, lent: &mut [u8]) -> Found<drives::Message> {
    asked(slice, place, lent, next_of_drives)
}

/// Document 02, Req 09: "65,535 standing for that or more".
fn lost_at_most_65_535(bytes: &[u8]) -> u16 {
    bytes.len().min(65_535) as u16
}

fn total(bytes: &[u8]) -> usize {
    bytes.iter().map(|&byte| usize::from(byte)).sum()
}

// ---- ComLynx ----

/// "Each stretch between two successive 7E is judged at the second one, which also opens the next
/// stretch. An empty stretch gives nothing": the first two flags with something between them.
fn next_stretch(slice: &[u8], place: usize) -> Option<Event<comlynx::Message>> {
    let mut flags =
        (first_looked_at(slice, place)..slice.len()).filter(|&at| slice[at] == comlynx::FLAG);
    let mut opening = flags.next()?;
    for closing in flags {
        if closing - opening > 1 {
            let outcome = outcome_of_a_stretch(&slice[opening + 1..closing]);
            return Some(Event { end: closing + 1, outcome });
        }
        opening = closing;
    }
    None
}

/// "for ComLynx the flag counts as just seen if the byte before the place is 7E": looking then
/// begins with that byte.
fn first_looked_at(slice: &[u8], place: usize) -> usize {
    match slice[..place].last() {
        Some(&comlynx::FLAG) => place - 1,
        _ => place,
    }
}

/// One whole stretch, handed over without its flags, so that whoever asks says where it ends. No
/// place belongs to its answer.
pub fn whole_stretch(stretch: &[u8], lent: &mut [u8]) -> Found<comlynx::Message> {
    if lent.len() < LEAST_LENT_TO_A_READER {
        return refused(number::NO_ROOM);
    }
    if stretch.is_empty() {
        return nothing(0);
    }
    told(Event { end: 0, outcome: outcome_of_a_stretch(stretch) }, lent)
}

/// Document 02, Req 09: lost are "the bytes between the two flags", as they were sent.
fn outcome_of_a_stretch(stretch: &[u8]) -> Outcome<comlynx::Message> {
    losing(lost_at_most_65_535(stretch), judge_stretch(stretch))
}

/// The state that the checksum's rule ends with over a body and its own right checksum: it is the
/// same for every body.
const RIGHT_CHECKSUM: u16 = 0xF0B8;

/// "every 7D is followed inside the stretch by 5E or 5D, else 2; the unstuffed body has 10 to 265
/// bytes, else 3; it begins FF 03, else 4; size equals its length less 10, else 5; the checksum
/// agrees, else 6."
fn judge_stretch(stretch: &[u8]) -> Verdict<comlynx::Message> {
    if !pairs_are_right(stretch) {
        return Err(number::BROKEN_PAIR);
    }
    let body = unstuffed(stretch);
    if !(10..=265).contains(&body.len()) {
        return Err(number::WRONG_WHOLE_LENGTH);
    }
    if !body.starts_with(&[0xFF, 0x03]) {
        return Err(number::WRONG_START);
    }
    if body.len() != 10 + usize::from(body[6]) {
        return Err(number::WRONG_SIZE);
    }
    if checksum::over(&body) != RIGHT_CHECKSUM {
        return Err(number::WRONG_SUM);
    }
    Ok(comlynx::Message {
        source: u16::from_be_bytes([body[2], body[3]]),
        destination: u16::from_be_bytes([body[4], body[5]]),
        kind: body[7],
        payload: body[8..body.len() - 2].to_vec(),
    })
}

/// No 7D is the second byte of a pair, so each is looked at alone.
fn pairs_are_right(stretch: &[u8]) -> bool {
    let mut escapes = (0..stretch.len()).filter(|&at| stretch[at] == comlynx::ESCAPE);
    escapes.all(|at| matches!(stretch.get(at + 1), Some(0x5E | 0x5D)))
}

/// Of a stretch whose pairs are right: every 7D goes, and the byte behind it stands for what was
/// stuffed.
fn unstuffed(stretch: &[u8]) -> Vec<u8> {
    let byte_for = |at: usize| match (&stretch[..at], stretch[at]) {
        ([.., comlynx::ESCAPE], 0x5E) => comlynx::FLAG,
        ([.., comlynx::ESCAPE], _) => comlynx::ESCAPE,
        (_, byte) => byte,
    };
    (0..stretch.len()).filter(|&at| stretch[at] != comlynx::ESCAPE).map(byte_for).collect()
}

// ---- Eversolar ----

/// AA 55, source, destination, control, function and the length N: "After 9 bytes, N is known".
const LEAD_OF_EVERSOLAR: usize = 9;

/// "look for AA directly followed by 55": the first 55 behind an AA that is not before the place.
/// Where the frame is not all there nothing is told, whatever stands inside it.
fn next_of_eversolar(slice: &[u8], place: usize) -> Option<Event<eversolar::Message>> {
    let behind_an_aa = |&at: &usize| slice[at] == 0x55 && slice[at - 1] == 0xAA;
    let begin = (place + 1..slice.len()).find(behind_an_aa)? - 1;
    let payload_length = usize::from(*slice.get(begin + LEAD_OF_EVERSOLAR - 1)?);
    let end = begin + LEAD_OF_EVERSOLAR + payload_length + 2;
    let frame = slice.get(begin..end)?;
    // Document 02, Req 09: "the whole frame, 11 plus N".
    let lost = 11 + payload_length as u16;
    Some(Event { end, outcome: losing(lost, judge_eversolar(frame)) })
}

/// "the sum of all earlier bytes, header included, modulo 65,536"; high byte first (document 02,
/// Req 03).
fn judge_eversolar(frame: &[u8]) -> Verdict<eversolar::Message> {
    let (earlier, sum) = frame.split_at(frame.len() - 2);
    let sum = usize::from(sum[0]) * 256 + usize::from(sum[1]);
    if total(earlier) % 65_536 != sum {
        return Err(number::WRONG_SUM);
    }
    Ok(eversolar::Message {
        source: [earlier[2], earlier[3]],
        destination: [earlier[4], earlier[5]],
        control: earlier[6],
        function: earlier[7],
        payload: earlier[LEAD_OF_EVERSOLAR..].to_vec(),
    })
}

// ---- Fronius ----

/// "after three successive 80 comes the length. A further 80 there is taken as part of the start":
/// three 80 from the place on, and behind them the first byte that is another.
fn next_of_fronius(slice: &[u8], place: usize) -> Option<Event<fronius::Message>> {
    let starts = slice[place..].windows(3).position(|three| three == [fronius::START; 3])?;
    let behind = place + starts + 3;
    let length_byte = (behind..slice.len()).find(|&at| slice[at] != fronius::START)?;
    // "81 to FF is 7"; document 02, Req 09: "4 for a wrong length".
    if slice[length_byte] >= 0x81 {
        let damage = Damage { number: number::WRONG_LENGTH_BYTE, lost: 4 };
        return Some(Event { end: length_byte + 1, outcome: Err(damage) });
    }
    // Length, device, number, command, payload, sum.
    let payload_length = usize::from(slice[length_byte]);
    let end = length_byte + 4 + payload_length + 1;
    let frame = slice.get(length_byte..end)?;
    // Document 02, Req 09: "8 plus N for a wrong sum".
    let lost = 8 + payload_length as u16;
    Some(Event { end, outcome: losing(lost, judge_fronius(frame)) })
}

/// "the sum of all but the start and itself, modulo 256". `frame` is without its start.
fn judge_fronius(frame: &[u8]) -> Verdict<fronius::Message> {
    let (summed, sum) = frame.split_at(frame.len() - 1);
    if total(summed) % 256 != usize::from(sum[0]) {
        return Err(number::WRONG_SUM);
    }
    Ok(fronius::Message {
        device: summed[1],
        number: summed[2],
        command: summed[3],
        payload: summed[4..].to_vec(),
    })
}

// ---- drives ----

/// "Bytes before an opening byte are ignored; a frame is judged at its EOT": the slice is cut behind
/// every EOT, and the first part that has both is a frame from its first opening byte on.
fn next_of_drives(slice: &[u8], place: usize) -> Option<Event<drives::Message>> {
    let mut end = place;
    for part in slice[place..].split_inclusive(|&byte| byte == drives::EOT) {
        end += part.len();
        let opening = part.iter().position(|byte| matches!(byte, 0x05 | 0x06 | 0x15));
        if let (Some(opening), Some(&drives::EOT)) = (opening, part.last()) {
            let frame = &part[opening..];
            let lost = lost_at_most_65_535(frame);
            return Some(Event { end, outcome: losing(lost, judge_drives(frame)) });
        }
    }
    None
}

/// "requests hold 7 to 44, replies 7 to 39".
fn lengths_of_drives(opening: u8) -> RangeInclusive<usize> {
    match opening {
        0x05 => 7..=44,
        _ => 7..=39,
    }
}

/// "0-9 and A-F" where a number stands.
fn are_digits(characters: &[u8]) -> bool {
    characters.iter().all(|character| b"0123456789ABCDEF".contains(character))
}

/// 3, then 21, then 6: "a damage after 3 for length and before 6". The data and the sum are
/// characters of one set, so one test is for both.
fn judge_drives(frame: &[u8]) -> Verdict<drives::Message> {
    if !lengths_of_drives(frame[0]).contains(&frame.len()) {
        return Err(number::WRONG_WHOLE_LENGTH);
    }
    let (station, letter, behind) = (&frame[1..3], frame[3], &frame[4..frame.len() - 1]);
    if !are_digits(station) || !b"RWXY".contains(&letter) || !are_digits(behind) {
        return Err(number::WRONG_CHARACTER);
    }
    let (payload, sum) = behind.split_at(behind.len() - 2);
    let right = format!("{:02X}", total(&frame[1..4 + payload.len()]) % 256);
    if sum != right.as_bytes() {
        return Err(number::WRONG_SUM);
    }
    Ok(drives::Message {
        opening: frame[0],
        station: [station[0], station[1]],
        letter,
        payload: payload.to_vec(),
    })
}
