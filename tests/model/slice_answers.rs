//! What is asked of the answers about a slice, which is document 02, Req 10: "A place answers as a
//! fresh streaming reader on the bytes from there; for ComLynx the flag counts as just seen if the
//! byte before the place is 7E. For every slice, asked from 0 and then from each place given, its
//! answers, messages and places are those of the streaming reader started fresh on that slice." The
//! streaming reader is the right model's; a stretch judged alone is read by it between two flags.

use crate::fields::hex;
use crate::slice_calls::{Ask, Asked, ENOUGH};
use crate::streams::Family;
use right::lines::Fields;
use right::ports::{self, Ports};
use right::{comlynx, number, Reading};

/// An answer with all that it tells.
#[derive(Debug, PartialEq)]
struct Told {
    number: u8,
    place: usize,
    lost: usize,
    /// What a result has between the bytes lost and the payload's length: zeros where no message is.
    fields: Vec<u8>,
    payload: Vec<u8>,
}

/// How many bytes a message's fields have in a result.
fn bytes_of_fields(family: Family) -> usize {
    match family {
        Family::ComLynx => 5,
        Family::Eversolar => 6,
        Family::Fronius => 3,
        Family::Drives => 4,
    }
}

fn port_of(family: Family) -> u8 {
    match family {
        Family::ComLynx => 1,
        Family::Eversolar => 2,
        Family::Fronius => 3,
        Family::Drives => 4,
    }
}

impl Told {
    /// Number, place, bytes lost, fields, the payload's length, and the lent buffer as a list.
    fn of_a_result(family: Family, result: &[u8]) -> Told {
        let word = |at: usize| usize::from(result[at]) + 256 * usize::from(result[at + 1]);
        let length = 7 + bytes_of_fields(family);
        Told {
            number: result[0],
            place: word(1) + 65_536 * word(3),
            lost: word(5),
            fields: result[7..length].to_vec(),
            payload: result[length + 4..][..word(length)].to_vec(),
        }
    }

    /// The same without a place.
    fn of_a_stretch(result: &[u8]) -> Told {
        Told::of_a_result(Family::ComLynx, &[&result[..1], &[0; 4], &result[1..]].concat())
    }

    /// What a streaming reader tells from the place on.
    fn of_a_reading(family: Family, place: usize, reading: Reading<Fields>) -> Told {
        let (fields, payload) = match reading.message {
            Some(message) => (fields_of(family, &message), message.payload),
            None => (vec![0; bytes_of_fields(family)], vec![]),
        };
        let (place, lost) = (place + reading.used, usize::from(reading.lost));
        Told { number: reading.number, place, lost, fields, payload }
    }
}

/// As a result has them: a word goes low byte first there, and ComLynx has words.
fn fields_of(family: Family, message: &Fields) -> Vec<u8> {
    let (mut from, mut to) = (message.from.clone(), message.to.clone());
    if family == Family::ComLynx {
        from.reverse();
        to.reverse();
    }
    [from, to, message.code.clone()].concat()
}

fn read(ports: &mut Ports, family: Family, piece: &[u8]) -> Reading<Fields> {
    ports::read(ports, port_of(family), piece, &mut [0; ENOUGH])
}

/// "for ComLynx the flag counts as just seen if the byte before the place is 7E".
fn flag_is_just_seen(family: Family, slice: &[u8], place: usize) -> bool {
    family == Family::ComLynx && slice[..place].last() == Some(&comlynx::FLAG)
}

/// What "a fresh streaming reader on the bytes from there" tells first; nothing where they are used
/// up.
fn of_a_fresh_reader(family: Family, slice: &[u8], place: usize) -> Told {
    let mut ports = ports::fresh();
    if flag_is_just_seen(family, slice, place) {
        read(&mut ports, family, &[comlynx::FLAG]);
    }
    Told::of_a_reading(family, place, read(&mut ports, family, &slice[place..]))
}

/// All that "the streaming reader started fresh on that slice" tells, one after another, and that
/// nothing more comes.
fn of_one_reader(family: Family, slice: &[u8]) -> Vec<Told> {
    let (mut ports, mut place, mut all) = (ports::fresh(), 0, Vec::new());
    loop {
        let reading = read(&mut ports, family, &slice[place..]);
        let told = Told::of_a_reading(family, place, reading);
        let nothing_more = told.number == number::DONE;
        place = told.place;
        all.push(told);
        if nothing_more {
            return all;
        }
    }
}

/// What a fresh streaming reader tells of a stretch between two flags; no place belongs to it.
fn of_a_reader_between_flags(stretch: &[u8]) -> Told {
    let line = [&[comlynx::FLAG], stretch, &[comlynx::FLAG]].concat();
    Told { place: 0, ..of_a_fresh_reader(Family::ComLynx, &line, 0) }
}

/// Where a refusal comes first, nothing is asked.
fn is_refused(slice: &[u8], place: u64, lent: usize) -> bool {
    slice.len() > 65_536 || place > slice.len() as u64 || lent < ENOUGH
}

/// What an ask should have been told and what it was; nothing where nothing is asked of it: with a
/// refusal, and of a stretch with flags inside it, which is more than one for a streaming reader.
fn both(slice: &[u8], ask: Ask, result: &[u8]) -> Option<(Told, Told)> {
    match ask {
        Ask::Next { place, lent, .. } if is_refused(slice, place, lent) => None,
        Ask::Next { family, place, .. } => Some((
            of_a_fresh_reader(family, slice, place as usize),
            Told::of_a_result(family, result),
        )),
        Ask::Stretch { lent } if lent < ENOUGH || slice.contains(&comlynx::FLAG) => None,
        Ask::Stretch { .. } => Some((of_a_reader_between_flags(slice), Told::of_a_stretch(result))),
    }
}

const MOST_SHOWN: usize = 2000;

fn in_words(slice: &[u8]) -> String {
    let shown = &slice[..slice.len().min(MOST_SHOWN)];
    format!("slice of {} bytes: {}", slice.len(), hex(shown))
}

/// What is wrong with the results of the calls, if anything is.
pub fn wrong(asked: &Asked, results: &[Vec<u8>]) -> Option<String> {
    let (slice, results) = (&asked.slice, &results[results.len() - asked.asks.len()..]);
    for (&ask, result) in asked.asks.iter().zip(results) {
        if let Some((streamed, told)) = both(slice, ask, result).filter(|(one, other)| one != other)
        {
            let slice = in_words(slice);
            return Some(format!("{slice}\n  streamed: {streamed:?}\n  told: {told:?}"));
        }
    }
    for (family, range) in &asked.on_and_on {
        let told = results[range.clone()].iter().map(|result| Told::of_a_result(*family, result));
        let (streamed, told) = (of_one_reader(*family, slice), told.collect::<Vec<Told>>());
        if streamed != told {
            let same = streamed.iter().zip(&told).take_while(|(one, other)| one == other).count();
            let (slice, streamed, told) = (in_words(slice), streamed.get(same), told.get(same));
            return Some(format!(
                "{slice}\n  answer {same} on and on\n  streamed: {streamed:?}\n  told: {told:?}"
            ));
        }
    }
    None
}
