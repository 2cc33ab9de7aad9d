//! The protocol of the programs `test_probe_..`: calls in, results out, each made by the model.

use crate::by_packet::{self, Listing};
use crate::lines::{self, Fields};
use crate::number;
use crate::ports::{self, Ports};
use crate::slices::{self, Found};
use crate::{
    checksum, checksum_by_bits, comlynx, drives, eversolar, fronius, hand_over, packet, roster,
    Written,
};

/// "A list is W (its length, at most 16,384) and that many bytes."
const LONGEST_LIST: usize = 16_384;

/// What is lent at most of a HELD list.
const MOST_HELD_LENT: usize = 512;

/// "its length, at most 65,537": one byte more than a slice may have.
const LONGEST_SLICE_SET: usize = 65_537;

/// Which program makes a call: "`test_probe_readers` makes ops 01 to 0C [..]; `test_probe_listing`
/// makes ops 81 to 8D [..]; `test_probe_slices` makes ops 91 to 96 [..]; `test_probe_calls` makes all
/// others". Counted from 0, the one for all others is the third and the one for slices the fourth.
pub fn program_of(op: u8) -> usize {
    match op {
        0x01..=0x0C => 0,
        0x81..=0x8D => 1,
        0x91..=0x96 => 3,
        _ => 2,
    }
}

/// "Each reads calls from standard input, makes each, and writes its result to standard output,
/// call after call, until the input ends. A call whose bytes are not all there, an opcode that is
/// not its own, or a list longer than it may be, ends it: it writes nothing more."
pub fn session(program: usize, input: &[u8]) -> Vec<u8> {
    let mut output = Vec::new();
    let mut calls = Arguments { rest: input, slice: &[] };
    while calls.rest.first().is_some_and(|&op| program_of(op) == program) {
        let Some(result) = next_result(&mut calls) else { break };
        output.extend(as_list(&result));
    }
    output
}

/// The result of the first call, without the length before it.
pub fn answer(call: &[u8]) -> Option<Vec<u8>> {
    next_result(&mut Arguments { rest: call, slice: &[] })
}

/// A list is its length in two bytes, low byte first, and that many bytes.
pub fn as_list(bytes: &[u8]) -> Vec<u8> {
    let mut list = (bytes.len() as u16).to_le_bytes().to_vec();
    list.extend(bytes);
    list
}

/// What is left of the input, and the slice that its calls go by: "Before the first op 91 the slice
/// is empty."
struct Arguments<'a> {
    rest: &'a [u8],
    slice: &'a [u8],
}

impl<'a> Arguments<'a> {
    fn bytes(&mut self, count: usize) -> Option<&'a [u8]> {
        let (bytes, rest) = self.rest.split_at_checked(count)?;
        self.rest = rest;
        Some(bytes)
    }

    fn number(&mut self, bytes: usize) -> Option<u64> {
        let low_first = self.bytes(bytes)?;
        Some(low_first.iter().rev().fold(0, |number, &byte| number * 256 + u64::from(byte)))
    }

    fn byte(&mut self) -> Option<u8> {
        self.number(1).map(|number| number as u8)
    }

    fn word(&mut self) -> Option<u16> {
        self.number(2).map(|number| number as u16)
    }

    fn pair(&mut self) -> Option<[u8; 2]> {
        Some([self.byte()?, self.byte()?])
    }

    fn list(&mut self) -> Option<&'a [u8]> {
        let length = usize::from(self.word()?);
        if length > LONGEST_LIST {
            return None;
        }
        self.bytes(length)
    }

    fn lent(&mut self) -> Option<Vec<u8>> {
        self.list().map(<[u8]>::to_vec)
    }

    /// "HELD is a list, of which the first 512 bytes are lent".
    fn held(&mut self) -> Option<Vec<u8>> {
        self.list().map(|list| list[..list.len().min(MOST_HELD_LENT)].to_vec())
    }
}

/// A result that grows field after field, beginning with the answer number.
struct Answer {
    bytes: Vec<u8>,
}

impl Answer {
    fn of(number: u8) -> Answer {
        Answer { bytes: vec![number] }
    }

    fn byte(self, byte: u8) -> Answer {
        self.bytes(&[byte])
    }

    fn word(self, word: u16) -> Answer {
        self.bytes(&word.to_le_bytes())
    }

    fn bytes(mut self, bytes: &[u8]) -> Answer {
        self.bytes.extend(bytes);
        self
    }

    fn list(self, bytes: &[u8]) -> Answer {
        self.bytes(&as_list(bytes))
    }
}

fn next_result(calls: &mut Arguments) -> Option<Vec<u8>> {
    let answer = match calls.byte()? {
        0x01 => read_comlynx(calls),
        0x02 => read_eversolar(calls),
        0x03 => read_fronius(calls),
        0x04 => Some(put_comlynx_state(Answer::of(number::DONE), &comlynx::fresh())),
        0x05 => Some(put_eversolar_state(Answer::of(number::DONE), &eversolar::fresh())),
        0x06 => Some(put_fronius_state(Answer::of(number::DONE), &fronius::fresh())),
        0x07 => read_comlynx_in_place(calls),
        0x08 => read_eversolar_in_place(calls),
        0x09 => read_fronius_in_place(calls),
        0x0A => read_drives(calls),
        0x0B => Some(put_drives_state(Answer::of(number::DONE), &drives::fresh())),
        0x0C => read_drives_in_place(calls),
        0x11 => write_comlynx(calls),
        0x12 => write_eversolar(calls),
        0x13 => write_fronius(calls),
        0x14 => write_drives(calls),
        0x21 => meaning(calls),
        0x22 => address_of_a_word(calls),
        0x23 => word_of_an_address(calls),
        0x24 => reply_expected(calls),
        0x31 => request_to_all(calls),
        0x32 => request_to_one(calls),
        0x33 => give_an_address(calls),
        0x34 => total_energy(calls),
        0x35 => wait(calls),
        0x36 => word_of_two_bytes(calls),
        0x37 => two_bytes_of_a_word(calls),
        0x41 => measured_value(calls),
        0x42 => reading(calls),
        0x51 => roster_give(calls, over_bytes),
        0x52 => roster_remove(calls, over_bytes),
        0x53 => roster_find(calls, over_bytes),
        0x54 => roster_give(calls, over_structs),
        0x55 => roster_remove(calls, over_structs),
        0x56 => roster_find(calls, over_structs),
        0x61 => read_packet(calls),
        0x62 => write_packet(calls),
        0x71 => checksum_over(calls),
        0x72 => checksum_going_on(calls),
        0x73 => checksum_sent(calls),
        0x74 => checksum_over_the_first(calls),
        0x75 => checksum_over_both(calls),
        0x76 => over_by_bits(calls),
        0x77 => going_on_by_bits(calls),
        0x78 => over_the_first_by_bits(calls),
        0x79 => over_both_by_bits(calls),
        0x81 => header_line(calls),
        0x83 => damage_line(calls),
        0x84 => stop_line(calls),
        0x85 => end_line(calls),
        0x86 => Some(put_ports(Answer::of(number::DONE), &ports::fresh())),
        0x87 => read_a_port(calls),
        0x88 => Some(put_listing(Answer::of(number::DONE), &by_packet::fresh())),
        0x89 => list_a_packet(calls),
        0x8A => message_line_of(calls, [2, 2, 1]),
        0x8B => message_line_of(calls, [2, 2, 2]),
        0x8C => message_line_of(calls, [0, 2, 1]),
        0x8D => message_line_of(calls, [1, 2, 1]),
        0x91 => set_the_slice(calls),
        0x92 => ask(calls, slices::comlynx, put_comlynx_message),
        0x93 => ask(calls, slices::eversolar, put_eversolar_message),
        0x94 => ask(calls, slices::fronius, put_fronius_message),
        0x95 => ask(calls, slices::drives, put_drives_message),
        0x96 => judge_the_slice(calls),
        _ => None,
    };
    answer.map(|answer| answer.bytes)
}

// ---- readers ----

fn comlynx_state(calls: &mut Arguments) -> Option<comlynx::State> {
    let held = calls.bytes(comlynx::LONGEST_BODY)?.to_vec();
    let (stage, count, came) = (calls.byte()?, calls.word()?, calls.word()?);
    Some(comlynx::State { held, stage, count, came })
}

fn read_comlynx(calls: &mut Arguments) -> Option<Answer> {
    let state = comlynx_state(calls)?;
    comlynx_call(calls, state, put_comlynx_state)
}

fn read_comlynx_in_place(calls: &mut Arguments) -> Option<Answer> {
    let (stage, count, came) = (calls.byte()?, calls.word()?, calls.word()?);
    let held = calls.held()?;
    comlynx_call(calls, comlynx::State { held, stage, count, came }, put_comlynx_in_place)
}

/// The call on a state, wherever its held bytes are kept; the two ways hand it back differently.
fn comlynx_call(
    calls: &mut Arguments,
    mut state: comlynx::State,
    put_state: fn(Answer, &comlynx::State) -> Answer,
) -> Option<Answer> {
    let (piece, mut lent) = (calls.list()?, calls.lent()?);
    let reading = comlynx::read(&mut state, piece, &mut lent);
    let answer = Answer::of(reading.number).word(reading.used as u16).word(reading.lost);
    Some(put_state(put_comlynx_message(answer, reading.message), &state).list(&lent))
}

fn put_comlynx_message(answer: Answer, message: Option<comlynx::Message>) -> Answer {
    match message {
        Some(message) => answer
            .word(message.source)
            .word(message.destination)
            .byte(message.kind)
            .word(message.payload.len() as u16),
        None => answer.bytes(&[0; 7]),
    }
}

fn put_comlynx_state(answer: Answer, state: &comlynx::State) -> Answer {
    answer.bytes(&state.held).byte(state.stage).word(state.count).word(state.came)
}

/// "stage:B, count:W, came:W, HELD instead of STATE".
fn put_comlynx_in_place(answer: Answer, state: &comlynx::State) -> Answer {
    answer.byte(state.stage).word(state.count).word(state.came).list(&state.held)
}

fn eversolar_state(calls: &mut Arguments) -> Option<eversolar::State> {
    let held = calls.bytes(eversolar::MOST_HELD)?.to_vec();
    let (stage, count, length) = (calls.byte()?, calls.word()?, calls.word()?);
    Some(eversolar::State { held, stage, count, length })
}

fn read_eversolar(calls: &mut Arguments) -> Option<Answer> {
    let state = eversolar_state(calls)?;
    eversolar_call(calls, state, put_eversolar_state)
}

fn read_eversolar_in_place(calls: &mut Arguments) -> Option<Answer> {
    let (stage, count, length) = (calls.byte()?, calls.word()?, calls.word()?);
    let held = calls.held()?;
    eversolar_call(calls, eversolar::State { held, stage, count, length }, put_eversolar_in_place)
}

fn eversolar_call(
    calls: &mut Arguments,
    mut state: eversolar::State,
    put_state: fn(Answer, &eversolar::State) -> Answer,
) -> Option<Answer> {
    let (piece, mut lent) = (calls.list()?, calls.lent()?);
    let reading = eversolar::read(&mut state, piece, &mut lent);
    let answer = Answer::of(reading.number).word(reading.used as u16).word(reading.lost);
    Some(put_state(put_eversolar_message(answer, reading.message), &state).list(&lent))
}

fn put_eversolar_message(answer: Answer, message: Option<eversolar::Message>) -> Answer {
    match message {
        Some(message) => answer
            .bytes(&message.source)
            .bytes(&message.destination)
            .byte(message.control)
            .byte(message.function)
            .word(message.payload.len() as u16),
        None => answer.bytes(&[0; 8]),
    }
}

fn put_eversolar_state(answer: Answer, state: &eversolar::State) -> Answer {
    answer.bytes(&state.held).byte(state.stage).word(state.count).word(state.length)
}

fn put_eversolar_in_place(answer: Answer, state: &eversolar::State) -> Answer {
    answer.byte(state.stage).word(state.count).word(state.length).list(&state.held)
}

fn fronius_state(calls: &mut Arguments) -> Option<fronius::State> {
    let held = calls.bytes(fronius::MOST_HELD)?.to_vec();
    let (stage, count, length) = (calls.byte()?, calls.word()?, calls.word()?);
    Some(fronius::State { held, stage, count, length })
}

fn read_fronius(calls: &mut Arguments) -> Option<Answer> {
    let state = fronius_state(calls)?;
    fronius_call(calls, state, put_fronius_state)
}

fn read_fronius_in_place(calls: &mut Arguments) -> Option<Answer> {
    let (stage, count, length) = (calls.byte()?, calls.word()?, calls.word()?);
    let held = calls.held()?;
    fronius_call(calls, fronius::State { held, stage, count, length }, put_fronius_in_place)
}

fn fronius_call(
    calls: &mut Arguments,
    mut state: fronius::State,
    put_state: fn(Answer, &fronius::State) -> Answer,
) -> Option<Answer> {
    let (piece, mut lent) = (calls.list()?, calls.lent()?);
    let reading = fronius::read(&mut state, piece, &mut lent);
    let answer = Answer::of(reading.number).word(reading.used as u16).word(reading.lost);
    Some(put_state(put_fronius_message(answer, reading.message), &state).list(&lent))
}

fn put_fronius_message(answer: Answer, message: Option<fronius::Message>) -> Answer {
    match message {
        Some(message) => answer
            .byte(message.device)
            .byte(message.number)
            .byte(message.command)
            .word(message.payload.len() as u16),
        None => answer.bytes(&[0; 5]),
    }
}

fn put_fronius_state(answer: Answer, state: &fronius::State) -> Answer {
    answer.bytes(&state.held).byte(state.stage).word(state.count).word(state.length)
}

fn put_fronius_in_place(answer: Answer, state: &fronius::State) -> Answer {
    answer.byte(state.stage).word(state.count).word(state.length).list(&state.held)
}

/// "drives have neither: theirs is held, stage, count".
fn drives_state(calls: &mut Arguments) -> Option<drives::State> {
    let held = calls.bytes(drives::MOST_HELD)?.to_vec();
    let (stage, count) = (calls.byte()?, calls.word()?);
    Some(drives::State { held, stage, count })
}

fn read_drives(calls: &mut Arguments) -> Option<Answer> {
    let state = drives_state(calls)?;
    drives_call(calls, state, put_drives_state)
}

fn read_drives_in_place(calls: &mut Arguments) -> Option<Answer> {
    let (stage, count) = (calls.byte()?, calls.word()?);
    let held = calls.held()?;
    drives_call(calls, drives::State { held, stage, count }, put_drives_in_place)
}

fn drives_call(
    calls: &mut Arguments,
    mut state: drives::State,
    put_state: fn(Answer, &drives::State) -> Answer,
) -> Option<Answer> {
    let (piece, mut lent) = (calls.list()?, calls.lent()?);
    let reading = drives::read(&mut state, piece, &mut lent);
    let answer = Answer::of(reading.number).word(reading.used as u16).word(reading.lost);
    Some(put_state(put_drives_message(answer, reading.message), &state).list(&lent))
}

fn put_drives_message(answer: Answer, message: Option<drives::Message>) -> Answer {
    match message {
        Some(message) => answer
            .byte(message.opening)
            .bytes(&message.station)
            .byte(message.letter)
            .word(message.payload.len() as u16),
        None => answer.bytes(&[0; 6]),
    }
}

fn put_drives_state(answer: Answer, state: &drives::State) -> Answer {
    answer.bytes(&state.held).byte(state.stage).word(state.count)
}

fn put_drives_in_place(answer: Answer, state: &drives::State) -> Answer {
    answer.byte(state.stage).word(state.count).list(&state.held)
}

// ---- writers ----

fn put_written(written: &Written, lent: &[u8]) -> Answer {
    Answer::of(written.number).word(written.length as u16).list(lent)
}

fn write_comlynx(calls: &mut Arguments) -> Option<Answer> {
    let message = comlynx::Message {
        source: calls.word()?,
        destination: calls.word()?,
        kind: calls.byte()?,
        payload: calls.list()?.to_vec(),
    };
    let mut lent = calls.lent()?;
    let written = comlynx::write(&message, &mut lent);
    Some(put_written(&written, &lent))
}

fn write_eversolar(calls: &mut Arguments) -> Option<Answer> {
    let message = eversolar::Message {
        source: calls.pair()?,
        destination: calls.pair()?,
        control: calls.byte()?,
        function: calls.byte()?,
        payload: calls.list()?.to_vec(),
    };
    let mut lent = calls.lent()?;
    let written = eversolar::write(&message, &mut lent);
    Some(put_written(&written, &lent))
}

fn write_fronius(calls: &mut Arguments) -> Option<Answer> {
    let message = fronius::Message {
        device: calls.byte()?,
        number: calls.byte()?,
        command: calls.byte()?,
        payload: calls.list()?.to_vec(),
    };
    let mut lent = calls.lent()?;
    let written = fronius::write(&message, &mut lent);
    Some(put_written(&written, &lent))
}

fn write_drives(calls: &mut Arguments) -> Option<Answer> {
    let message = drives::Message {
        opening: calls.byte()?,
        station: calls.pair()?,
        letter: calls.byte()?,
        payload: calls.list()?.to_vec(),
    };
    let mut lent = calls.lent()?;
    let written = drives::write(&message, &mut lent);
    Some(put_written(&written, &lent))
}

// ---- ComLynx meaning and addresses ----

fn meaning(calls: &mut Arguments) -> Option<Answer> {
    let (kind, payload) = (calls.byte()?, calls.list()?);
    Some(match comlynx::meaning(kind, payload) {
        Ok(meaning) => {
            Answer::of(number::DONE).byte(meaning.kind).byte(meaning.id).byte(meaning.code)
        }
        Err(refusal) => Answer::of(refusal).bytes(&[0; 3]),
    })
}

fn address_of_a_word(calls: &mut Arguments) -> Option<Answer> {
    let word = calls.word()?;
    Some(Answer::of(number::DONE).bytes(&comlynx::address_of(word)))
}

fn word_of_an_address(calls: &mut Arguments) -> Option<Answer> {
    let (network, subnet, node) = (calls.byte()?, calls.byte()?, calls.byte()?);
    Some(match comlynx::word_of(network, subnet, node) {
        Ok(word) => Answer::of(number::DONE).word(word),
        Err(refusal) => Answer::of(refusal).word(0),
    })
}

// ---- whether a drive replies ----

fn reply_expected(calls: &mut Arguments) -> Option<Answer> {
    let (opening, station) = (calls.byte()?, calls.pair()?);
    Some(match drives::reply_expected(opening, station) {
        Ok(expected) => Answer::of(number::DONE).byte(u8::from(expected)),
        Err(refusal) => Answer::of(refusal).byte(0),
    })
}

// ---- Eversolar requests, energy, waits ----

fn request_to_all(calls: &mut Arguments) -> Option<Answer> {
    let (which, mut lent) = (calls.byte()?, calls.lent()?);
    let written = eversolar::request_to_all(which, &mut lent);
    Some(put_written(&written, &lent))
}

fn request_to_one(calls: &mut Arguments) -> Option<Answer> {
    let (which, address, mut lent) = (calls.byte()?, calls.byte()?, calls.lent()?);
    let written = eversolar::request_to_one(which, address, &mut lent);
    Some(put_written(&written, &lent))
}

fn give_an_address(calls: &mut Arguments) -> Option<Answer> {
    let (serial, address, mut lent) = (calls.list()?, calls.byte()?, calls.lent()?);
    let written = eversolar::give_an_address(serial, address, &mut lent);
    Some(put_written(&written, &lent))
}

fn total_energy(calls: &mut Arguments) -> Option<Answer> {
    let (control, function, payload) = (calls.byte()?, calls.byte()?, calls.list()?);
    Some(match eversolar::total_energy(control, function, payload) {
        Ok(tenths) => Answer::of(number::DONE).bytes(&tenths.to_le_bytes()),
        Err(refusal) => Answer::of(refusal).bytes(&[0; 4]),
    })
}

fn wait(calls: &mut Arguments) -> Option<Answer> {
    let (serial, attempt) = (calls.number(8)?, calls.byte()?);
    Some(match eversolar::wait(serial, attempt) {
        Ok(units) => Answer::of(number::DONE).bytes(&units.to_le_bytes()),
        Err(refusal) => Answer::of(refusal).bytes(&[0; 8]),
    })
}

fn word_of_two_bytes(calls: &mut Arguments) -> Option<Answer> {
    let (first, second) = (calls.byte()?, calls.byte()?);
    Some(Answer::of(number::DONE).word(eversolar::word_of(first, second)))
}

fn two_bytes_of_a_word(calls: &mut Arguments) -> Option<Answer> {
    let word = calls.word()?;
    Some(Answer::of(number::DONE).bytes(&eversolar::high_byte_first(word)))
}

// ---- Fronius values ----

fn measured_value(calls: &mut Arguments) -> Option<Answer> {
    let (signed, payload) = (calls.byte()?, calls.list()?);
    Some(match fronius::thousandths(signed == 1, payload) {
        Ok(thousandths) => Answer::of(number::DONE).bytes(&thousandths.to_le_bytes()),
        Err(refusal) => Answer::of(refusal).bytes(&[0; 8]),
    })
}

fn reading(calls: &mut Arguments) -> Option<Answer> {
    let (device, command, payload) = (calls.byte()?, calls.byte()?, calls.list()?);
    Some(match fronius::reading(device, command, payload) {
        Ok(reading) => Answer::of(number::DONE)
            .byte(reading.kind)
            .bytes(&reading.double.to_bits().to_le_bytes()),
        Err(refusal) => Answer::of(refusal).bytes(&[0; 9]),
    })
}

// ---- roster ----

/// The places of the list handed over, or nothing where it is no roster by its size; and the
/// bytes to hand back where nothing changes.
type Cutting = fn(&[u8]) -> (Option<Vec<Vec<u8>>>, Vec<u8>);

fn over_bytes(list: &[u8]) -> (Option<Vec<Vec<u8>>>, Vec<u8>) {
    (roster::places_of(list), list.to_vec())
}

/// "the list is cut into places of 17 bytes; the number of places is the list's length by 17,
/// and a rest is dropped".
fn over_structs(list: &[u8]) -> (Option<Vec<Vec<u8>>>, Vec<u8>) {
    let places = roster::cut_into_places(list);
    let bytes = roster::bytes_of(&places);
    (Some(places), bytes)
}

fn roster_give(calls: &mut Arguments, cut: Cutting) -> Option<Answer> {
    let (list, serial) = (calls.list()?, calls.list()?);
    let (places, unchanged) = cut(list);
    let Some(mut places) = places else {
        return Some(Answer::of(number::SPOILT).byte(0).list(&unchanged));
    };
    let (number, address) = number_and_address(roster::give(&mut places, serial));
    Some(Answer::of(number).byte(address).list(&roster::bytes_of(&places)))
}

fn roster_remove(calls: &mut Arguments, cut: Cutting) -> Option<Answer> {
    let (list, address) = (calls.list()?, calls.byte()?);
    let (places, unchanged) = cut(list);
    let Some(mut places) = places else {
        return Some(Answer::of(number::SPOILT).list(&unchanged));
    };
    let number = match roster::remove(&mut places, address) {
        Ok(()) => number::DONE,
        Err(refusal) => refusal,
    };
    Some(Answer::of(number).list(&roster::bytes_of(&places)))
}

fn roster_find(calls: &mut Arguments, cut: Cutting) -> Option<Answer> {
    let (list, serial) = (calls.list()?, calls.list()?);
    let (places, unchanged) = cut(list);
    let Some(places) = places else {
        return Some(Answer::of(number::SPOILT).byte(0).list(&unchanged));
    };
    let (number, address) = number_and_address(roster::find(&places, serial));
    Some(Answer::of(number).byte(address).list(&roster::bytes_of(&places)))
}

fn number_and_address(given: Result<u8, u8>) -> (u8, u8) {
    match given {
        Ok(address) => (number::DONE, address),
        Err(refusal) => (refusal, 0),
    }
}

// ---- packet and checksum ----

fn read_packet(calls: &mut Arguments) -> Option<Answer> {
    let list = calls.list()?;
    Some(match packet::read(list) {
        Ok(packet) => {
            Answer::of(number::DONE).byte(packet.port).byte(packet.count).word(packet.used as u16)
        }
        Err(refusal) => Answer::of(refusal).bytes(&[0; 4]),
    })
}

fn write_packet(calls: &mut Arguments) -> Option<Answer> {
    let (port, piece, mut lent) = (calls.byte()?, calls.list()?, calls.lent()?);
    let written = packet::write(port, piece, &mut lent);
    Some(put_written(&written, &lent))
}

fn checksum_over(calls: &mut Arguments) -> Option<Answer> {
    let list = calls.list()?;
    Some(Answer::of(number::DONE).word(checksum::over(list)))
}

fn checksum_going_on(calls: &mut Arguments) -> Option<Answer> {
    let (state, list) = (calls.word()?, calls.list()?);
    Some(Answer::of(number::DONE).word(checksum::going_on(state, list)))
}

fn checksum_sent(calls: &mut Arguments) -> Option<Answer> {
    let state = calls.word()?;
    Some(Answer::of(number::DONE).bytes(&checksum::sent(state)))
}

fn checksum_over_the_first(calls: &mut Arguments) -> Option<Answer> {
    let (count, list) = (calls.word()?, calls.list()?);
    let first = usize::from(count).min(list.len());
    Some(Answer::of(number::DONE).word(checksum::over(&list[..first])))
}

fn checksum_over_both(calls: &mut Arguments) -> Option<Answer> {
    let (first, second) = (calls.list()?, calls.list()?);
    Some(Answer::of(number::DONE).word(checksum::over_both(first, second)))
}

// ---- "the checksum of the small board, which has no table" ----

fn over_by_bits(calls: &mut Arguments) -> Option<Answer> {
    let list = calls.list()?;
    Some(Answer::of(number::DONE).word(checksum_by_bits::over(list)))
}

fn going_on_by_bits(calls: &mut Arguments) -> Option<Answer> {
    let (state, list) = (calls.word()?, calls.list()?);
    Some(Answer::of(number::DONE).word(checksum_by_bits::going_on(state, list)))
}

fn over_the_first_by_bits(calls: &mut Arguments) -> Option<Answer> {
    let (count, list) = (usize::from(calls.word()?), calls.list()?);
    Some(Answer::of(number::DONE).word(checksum_by_bits::over_the_first(count, list)))
}

fn over_both_by_bits(calls: &mut Arguments) -> Option<Answer> {
    let (first, second) = (calls.list()?, calls.list()?);
    Some(Answer::of(number::DONE).word(checksum_by_bits::over_both(first, second)))
}

// ---- the listing's lines ----

fn put_line(line: &str, mut lent: Vec<u8>) -> Answer {
    let written = hand_over(line.as_bytes(), &mut lent);
    put_written(&written, &lent)
}

fn header_line(calls: &mut Arguments) -> Option<Answer> {
    Some(put_line(lines::HEADER, calls.lent()?))
}

/// "a message's line where from, to and code have" these lengths.
fn message_line_of(calls: &mut Arguments, lengths: [usize; 3]) -> Option<Answer> {
    let port = calls.byte()?;
    let (from, to) = (calls.bytes(lengths[0])?.to_vec(), calls.bytes(lengths[1])?.to_vec());
    let (code, payload) = (calls.bytes(lengths[2])?.to_vec(), calls.list()?.to_vec());
    Some(put_message_line(port, &Fields { from, to, code, payload }, calls.lent()?))
}

fn put_message_line(port: u8, fields: &Fields, mut lent: Vec<u8>) -> Answer {
    let written = lines::write_message(port, fields, &mut lent);
    put_written(&written, &lent)
}

fn damage_line(calls: &mut Arguments) -> Option<Answer> {
    let (port, damage, lost) = (calls.byte()?, calls.byte()?, calls.word()?);
    Some(put_line(&lines::damage(port, damage, lost), calls.lent()?))
}

fn stop_line(calls: &mut Arguments) -> Option<Answer> {
    let refusal = calls.byte()?;
    Some(put_line(&lines::stop(refusal), calls.lent()?))
}

fn end_line(calls: &mut Arguments) -> Option<Answer> {
    let (messages, damages) = (calls.number(8)?, calls.number(8)?);
    Some(put_line(&lines::end(messages, damages), calls.lent()?))
}

// ---- all ports, and the listing packet by packet ----

/// "PORTS is: the STATE of ComLynx, of Eversolar, of Fronius and of drives."
fn ports_of(calls: &mut Arguments) -> Option<Ports> {
    Some(Ports {
        comlynx: comlynx_state(calls)?,
        eversolar: eversolar_state(calls)?,
        fronius: fronius_state(calls)?,
        drives: drives_state(calls)?,
    })
}

fn put_ports(answer: Answer, ports: &Ports) -> Answer {
    let answer = put_comlynx_state(answer, &ports.comlynx);
    let answer = put_eversolar_state(answer, &ports.eversolar);
    let answer = put_fronius_state(answer, &ports.fronius);
    put_drives_state(answer, &ports.drives)
}

fn read_a_port(calls: &mut Arguments) -> Option<Answer> {
    let (mut ports, port) = (ports_of(calls)?, calls.byte()?);
    let (piece, mut lent) = (calls.list()?, calls.lent()?);
    let reading = ports::read(&mut ports, port, piece, &mut lent);
    let answer = Answer::of(reading.number).word(reading.used as u16).word(reading.lost);
    let answer = match reading.message {
        Some(fields) => answer
            .list(&fields.from)
            .list(&fields.to)
            .list(&fields.code)
            .word(fields.payload.len() as u16),
        None => answer.list(&[]).list(&[]).list(&[]).word(0),
    };
    Some(put_ports(answer, &ports).list(&lent))
}

/// "LISTING is: PORTS, packets:Q, messages:Q, damages:Q."
fn listing_of(calls: &mut Arguments) -> Option<Listing> {
    let ports = ports_of(calls)?;
    let (packets, messages, damages) = (calls.number(8)?, calls.number(8)?, calls.number(8)?);
    Some(Listing { ports, packets, messages, damages })
}

fn put_listing(answer: Answer, listing: &Listing) -> Answer {
    let counts = [listing.packets, listing.messages, listing.damages];
    let put_count = |answer: Answer, count: u64| answer.bytes(&count.to_le_bytes());
    counts.into_iter().fold(put_ports(answer, &listing.ports), put_count)
}

fn list_a_packet(calls: &mut Arguments) -> Option<Answer> {
    let (mut listing, ended) = (listing_of(calls)?, calls.byte()?);
    let (input, mut lent) = (calls.list()?, calls.lent()?);
    let step = by_packet::next(&mut listing, ended == 1, input, &mut lent);
    let answer = Answer::of(step.number).byte(step.came);
    let answer = answer.word(step.used as u16).word(step.wrote as u16);
    Some(put_listing(answer, &listing).list(&lent))
}

// ---- slices ----

/// "sets the slice that the later ops go by".
fn set_the_slice(calls: &mut Arguments) -> Option<Answer> {
    let length = calls.number(4)? as usize;
    if length > LONGEST_SLICE_SET {
        return None;
    }
    calls.slice = calls.bytes(length)?;
    Some(Answer::of(number::DONE))
}

/// "the next answer from a place in the slice": `find` is the reader of a family, and `put_message`
/// puts its fields as ops 01 to 03 and 0A do.
fn ask<M>(
    calls: &mut Arguments,
    find: fn(&[u8], u64, &mut [u8]) -> Found<M>,
    put_message: fn(Answer, Option<M>) -> Answer,
) -> Option<Answer> {
    let (place, mut lent) = (calls.number(8)?, calls.lent()?);
    let found = find(calls.slice, place, &mut lent);
    let answer = Answer::of(found.number).bytes(&(found.place as u32).to_le_bytes());
    Some(put_message(answer.word(found.lost), found.message).list(&lent))
}

/// The slice as one whole stretch: nothing is told of a place.
fn judge_the_slice(calls: &mut Arguments) -> Option<Answer> {
    let mut lent = calls.lent()?;
    let found = slices::whole_stretch(calls.slice, &mut lent);
    let answer = Answer::of(found.number).word(found.lost);
    Some(put_comlynx_message(answer, found.message).list(&lent))
}
