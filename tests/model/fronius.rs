//! "Fronius on the wire".

use crate::number;
use crate::{
    hand_over, losing, not_written, one_call, Event, Outcome, Payload, Reading, Verdict, Written,
};

pub const START: u8 = 0x80;
pub const MOST_PAYLOAD: usize = 127;

/// "for Fronius device, number, command, 0 to 127 data bytes".
pub struct Message {
    pub device: u8,
    pub number: u8,
    pub command: u8,
    pub payload: Vec<u8>,
}

impl Payload for Message {
    fn payload(&self) -> &[u8] {
        &self.payload
    }
}

// ---- writing ----

/// "80 80 80, length, device, number, command, data, checksum". "Length always counts the data".
pub fn frame(message: &Message) -> Vec<u8> {
    let mut summed = vec![message.payload.len() as u8];
    summed.extend([message.device, message.number, message.command]);
    summed.extend(&message.payload);
    let mut frame = vec![START; 3];
    frame.extend(&summed);
    frame.push(sum_of(&summed));
    frame
}

/// "the sum of all but the start and itself, modulo 256".
pub fn sum_of(summed: &[u8]) -> u8 {
    let sum: u64 = summed.iter().map(|&byte| u64::from(byte)).sum();
    (sum % 256) as u8
}

/// "Writers test 8, then 9".
pub fn write(message: &Message, lent: &mut [u8]) -> Written {
    if message.payload.len() > MOST_PAYLOAD {
        return not_written(number::TOO_LONG);
    }
    hand_over(&frame(message), lent)
}

// ---- reading whole streams ----

/// "After a message, a 6 or a 7, the three are counted afresh."
pub fn events(stream: &[u8]) -> Vec<Event<Message>> {
    let mut events = Vec::new();
    let mut from = 0;
    while let Some(event) = next_event(stream, from) {
        from = event.end;
        events.push(event);
    }
    events
}

/// A start, its length, and the whole frame; nothing where it is not all there yet. Lost are the
/// last three 80 of the start and all from the length on (document 02, Req 09).
fn next_event(stream: &[u8], from: usize) -> Option<Event<Message>> {
    let position = position_of_length(stream, from)?;
    let length = stream[position];
    // "81 to FF is 7".
    if length > START {
        let outcome = losing(3 + 1, Err(number::WRONG_LENGTH_BYTE));
        return Some(Event { end: position + 1, outcome });
    }
    let end = position + 1 + 3 + usize::from(length) + 1;
    let frame = stream.get(position..end)?;
    let lost = 3 + frame.len() as u16;
    Some(Event { end, outcome: losing(lost, judge_frame(frame)) })
}

/// "after three successive 80 comes the length. A further 80 there is taken as part of the
/// start": the first byte other than 80 that three 80 stand directly before.
fn position_of_length(stream: &[u8], from: usize) -> Option<usize> {
    (from + 3..stream.len())
        .find(|&position| stream[position] != START && stream[position - 3..position] == [START; 3])
}

/// "A wrong sum is 6." `frame` is the length byte and all after it.
fn judge_frame(frame: &[u8]) -> Verdict<Message> {
    let (summed, sum) = frame.split_at(frame.len() - 1);
    if sum[0] != sum_of(summed) {
        return Err(number::WRONG_SUM);
    }
    Ok(Message {
        device: summed[1],
        number: summed[2],
        command: summed[3],
        payload: summed[4..].to_vec(),
    })
}

// ---- single calls on a given state ----

pub const MOST_HELD: usize = 130;

const AT_THE_START: u8 = 0;
const BODY: u8 = 1;

#[derive(Clone)]
pub struct State {
    pub held: Vec<u8>,
    pub stage: u8,
    pub count: u16,
    pub length: u16,
}

/// The paper does not say what a fresh state holds: read as zeros.
pub fn fresh() -> State {
    State { held: vec![0; MOST_HELD], stage: AT_THE_START, count: 0, length: 0 }
}

/// A host that lends the held bytes may lend another number of them: the state is spoilt then,
/// whatever its numbers are.
fn in_range(state: &State) -> bool {
    state.held.len() == MOST_HELD && numbers_in_range(state)
}

/// The ranges: at the start 0 to 3 successive 80; in the body a payload length of 0 to 127 and
/// 0 to 3 plus that length held.
fn numbers_in_range(state: &State) -> bool {
    match state.stage {
        AT_THE_START => state.count <= 3 && state.length == 0,
        BODY => state.length <= 127 && state.count <= 3 + state.length,
        _ => false,
    }
}

pub fn read(state: &mut State, piece: &[u8], lent: &mut [u8]) -> Reading<Message> {
    one_call(in_range(state), piece, lent, |byte| take(state, byte))
}

fn take(state: &mut State, byte: u8) -> Option<Outcome<Message>> {
    if state.stage == AT_THE_START {
        return take_at_the_start(state, byte);
    }
    if state.count == 3 + state.length {
        return Some(take_the_last(state, byte));
    }
    state.held[usize::from(state.count)] = byte;
    state.count += 1;
    None
}

/// Document 02, Req 09: "8 plus N for a wrong sum, 4 for a wrong length", however many 80 came.
const LOST_WITH_A_7: u16 = 4;
const LOST_WITH_A_6_OF_NO_PAYLOAD: u16 = 8;

fn take_at_the_start(state: &mut State, byte: u8) -> Option<Outcome<Message>> {
    if byte == START {
        state.count = 3.min(state.count + 1);
    } else if state.count < 3 {
        state.count = 0;
    } else if byte > START {
        count_afresh(state);
        return Some(losing(LOST_WITH_A_7, Err(number::WRONG_LENGTH_BYTE)));
    } else {
        begin_the_body(state, byte);
    }
    None
}

fn begin_the_body(state: &mut State, length: u8) {
    state.stage = BODY;
    state.count = 0;
    state.length = u16::from(length);
}

fn take_the_last(state: &mut State, byte: u8) -> Outcome<Message> {
    let mut frame = vec![state.length as u8];
    frame.extend(&state.held[..usize::from(state.count)]);
    frame.push(byte);
    let lost = LOST_WITH_A_6_OF_NO_PAYLOAD + state.length;
    count_afresh(state);
    losing(lost, judge_frame(&frame))
}

fn count_afresh(state: &mut State) {
    state.stage = AT_THE_START;
    state.count = 0;
    state.length = 0;
}

// ---- measured values and readings ----

/// "A measured value is three data bytes: high, low, exponent." "Not three bytes: 17."
fn measured(payload: &[u8]) -> Result<(u16, i8), u8> {
    match *payload {
        [high, low, exponent] => Ok((u16::from(high) * 256 + u16::from(low), exponent as i8)),
        _ => Err(number::NOT_FOR_THIS_CALL),
    }
}

/// "the exponent always signed"; "Exponent above 10: 15. Below -3: 16."
fn exponent_in_range(exponent: i8) -> Result<i32, u8> {
    if exponent > 10 {
        return Err(number::EXPONENT_TOO_HIGH);
    }
    if exponent < -3 {
        return Err(number::WRONG_ADDRESS_OR_EXPONENT_TOO_LOW);
    }
    Ok(i32::from(exponent))
}

/// "The result is value times ten to the exponent, given exactly as whole thousandths."
pub fn thousandths(signed: bool, payload: &[u8]) -> Result<i64, u8> {
    let (word, exponent) = measured(payload)?;
    let exponent = exponent_in_range(exponent)?;
    Ok(value_of(signed, word) * 10_i64.pow((exponent + 3) as u32))
}

/// "The value is signed or unsigned as the caller says".
fn value_of(signed: bool, word: u16) -> i64 {
    if signed && word >= 0x8000 {
        i64::from(word) - 0x1_0000
    } else {
        i64::from(word)
    }
}

/// "a power, an energy, a voltage, a current, a frequency, minutes or money".
const POWER: u8 = 1;
const ENERGY: u8 = 2;
const VOLTAGE: u8 = 3;
const CURRENT: u8 = 4;
const FREQUENCY: u8 = 5;
const MINUTES: u8 = 6;
const MONEY: u8 = 7;

/// "W: 10, 1A, 20. kWh: 11 to 13. A: 14, 17, 2B to 2D. V: 15, 18, 1B to 1D, 21 to 23, 2E.
/// Hz: 16. Minutes: 1E, 24. Money: 19, 1F."
fn kind_of(command: u8) -> Option<u8> {
    match command {
        0x10 | 0x1A | 0x20 => Some(POWER),
        0x11..=0x13 => Some(ENERGY),
        0x14 | 0x17 | 0x2B..=0x2D => Some(CURRENT),
        0x15 | 0x18 | 0x1B..=0x1D | 0x21..=0x23 | 0x2E => Some(VOLTAGE),
        0x16 => Some(FREQUENCY),
        0x1E | 0x24 => Some(MINUTES),
        0x19 | 0x1F => Some(MONEY),
        _ => None,
    }
}

pub struct ReadingOfACommand {
    pub kind: u8,
    pub double: f64,
}

/// "All unsigned; another command, or a device other than 01, is 17." "Tests: 17, then 15 or 16."
pub fn reading(device: u8, command: u8, payload: &[u8]) -> Result<ReadingOfACommand, u8> {
    if device != 0x01 {
        return Err(number::NOT_FOR_THIS_CALL);
    }
    let kind = kind_of(command).ok_or(number::NOT_FOR_THIS_CALL)?;
    let (value, exponent) = measured(payload)?;
    let exponent = exponent_in_range(exponent)?;
    Ok(ReadingOfACommand { kind, double: double_of(value, exponent) })
}

/// "For exponents 0 to 10 the double is exact; for -1 to -3 it is one division of the
/// two-byte value by 10, 100 or 1,000."
fn double_of(value: u16, exponent: i32) -> f64 {
    if exponent >= 0 {
        return (u64::from(value) * 10_u64.pow(exponent as u32)) as f64;
    }
    let divisor = match exponent {
        -1 => 10.0,
        -2 => 100.0,
        _ => 1000.0,
    };
    f64::from(value) / divisor
}
