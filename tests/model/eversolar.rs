//! "Eversolar on the wire", with the order of the words that document 02, Req 03, corrects, and
//! the bytes lost of its Req 09.

use crate::number;
use crate::{
    hand_over, losing, not_written, one_call, Event, Outcome, Payload, Reading, Verdict, Written,
};

pub const HEADER: [u8; 2] = [0xAA, 0x55];
pub const MOST_PAYLOAD: usize = 255;
/// "The master is 01 00."
pub const MASTER: [u8; 2] = [0x01, 0x00];
/// The lead: header, source, destination, control, function, length. "After 9 bytes, N is known".
const LEAD_BYTES: usize = 9;

/// "for Eversolar source and destination (two bytes each, as sent), control, function,
/// 0 to 255 data bytes". As sent: an address is no word, and no order of words turns it.
pub struct Message {
    pub source: [u8; 2],
    pub destination: [u8; 2],
    pub control: u8,
    pub function: u8,
    pub payload: Vec<u8>,
}

impl Payload for Message {
    fn payload(&self) -> &[u8] {
        &self.payload
    }
}

// ---- writing ----

/// "AA 55, source, destination, control, function, length N, N data bytes, two checksum bytes."
pub fn frame(message: &Message) -> Vec<u8> {
    let mut frame = HEADER.to_vec();
    frame.extend(message.source);
    frame.extend(message.destination);
    frame.extend([message.control, message.function]);
    frame.push(message.payload.len() as u8);
    frame.extend(&message.payload);
    let sum = sum_of(&frame);
    frame.extend(high_byte_first(sum));
    frame
}

/// "the sum of all earlier bytes, header included, modulo 65,536".
pub fn sum_of(earlier: &[u8]) -> u16 {
    let sum: u64 = earlier.iter().map(|&byte| u64::from(byte)).sum();
    (sum % 65_536) as u16
}

/// Document 02, Req 03: "checksum and data words go high byte first".
pub fn high_byte_first(word: u16) -> [u8; 2] {
    [(word / 256) as u8, (word % 256) as u8]
}

pub fn word_of(first: u8, second: u8) -> u16 {
    256 * u16::from(first) + u16::from(second)
}

/// "Writers test 8, then 9".
pub fn write(message: &Message, lent: &mut [u8]) -> Written {
    if message.payload.len() > MOST_PAYLOAD {
        return not_written(number::TOO_LONG);
    }
    hand_over(&frame(message), lent)
}

// ---- reading whole streams ----

/// "look for AA directly followed by 55"; "After a message or a 6, looking starts afresh at
/// the next byte."
pub fn events(stream: &[u8]) -> Vec<Event<Message>> {
    let mut events = Vec::new();
    let mut from = 0;
    while let Some((begin, end)) = next_frame(stream, from) {
        // Document 02, Req 09: "the whole frame".
        let lost = (end - begin) as u16;
        events.push(Event { end, outcome: losing(lost, judge_frame(&stream[begin..end])) });
        from = end;
    }
    events
}

/// Where the next whole frame begins and ends; nothing where it is not all there yet.
fn next_frame(stream: &[u8], from: usize) -> Option<(usize, usize)> {
    let begin = from + position_of_header(&stream[from..])?;
    let payload_length = *stream.get(begin + LEAD_BYTES - 1)?;
    let end = begin + LEAD_BYTES + usize::from(payload_length) + 2;
    (end <= stream.len()).then_some((begin, end))
}

/// "the second of two AA may still open a header": every position is tried.
fn position_of_header(stream: &[u8]) -> Option<usize> {
    stream.windows(2).position(|pair| pair == HEADER)
}

/// "at the last byte a wrong sum is 6".
fn judge_frame(frame: &[u8]) -> Verdict<Message> {
    let (earlier, sum) = frame.split_at(frame.len() - 2);
    if high_byte_first(sum_of(earlier)) != sum {
        return Err(number::WRONG_SUM);
    }
    Ok(Message {
        source: [frame[2], frame[3]],
        destination: [frame[4], frame[5]],
        control: frame[6],
        function: frame[7],
        payload: earlier[LEAD_BYTES..].to_vec(),
    })
}

// ---- single calls on a given state ----

pub const MOST_HELD: usize = 263;

const LOOKING: u8 = 0;
const AA_SEEN: u8 = 1;
const LEAD: u8 = 2;
const BODY: u8 = 3;

#[derive(Clone)]
pub struct State {
    pub held: Vec<u8>,
    pub stage: u8,
    pub count: u16,
    pub length: u16,
}

/// The paper does not say what a fresh state holds: read as zeros.
pub fn fresh() -> State {
    State { held: vec![0; MOST_HELD], stage: LOOKING, count: 0, length: 0 }
}

/// A host that lends the held bytes may lend another number of them: the state is spoilt then,
/// whatever its numbers are.
fn in_range(state: &State) -> bool {
    state.held.len() == MOST_HELD && numbers_in_range(state)
}

/// The ranges: looking or after an AA nothing; in the lead 0 to 6 of seven bytes; in the body
/// a payload length of 0 to 255 and 7 to 8 plus that length held.
fn numbers_in_range(state: &State) -> bool {
    match state.stage {
        LOOKING | AA_SEEN => state.count == 0 && state.length == 0,
        LEAD => state.count <= 6 && state.length == 0,
        BODY => state.length <= 255 && state.count >= 7 && state.count <= 8 + state.length,
        _ => false,
    }
}

pub fn read(state: &mut State, piece: &[u8], lent: &mut [u8]) -> Reading<Message> {
    one_call(in_range(state), piece, lent, |byte| take(state, byte))
}

fn take(state: &mut State, byte: u8) -> Option<Outcome<Message>> {
    match state.stage {
        LOOKING | AA_SEEN => look(state, byte),
        LEAD => take_in_the_lead(state, byte),
        _ if state.count == 8 + state.length => return Some(take_the_last(state, byte)),
        _ => hold(state, byte),
    }
    None
}

fn look(state: &mut State, byte: u8) {
    state.stage = match (state.stage, byte) {
        (AA_SEEN, 0x55) => LEAD,
        (_, 0xAA) => AA_SEEN,
        _ => LOOKING,
    };
}

/// "After 9 bytes, N is known": AA 55 and the seven of the lead.
fn take_in_the_lead(state: &mut State, byte: u8) {
    hold(state, byte);
    if state.count == 7 {
        state.stage = BODY;
        state.length = u16::from(byte);
    }
}

fn hold(state: &mut State, byte: u8) {
    state.held[usize::from(state.count)] = byte;
    state.count += 1;
}

/// The state's length says where the frame ends, it is what the sum counts as the length byte, and
/// it is the N of "11 plus N" (document 02, Req 09). The length byte that is held differs from it
/// in a forged state only, and counts nowhere.
fn take_the_last(state: &mut State, byte: u8) -> Outcome<Message> {
    let mut frame = HEADER.to_vec();
    frame.extend(&state.held[..usize::from(state.count)]);
    frame[8] = state.length as u8;
    frame.push(byte);
    let lost = 11 + state.length;
    start_afresh(state);
    losing(lost, judge_frame(&frame))
}

fn start_afresh(state: &mut State) {
    state.stage = LOOKING;
    state.count = 0;
    state.length = 0;
}

// ---- requests ----

/// "every source is the master"; "Only 10/01 carries data".
fn request(destination: [u8; 2], control: u8, function: u8, payload: Vec<u8>) -> Vec<u8> {
    frame(&Message { source: MASTER, destination, control, function, payload })
}

/// "10/00 off-line query, destination 00 00"; "10/03 reconnect and 10/04 re-register,
/// destination 00 00".
pub fn request_to_all(which: u8, lent: &mut [u8]) -> Written {
    let function = match which {
        1 => 0x03,
        2 => 0x04,
        _ => 0x00,
    };
    hand_over(&request([0, 0], 0x10, function, vec![]), lent)
}

/// "10/02 remove"; "11/02, 11/03, 11/04, 11/10 queries. The others go to 00 followed by the
/// address." "request builders 16, then 17, then 9".
pub fn request_to_one(which: u8, address: u8, lent: &mut [u8]) -> Written {
    if !is_an_address(address) {
        return not_written(number::WRONG_ADDRESS_OR_EXPONENT_TOO_LOW);
    }
    let (control, function) = match which {
        1 => (0x11, 0x02),
        2 => (0x11, 0x03),
        3 => (0x11, 0x04),
        4 => (0x11, 0x10),
        _ => (0x10, 0x02),
    };
    hand_over(&request([0, address], control, function, vec![]), lent)
}

/// "10/01 give an address, destination 00 00 (data: 16 serial bytes and the address)".
/// "An address is 1 to 254, else 16; a serial not of 16 bytes is 17."
pub fn give_an_address(serial: &[u8], address: u8, lent: &mut [u8]) -> Written {
    if !is_an_address(address) {
        return not_written(number::WRONG_ADDRESS_OR_EXPONENT_TOO_LOW);
    }
    if serial.len() != 16 {
        return not_written(number::NOT_FOR_THIS_CALL);
    }
    let mut payload = serial.to_vec();
    payload.push(address);
    hand_over(&request([0, 0], 0x10, 0x01, payload), lent)
}

/// "An address is 1 to 254".
pub fn is_an_address(address: u8) -> bool {
    (1..=254).contains(&address)
}

// ---- replies and waits ----

/// "Reply 11/90: total energy is item 20 times 65,536 plus item 21, in tenths of a kWh";
/// "Another control or function, or fewer than 44 data bytes: 17."
pub fn total_energy(control: u8, function: u8, payload: &[u8]) -> Result<u32, u8> {
    if control != 0x11 || function != 0x90 || payload.len() < 44 {
        return Err(number::NOT_FOR_THIS_CALL);
    }
    Ok(item(payload, 20) * 65_536 + item(payload, 21))
}

/// "item k being the word at data bytes 2k and 2k+1", high byte first (document 02, Req 03).
fn item(payload: &[u8], k: usize) -> u32 {
    u32::from(word_of(payload[2 * k], payload[2 * k + 1]))
}

/// "attempt 1 waits 0; each later attempt waits the remainder by 15 of what is left, and
/// leaves the quotient by 15 to the attempt after it. Attempts 1 to 4, else 17."
pub fn wait(serial: u64, attempt: u8) -> Result<u64, u8> {
    let (mut waits, mut left) = (vec![0], serial);
    for _later in 2..=4 {
        waits.push(left % 15);
        left /= 15;
    }
    match attempt {
        1..=4 => Ok(waits[usize::from(attempt) - 1]),
        _ => Err(number::NOT_FOR_THIS_CALL),
    }
}
