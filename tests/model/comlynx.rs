//! "ComLynx on the wire".

use crate::checksum;
use crate::number;
use crate::{
    hand_over, losing, not_written, one_call, Event, Outcome, Payload, Reading, Verdict, Written,
};

pub const FLAG: u8 = 0x7E;
pub const ESCAPE: u8 = 0x7D;
pub const FLAG_STUFFED: u8 = 0x5E;
pub const ESCAPE_STUFFED: u8 = 0x5D;
pub const MOST_PAYLOAD: usize = 255;
/// "so a body has 10 to 265 bytes".
pub const SHORTEST_BODY: usize = 10;
pub const LONGEST_BODY: usize = 265;

/// "for ComLynx a source and a destination (16 bits each), a type byte, 0 to 255 data bytes".
pub struct Message {
    pub source: u16,
    pub destination: u16,
    pub kind: u8,
    pub payload: Vec<u8>,
}

impl Payload for Message {
    fn payload(&self) -> &[u8] {
        &self.payload
    }
}

// ---- writing ----

/// "Body: FF 03, source high byte first, destination likewise, size, type, data,
/// checksum low byte first. Size counts the data".
pub fn body(message: &Message) -> Vec<u8> {
    let mut body = vec![0xFF, 0x03];
    body.extend(message.source.to_be_bytes());
    body.extend(message.destination.to_be_bytes());
    body.push(message.payload.len() as u8);
    body.push(message.kind);
    body.extend(&message.payload);
    with_checksum(body)
}

/// The checksum "takes FF through the last data byte".
pub fn with_checksum(mut bytes: Vec<u8>) -> Vec<u8> {
    let sent = checksum::sent(checksum::over(&bytes));
    bytes.extend(sent);
    bytes
}

/// "7E becomes 7D 5E, 7D becomes 7D 5D, nothing else changes."
pub fn stuffed(body: &[u8]) -> Vec<u8> {
    let mut stuffed = Vec::new();
    for &byte in body {
        match byte {
            FLAG => stuffed.extend([ESCAPE, FLAG_STUFFED]),
            ESCAPE => stuffed.extend([ESCAPE, ESCAPE_STUFFED]),
            other => stuffed.push(other),
        }
    }
    stuffed
}

/// "A frame is 7E, the stuffed body, 7E."
pub fn frame(message: &Message) -> Vec<u8> {
    let mut frame = vec![FLAG];
    frame.extend(stuffed(&body(message)));
    frame.push(FLAG);
    frame
}

/// "Writers test 8, then 9".
pub fn write(message: &Message, lent: &mut [u8]) -> Written {
    if message.payload.len() > MOST_PAYLOAD {
        return not_written(number::TOO_LONG);
    }
    hand_over(&frame(message), lent)
}

// ---- reading whole streams ----

/// "bytes before the first 7E are ignored. Each stretch between two successive 7E is
/// judged at the second one, which also opens the next stretch."
pub fn events(stream: &[u8]) -> Vec<Event<Message>> {
    let flags = positions_of_flags(stream);
    let stretches = flags.windows(2);
    stretches.filter_map(|pair| event_of_stretch(stream, pair[0], pair[1])).collect()
}

fn positions_of_flags(stream: &[u8]) -> Vec<usize> {
    (0..stream.len()).filter(|&position| stream[position] == FLAG).collect()
}

fn event_of_stretch(stream: &[u8], opening: usize, closing: usize) -> Option<Event<Message>> {
    let stretch = &stream[opening + 1..closing];
    let end = closing + 1;
    judge_stretch(stretch)
        .map(|verdict| Event { end, outcome: losing(lost_with(stretch), verdict) })
}

/// Document 02, Req 09: "the bytes between the two flags, 65,535 standing for that or more", as
/// they were sent.
fn lost_with(stretch: &[u8]) -> u16 {
    u16::try_from(stretch.len()).unwrap_or(65_535)
}

/// "An empty stretch gives nothing." "every 7D is followed inside the stretch by 5E or 5D,
/// else 2", then the checks of the unstuffed body.
fn judge_stretch(stretch: &[u8]) -> Option<Verdict<Message>> {
    if stretch.is_empty() {
        return None;
    }
    match unstuffed(stretch) {
        None => Some(Err(number::BROKEN_PAIR)),
        Some(body) => Some(judge_body(&body)),
    }
}

/// The stretch cut at every 7D: what follows each 7D must begin with 5E or 5D.
fn unstuffed(stretch: &[u8]) -> Option<Vec<u8>> {
    let mut parts = stretch.split(|&byte| byte == ESCAPE);
    let mut body = parts.next().unwrap_or(&[]).to_vec();
    for part in parts {
        let (&mate, rest) = part.split_first()?;
        body.push(stands_for(mate)?);
        body.extend(rest);
    }
    Some(body)
}

/// What 7D and its mate stand for; nothing where the pair is broken.
fn stands_for(mate: u8) -> Option<u8> {
    match mate {
        FLAG_STUFFED => Some(FLAG),
        ESCAPE_STUFFED => Some(ESCAPE),
        _ => None,
    }
}

/// "the unstuffed body has 10 to 265 bytes, else 3; it begins FF 03, else 4; size equals
/// its length less 10, else 5; the checksum agrees, else 6."
fn judge_body(body: &[u8]) -> Verdict<Message> {
    if body.len() < SHORTEST_BODY || body.len() > LONGEST_BODY {
        return Err(number::WRONG_WHOLE_LENGTH);
    }
    if body[0] != 0xFF || body[1] != 0x03 {
        return Err(number::WRONG_START);
    }
    if usize::from(body[6]) != body.len() - 10 {
        return Err(number::WRONG_SIZE);
    }
    if !checksum_agrees(body) {
        return Err(number::WRONG_SUM);
    }
    Ok(message_of(body))
}

fn checksum_agrees(body: &[u8]) -> bool {
    let (covered, sent) = body.split_at(body.len() - 2);
    checksum::sent(checksum::over(covered)) == sent
}

fn message_of(body: &[u8]) -> Message {
    Message {
        source: word_high_first(body[2], body[3]),
        destination: word_high_first(body[4], body[5]),
        kind: body[7],
        payload: body[8..body.len() - 2].to_vec(),
    }
}

fn word_high_first(first: u8, second: u8) -> u16 {
    u16::from(first) * 256 + u16::from(second)
}

// ---- single calls on a given state ----

/// More held than a body may have.
const OVERFULL: u16 = 266;

const BEFORE_A_FLAG: u8 = 0;
const IN_A_STRETCH: u8 = 1;
const AFTER_ITS_ESCAPE: u8 = 2;
const WITH_A_BROKEN_PAIR: u8 = 3;

#[derive(Clone)]
pub struct State {
    pub held: Vec<u8>,
    pub stage: u8,
    pub count: u16,
    /// The bytes since the flag as they were sent, up to 65,535, which stands for that or more.
    pub came: u16,
}

/// The paper does not say what a fresh state holds: read as zeros.
pub fn fresh() -> State {
    State { held: vec![0; LONGEST_BODY], stage: BEFORE_A_FLAG, count: 0, came: 0 }
}

/// A host that lends the held bytes may lend another number of them: the state is spoilt then,
/// whatever its numbers are.
fn in_range(state: &State) -> bool {
    state.held.len() == LONGEST_BODY && numbers_in_range(state)
}

/// The ranges: before a flag 0 held and none come; in a stretch 0 to 266 held, and any number come.
fn numbers_in_range(state: &State) -> bool {
    match state.stage {
        BEFORE_A_FLAG => state.count == 0 && state.came == 0,
        IN_A_STRETCH | AFTER_ITS_ESCAPE | WITH_A_BROKEN_PAIR => state.count <= OVERFULL,
        _ => false,
    }
}

pub fn read(state: &mut State, piece: &[u8], lent: &mut [u8]) -> Reading<Message> {
    one_call(in_range(state), piece, lent, |byte| take(state, byte))
}

fn take(state: &mut State, byte: u8) -> Option<Outcome<Message>> {
    if byte == FLAG {
        let outcome = judge_at_a_flag(state).map(|verdict| losing(state.came, verdict));
        state.stage = IN_A_STRETCH;
        state.count = 0;
        state.came = 0;
        return outcome;
    }
    if state.stage != BEFORE_A_FLAG {
        state.came = state.came.saturating_add(1);
    }
    match state.stage {
        IN_A_STRETCH => take_in_a_stretch(state, byte),
        AFTER_ITS_ESCAPE => take_after_an_escape(state, byte),
        _ => {}
    }
    None
}

fn judge_at_a_flag(state: &State) -> Option<Verdict<Message>> {
    match state.stage {
        BEFORE_A_FLAG => None,
        IN_A_STRETCH if state.count == 0 => None,
        IN_A_STRETCH if state.count == OVERFULL => Some(Err(number::WRONG_WHOLE_LENGTH)),
        IN_A_STRETCH => Some(judge_body(&state.held[..usize::from(state.count)])),
        _ => Some(Err(number::BROKEN_PAIR)),
    }
}

fn take_in_a_stretch(state: &mut State, byte: u8) {
    if byte == ESCAPE {
        state.stage = AFTER_ITS_ESCAPE;
    } else {
        hold(state, byte);
    }
}

fn take_after_an_escape(state: &mut State, byte: u8) {
    match stands_for(byte) {
        Some(unstuffed) => {
            state.stage = IN_A_STRETCH;
            hold(state, unstuffed);
        }
        None => state.stage = WITH_A_BROKEN_PAIR,
    }
}

fn hold(state: &mut State, byte: u8) {
    if usize::from(state.count) < LONGEST_BODY {
        state.held[usize::from(state.count)] = byte;
    }
    if state.count < OVERFULL {
        state.count += 1;
    }
}

// ---- meaning and addresses ----

pub const REQUEST: u8 = 1;
pub const REPLY: u8 = 2;
pub const TRANSMISSION_ERROR: u8 = 3;
pub const APPLICATION_ERROR: u8 = 4;

pub struct Meaning {
    pub kind: u8,
    pub id: u8,
    pub code: u8,
}

/// "bits 0 to 4 are the id; bit 7 marks a reply; bit 6 a transmission error, bit 5 an
/// application error": 17 "for an error bit in a request, both error bits, or an error
/// reply whose data is not one byte".
pub fn meaning(kind: u8, payload: &[u8]) -> Result<Meaning, u8> {
    let id = kind % 32;
    let reply = bit(kind, 7);
    let transmission_error = bit(kind, 6);
    let application_error = bit(kind, 5);
    match (reply, transmission_error, application_error) {
        (false, false, false) => Ok(Meaning { kind: REQUEST, id, code: 0 }),
        (true, false, false) => Ok(Meaning { kind: REPLY, id, code: 0 }),
        (true, true, false) => error_reply(TRANSMISSION_ERROR, id, payload),
        (true, false, true) => error_reply(APPLICATION_ERROR, id, payload),
        _ => Err(number::NOT_FOR_THIS_CALL),
    }
}

fn bit(byte: u8, position: u32) -> bool {
    byte >> position & 1 == 1
}

fn error_reply(kind: u8, id: u8, payload: &[u8]) -> Result<Meaning, u8> {
    match payload {
        [code] => Ok(Meaning { kind, id, code: *code }),
        _ => Err(number::NOT_FOR_THIS_CALL),
    }
}

/// "An address is network (4 bits), subnet (4 bits), node (8 bits) from the top".
pub fn address_of(word: u16) -> [u8; 3] {
    let network = word / 4096;
    let subnet = word / 256 % 16;
    let node = word % 256;
    [network as u8, subnet as u8, node as u8]
}

/// A network or a subnet above 15 has no four bits: 16.
pub fn word_of(network: u8, subnet: u8, node: u8) -> Result<u16, u8> {
    if network > 15 || subnet > 15 {
        return Err(number::WRONG_ADDRESS_OR_EXPONENT_TOO_LOW);
    }
    Ok(u16::from(network) * 4096 + u16::from(subnet) * 256 + u16::from(node))
}
