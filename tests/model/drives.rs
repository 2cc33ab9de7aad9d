//! Pump drives: document 02, Req 04, over the page of document 003, with the bytes lost of its
//! Req 09. What both leave open is decided in docs/DRIVES.md.

use crate::number;
use crate::{
    hand_over, losing, not_written, one_call, Event, Outcome, Payload, Reading, Verdict, Written,
};

/// "A request starts with ENQ and ends with EOT. A normal response starts with ACK [..]. An error
/// response starts with NAK [..]." The page prints 05h and 04h; 06 and 15 are ASCII's.
pub const ENQ: u8 = 0x05;
pub const ACK: u8 = 0x06;
pub const NAK: u8 = 0x15;
pub const EOT: u8 = 0x04;

/// "requests hold 7 to 44, replies 7 to 39", opening byte and EOT included.
pub const SHORTEST_FRAME: usize = 7;
const LONGEST_REQUEST: usize = 44;
const LONGEST_REPLY: usize = 39;
/// What a request of 44 bytes has beside the 7 that every frame has.
pub const MOST_PAYLOAD: usize = 37;

/// "ENQ, ACK or NAK, a two-character station, a command letter [..], the rest in ASCII hex", all
/// as they are sent: what the characters mean as numbers is another question.
pub struct Message {
    pub opening: u8,
    pub station: [u8; 2],
    pub letter: u8,
    pub payload: Vec<u8>,
}

impl Payload for Message {
    fn payload(&self) -> &[u8] {
        &self.payload
    }
}

// ---- the sets ----

/// "ENQ, ACK or NAK".
fn opens(byte: u8) -> bool {
    matches!(byte, ENQ | ACK | NAK)
}

/// "R, W, X, Y, upper case only".
fn is_a_letter(byte: u8) -> bool {
    matches!(byte, b'R' | b'W' | b'X' | b'Y')
}

/// "characters 0-9 and A-F": a to f are outside.
fn is_a_digit(byte: u8) -> bool {
    matches!(byte, b'0'..=b'9' | b'A'..=b'F')
}

fn in_their_sets(message: &Message) -> bool {
    let digits = [&message.station[..], &message.payload].concat();
    opens(message.opening) && is_a_letter(message.letter) && digits.into_iter().all(is_a_digit)
}

/// The limit of an opening byte that is none of the three is that of a reply, so that a writer has
/// one for every byte.
fn longest_frame(opening: u8) -> usize {
    match opening {
        ENQ => LONGEST_REQUEST,
        _ => LONGEST_REPLY,
    }
}

// ---- writing ----

/// Opening byte, station, letter, payload, "two characters of sum, EOT".
pub fn frame(message: &Message) -> Vec<u8> {
    let mut summed = message.station.to_vec();
    summed.push(message.letter);
    summed.extend(&message.payload);
    let mut frame = vec![message.opening];
    frame.extend(&summed);
    frame.extend(in_two_digits(sum_of(&summed)));
    frame.push(EOT);
    frame
}

/// "the low 8 bits of the total of the characters from the station through the data".
pub fn sum_of(summed: &[u8]) -> u8 {
    let total: u64 = summed.iter().map(|&character| u64::from(character)).sum();
    (total % 256) as u8
}

/// A sum of A7 goes as the characters A and 7.
pub fn in_two_digits(sum: u8) -> [u8; 2] {
    let digits = b"0123456789ABCDEF";
    [digits[usize::from(sum / 16)], digits[usize::from(sum % 16)]]
}

/// 8, then 21, then 9: "in the writer between 8 and 9".
pub fn write(message: &Message, lent: &mut [u8]) -> Written {
    if SHORTEST_FRAME + message.payload.len() > longest_frame(message.opening) {
        return not_written(number::TOO_LONG);
    }
    if !in_their_sets(message) {
        return not_written(number::WRONG_CHARACTER);
    }
    hand_over(&frame(message), lent)
}

// ---- reading whole streams ----

/// "Bytes before an opening byte are ignored", behind a frame too.
pub fn events(stream: &[u8]) -> Vec<Event<Message>> {
    let mut events = Vec::new();
    let mut from = 0;
    while let Some((begin, end)) = next_frame(stream, from) {
        let frame = &stream[begin..end];
        let verdict = judge(frame[0], &frame[1..frame.len() - 1]);
        events.push(Event { end, outcome: losing(lost_with(frame), verdict) });
        from = end;
    }
    events
}

/// From an opening byte to the first EOT behind it, whatever stands between them: an opening byte
/// there opens nothing. No frame where there is no EOT yet.
fn next_frame(stream: &[u8], from: usize) -> Option<(usize, usize)> {
    let begin = from + stream[from..].iter().position(|&byte| opens(byte))?;
    let before_the_end = stream[begin..].iter().position(|&byte| byte == EOT)?;
    Some((begin, begin + before_the_end + 1))
}

/// Document 02, Req 09: "the frame from opening byte through EOT, 65,535 likewise", which stands
/// for that or more.
fn lost_with(frame: &[u8]) -> u16 {
    u16::try_from(frame.len()).unwrap_or(65_535)
}

/// "a damage after 3 for length and before 6". The characters are all between the opening byte and
/// the EOT; where they are not too few, the last two are the sum's.
fn judge(opening: u8, characters: &[u8]) -> Verdict<Message> {
    let length = 1 + characters.len() + 1;
    if length < SHORTEST_FRAME || length > longest_frame(opening) {
        return Err(number::WRONG_WHOLE_LENGTH);
    }
    let (summed, sum) = characters.split_at(characters.len() - 2);
    let message = message_of(opening, summed);
    if !in_their_sets(&message) || !sum.iter().copied().all(is_a_digit) {
        return Err(number::WRONG_CHARACTER);
    }
    if sum != in_two_digits(sum_of(summed)) {
        return Err(number::WRONG_SUM);
    }
    Ok(message)
}

fn message_of(opening: u8, summed: &[u8]) -> Message {
    let (station, letter) = ([summed[0], summed[1]], summed[2]);
    Message { opening, station, letter, payload: summed[3..].to_vec() }
}

// ---- single calls on a given state ----

/// The characters of the longest message and of its sum: a frame that has more is damage.
pub const MOST_HELD: usize = 42;
/// With opening byte and EOT 65,535, which stands for that or more.
const MOST_COUNTED: u16 = 65_533;

/// No frame is open. In a frame the stage is its opening byte.
const LOOKING: u8 = 0;

#[derive(Clone)]
pub struct State {
    pub held: Vec<u8>,
    pub stage: u8,
    pub count: u16,
}

/// The paper does not say what a fresh state holds: read as zeros.
pub fn fresh() -> State {
    State { held: vec![0; MOST_HELD], stage: LOOKING, count: 0 }
}

/// A host that lends the held bytes may lend another number of them: the state is spoilt then,
/// whatever its numbers are.
fn in_range(state: &State) -> bool {
    state.held.len() == MOST_HELD && numbers_in_range(state)
}

/// The ranges: where no frame is open nothing has come; in a frame 0 to 65,533 characters have.
fn numbers_in_range(state: &State) -> bool {
    match state.stage {
        LOOKING => state.count == 0,
        ENQ | ACK | NAK => state.count <= MOST_COUNTED,
        _ => false,
    }
}

pub fn read(state: &mut State, piece: &[u8], lent: &mut [u8]) -> Reading<Message> {
    one_call(in_range(state), piece, lent, |byte| take(state, byte))
}

/// "a frame is judged at its EOT": nothing is told before, however long or wrong it is.
fn take(state: &mut State, byte: u8) -> Option<Outcome<Message>> {
    match (state.stage, byte) {
        (LOOKING, ENQ | ACK | NAK) => state.stage = byte,
        (LOOKING, _) => {}
        (_, EOT) => return Some(take_the_end(state)),
        _ => hold(state, byte),
    }
    None
}

/// The first 42 characters are held; the others are counted and dropped.
fn hold(state: &mut State, byte: u8) {
    if usize::from(state.count) < MOST_HELD {
        state.held[usize::from(state.count)] = byte;
    }
    if state.count < MOST_COUNTED {
        state.count += 1;
    }
}

/// Lost are the characters counted, the opening byte and the EOT. Held bytes stay.
fn take_the_end(state: &mut State) -> Outcome<Message> {
    let lost = 1 + state.count + 1;
    let verdict = match state.held.get(..usize::from(state.count)) {
        Some(characters) => judge(state.stage, characters),
        None => Err(number::WRONG_WHOLE_LENGTH),
    };
    state.stage = LOOKING;
    state.count = 0;
    losing(lost, verdict)
}

// ---- meaning ----

/// Station 255, as two characters.
const EVERY_DRIVE: [u8; 2] = *b"FF";

/// "Station 255 in a request expects no reply." Any other request expects one, and a reply none.
/// A character outside its set is 21.
pub fn reply_expected(opening: u8, station: [u8; 2]) -> Result<bool, u8> {
    if !opens(opening) || !station.into_iter().all(is_a_digit) {
        return Err(number::WRONG_CHARACTER);
    }
    Ok(opening == ENQ && station != EVERY_DRIVE)
}
