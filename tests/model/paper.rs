//! A model of document 01, as the requests of document 02 that have landed correct it, written
//! from their text alone.
//!
//! Each rule is a small function, and the sentence it follows stands above it.
//! The listing reads all bytes of a port at once, in whole stretches and whole
//! frames; single calls on a given state, those of a listing made packet by packet too, go byte
//! by byte. A slice (document 02, Req 10) is read from a place on, by its frame edges. The checksum
//! of ComLynx goes by the entries of the table, and once more bit by bit (Req 05).
//!
//! A sentence that is quoted keeps the paper's words. Elsewhere a message's data bytes are its
//! payload, a packet's line bytes are its piece, and what stands before either is the lead. A line
//! is a line of text of a listing.

pub mod by_packet;
pub mod checksum;
pub mod checksum_by_bits;
pub mod comlynx;
pub mod drives;
pub mod eversolar;
pub mod fronius;
pub mod lines;
pub mod listing;
pub mod packet;
pub mod ports;
pub mod probe;
pub mod roster;
pub mod slices;

/// The answer numbers ("Answer numbers", and document 02, Req 04 and 10): 2 to 7 and 21 are damages,
/// 8 to 19, 21, 23 and 24 refusals. So 21 is both, and a number alone does not tell a refusal: what
/// gives it does.
pub mod number {
    /// Done; for a reader: the piece is used up.
    pub const DONE: u8 = 0;
    /// A message was read.
    pub const MESSAGE: u8 = 1;
    /// ComLynx: a 7D of the stretch is not followed by 5E or 5D.
    pub const BROKEN_PAIR: u8 = 2;
    /// ComLynx: the whole body has fewer than 10 bytes or more than 265. Drives: the whole frame has
    /// fewer than 7 bytes, or more than 44 in a request or 39 in a reply. A wrong length byte is 7.
    pub const WRONG_WHOLE_LENGTH: u8 = 3;
    /// ComLynx: the body does not begin FF 03.
    pub const WRONG_START: u8 = 4;
    /// ComLynx: the size byte is not the body's length less 10.
    pub const WRONG_SIZE: u8 = 5;
    /// Any family: the checksum does not agree.
    pub const WRONG_SUM: u8 = 6;
    /// Fronius: 81 to FF stands where the length byte is due. A body of a wrong length is 3.
    pub const WRONG_LENGTH_BYTE: u8 = 7;
    /// A payload is too long to write, or a field of a line is.
    pub const TOO_LONG: u8 = 8;
    /// The lent buffer is too small.
    pub const NO_ROOM: u8 = 9;
    /// A packet does not begin `SBR`.
    pub const WRONG_MARK: u8 = 10;
    /// A packet's version is neither 00 01 nor 00 02.
    pub const WRONG_VERSION: u8 = 11;
    /// A port is not 1 to 4, a packet's port is none of its version, or its count is not 1 to 240.
    pub const WRONG_PORT_OR_COUNT: u8 = 12;
    /// A packet is not all there.
    pub const BYTES_MISSING: u8 = 13;
    /// All 254 places are used by other serials.
    pub const ROSTER_FULL: u8 = 14;
    /// The exponent of a measured value is above 10.
    pub const EXPONENT_TOO_HIGH: u8 = 15;
    /// An address, or its network or subnet, is out of its range, or the address to remove is
    /// free; or the exponent of a measured value is below -3. The paper has one number for both.
    pub const WRONG_ADDRESS_OR_EXPONENT_TOO_LOW: u8 = 16;
    /// What was handed over is nothing that this call takes: error bits that do not fit, a message
    /// of another kind or with a payload of another length, a serial not of 16 bytes, an attempt
    /// not 1 to 4.
    pub const NOT_FOR_THIS_CALL: u8 = 17;
    /// A roster that breaks its rules; a reader's state or the counts of a listing outside their
    /// range.
    pub const SPOILT: u8 = 18;
    /// More input follows after 65,536 packets.
    pub const TOO_MANY_PACKETS: u8 = 19;
    /// Drives: a character is outside its set. A damage where a reader tells it, and a refusal where
    /// a writer or another call does.
    pub const WRONG_CHARACTER: u8 = 21;
    /// A slice has more than 65,536 bytes.
    pub const SLICE_TOO_LONG: u8 = 23;
    /// A place is past the end of its slice.
    pub const PLACE_PAST_THE_END: u8 = 24;
}

/// What the checks of a stretch or a frame say: a message, or the number of a damage.
pub type Verdict<M> = Result<M, u8>;

/// Document 02, Req 09: "Every damage answer now carries a byte number."
pub struct Damage {
    pub number: u8,
    pub lost: u16,
}

/// What a stretch, a frame or a byte settles: a message, or a damage.
pub type Outcome<M> = Result<M, Damage>;

/// A damage loses so many bytes; a message loses none.
pub fn losing<M>(lost: u16, verdict: Verdict<M>) -> Outcome<M> {
    verdict.map_err(|number| Damage { number, lost })
}

/// An outcome in a whole stream, and how many of the stream's bytes it took to settle it.
pub struct Event<M> {
    pub end: usize,
    pub outcome: Outcome<M>,
}

/// What a reader hands back from one call, beside its state and the lent buffer.
pub struct Reading<M> {
    pub number: u8,
    pub used: usize,
    /// The bytes lost with a damage; 0 with any other answer.
    pub lost: u16,
    pub message: Option<M>,
}

/// A message of any family, as far as a reader's lent buffer goes.
pub trait Payload {
    fn payload(&self) -> &[u8];
}

/// "reader: under 255 bytes lent": 9. One limit for all families.
pub const LEAST_LENT_TO_A_READER: usize = 255;

/// "A reader tests 18, then 9, then the piece."
pub fn refusal_before_the_piece(state_in_range: bool, lent: &[u8]) -> Option<u8> {
    if !state_in_range {
        return Some(number::SPOILT);
    }
    if lent.len() < LEAST_LENT_TO_A_READER {
        return Some(number::NO_ROOM);
    }
    None
}

/// One call of a reader: refusals first, then byte after byte until one settles something.
/// `take` gives the next byte to the state.
pub fn one_call<M: Payload>(
    state_in_range: bool,
    piece: &[u8],
    lent: &mut [u8],
    mut take: impl FnMut(u8) -> Option<Outcome<M>>,
) -> Reading<M> {
    if let Some(refusal) = refusal_before_the_piece(state_in_range, lent) {
        return Reading { number: refusal, used: 0, lost: 0, message: None };
    }
    for (position, &byte) in piece.iter().enumerate() {
        if let Some(outcome) = take(byte) {
            return settled(position + 1, outcome, lent);
        }
    }
    // "done; for a reader, piece used up": "all bytes used, lent buffer unchanged".
    Reading { number: number::DONE, used: piece.len(), lost: 0, message: None }
}

/// 1: "bytes used up to its last; data at the front of the lent buffer, rest unchanged".
/// 2 to 7, and a 21 that "returns and leaves what 2 to 7 do": "bytes used up to the one that settles
/// it, lent buffer unchanged".
fn settled<M: Payload>(used: usize, outcome: Outcome<M>, lent: &mut [u8]) -> Reading<M> {
    match outcome {
        Ok(message) => {
            put_in_front(message.payload(), lent);
            Reading { number: number::MESSAGE, used, lost: 0, message: Some(message) }
        }
        Err(damage) => Reading { number: damage.number, used, lost: damage.lost, message: None },
    }
}

/// What a writer, a builder or the packet writer hands back beside the lent buffer.
pub struct Written {
    pub number: u8,
    pub length: usize,
}

/// A refusal: "every other number returned [..] is 0".
pub fn not_written(refusal: u8) -> Written {
    Written { number: refusal, length: 0 }
}

/// "writer: room below the exact written length": 9, "nothing used or written".
/// Else 0: "the length, bytes at the front of the lent buffer, rest unchanged".
pub fn hand_over(bytes: &[u8], lent: &mut [u8]) -> Written {
    if lent.len() < bytes.len() {
        return not_written(number::NO_ROOM);
    }
    put_in_front(bytes, lent);
    Written { number: number::DONE, length: bytes.len() }
}

fn put_in_front(bytes: &[u8], lent: &mut [u8]) {
    lent[..bytes.len()].copy_from_slice(bytes);
}
