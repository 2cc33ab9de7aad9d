//! The checksum of ComLynx as the smallest board has it. Document 02, Req 05: "Work the ComLynx
//! checksum out bit by bit there and remove the table from that build. Nothing a caller is told
//! changes." So there is no entry and no table here, and nothing of `checksum` is called: that the
//! two tell the same can then be asked of them.

/// "The checksum starts at FFFF".
const START: u16 = 0xFFFF;

/// "the reversed polynomial 8408", which is X^16 + X^12 + X^5 + 1 in document 000, 5.1. Reversed, 1
/// is bit 15, X^5 is bit 10 and X^12 is bit 3; X^16 is the bit that is shifted out.
const REVERSED_POLYNOMIAL: u16 = 0x8408;

/// The low bit first, since the polynomial is reversed.
fn bits_of(byte: u8) -> impl Iterator<Item = bool> {
    (0..8).map(move |place| byte >> place & 1 == 1)
}

/// The state shifts its lowest bit out, and takes the polynomial in where that bit is not the one
/// that comes.
fn with_bit(state: u16, comes: bool) -> u16 {
    let (shifted, goes) = (state >> 1, state & 1 == 1);
    if goes != comes {
        shifted ^ REVERSED_POLYNOMIAL
    } else {
        shifted
    }
}

fn with_byte(state: u16, byte: u8) -> u16 {
    bits_of(byte).fold(state, with_bit)
}

pub fn going_on(state: u16, bytes: &[u8]) -> u16 {
    bytes.iter().fold(state, |state, &byte| with_byte(state, byte))
}

pub fn over(bytes: &[u8]) -> u16 {
    going_on(START, bytes)
}

/// "over the first n bytes (all of them where there are fewer)".
pub fn over_the_first(count: usize, bytes: &[u8]) -> u16 {
    bytes.iter().take(count).fold(START, |state, &byte| with_byte(state, byte))
}

/// Over two lists: the second goes on where the first ends.
pub fn over_both(first: &[u8], second: &[u8]) -> u16 {
    let between = over(first);
    going_on(between, second)
}
