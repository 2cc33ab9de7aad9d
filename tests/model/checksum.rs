//! The checksum of ComLynx.

/// "The checksum starts at FFFF".
pub const START: u16 = 0xFFFF;

/// "The 256 entries of appendix B in 000 are the reversed polynomial 8408 applied
/// eight times to the index".
pub fn entry(index: u8) -> u16 {
    (0..8).fold(u16::from(index), |word, _| polynomial_once(word))
}

fn polynomial_once(word: u16) -> u16 {
    let halved = word >> 1;
    if word % 2 == 1 {
        halved ^ 0x8408
    } else {
        halved
    }
}

/// "shift right by 8, then exclusive-or with the table entry chosen by the low byte
/// exclusive-or the data byte".
pub fn next(state: u16, byte: u8) -> u16 {
    let low = (state % 256) as u8;
    (state >> 8) ^ entry(low ^ byte)
}

pub fn going_on(state: u16, bytes: &[u8]) -> u16 {
    bytes.iter().fold(state, |state, &byte| next(state, byte))
}

pub fn over(bytes: &[u8]) -> u16 {
    going_on(START, bytes)
}

/// Over two lists, one after the other.
pub fn over_both(first: &[u8], second: &[u8]) -> u16 {
    over(&[first, second].concat())
}

/// "The complement is sent", "checksum low byte first".
pub fn sent(state: u16) -> [u8; 2] {
    let complement = 0xFFFF - state;
    [(complement % 256) as u8, (complement / 256) as u8]
}
