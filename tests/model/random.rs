//! A seeded generator (splitmix64), so that every case can be made again.

pub struct Random {
    state: u64,
}

/// Bytes that mean something to ComLynx, Eversolar or Fronius.
pub const SPECIAL: [u8; 13] =
    [0x7E, 0x7D, 0x5E, 0x5D, 0xFF, 0x03, 0xAA, 0x55, 0x80, 0x81, 0x7F, 0x00, 0x01];

/// Bytes that mean something to drives, which speak in characters: what opens and ends a frame, the
/// letters, the first and the last of each set, and their neighbours.
pub const SPECIAL_OF_DRIVES: [u8; 24] = [
    0x04, 0x05, 0x06, 0x15, 0x30, 0x39, 0x3A, 0x41, 0x46, 0x47, 0x52, 0x57, 0x58, 0x59, 0x61, 0x04,
    0x2F, 0x40, 0x53, 0x56, 0x5A, 0x66, 0x72, 0x00,
];

/// The characters of a number in ASCII hex.
pub const DIGITS: [u8; 16] = *b"0123456789ABCDEF";

impl Random {
    /// One generator for each seed, kind of case and case.
    pub fn of(seed: u64, kind: u64, case: u64) -> Random {
        let mut random = Random { state: seed };
        random.state = random.next() ^ kind;
        random.state = random.next() ^ case;
        random
    }

    pub fn next(&mut self) -> u64 {
        self.state = self.state.wrapping_add(0x9E37_79B9_7F4A_7C15);
        let mixed = (self.state ^ (self.state >> 30)).wrapping_mul(0xBF58_476D_1CE4_E5B9);
        let mixed = (mixed ^ (mixed >> 27)).wrapping_mul(0x94D0_49BB_1331_11EB);
        mixed ^ (mixed >> 31)
    }

    /// 0 to `limit` less 1.
    pub fn below(&mut self, limit: usize) -> usize {
        (self.next() % limit as u64) as usize
    }

    /// `least` to `most`, both included.
    pub fn between(&mut self, least: usize, most: usize) -> usize {
        least + self.below(most - least + 1)
    }

    pub fn one_in(&mut self, times: usize) -> bool {
        self.below(times) == 0
    }

    pub fn pick<T: Copy>(&mut self, from: &[T]) -> T {
        from[self.below(from.len())]
    }

    pub fn byte(&mut self) -> u8 {
        self.next() as u8
    }

    pub fn word(&mut self) -> u16 {
        self.next() as u16
    }

    /// Mostly a special byte.
    pub fn special(&mut self) -> u8 {
        if self.one_in(4) {
            self.byte()
        } else {
            self.pick(&SPECIAL)
        }
    }

    pub fn specials(&mut self, count: usize) -> Vec<u8> {
        (0..count).map(|_| self.special()).collect()
    }

    /// Mostly a byte that means something to drives.
    pub fn special_of_drives(&mut self) -> u8 {
        if self.one_in(6) {
            self.byte()
        } else {
            self.pick(&SPECIAL_OF_DRIVES)
        }
    }

    pub fn digits(&mut self, count: usize) -> Vec<u8> {
        (0..count).map(|_| self.pick(&DIGITS)).collect()
    }

    pub fn bytes(&mut self, count: usize) -> Vec<u8> {
        (0..count).map(|_| self.byte()).collect()
    }

    /// Special bytes, any bytes, or one byte again and again.
    pub fn content(&mut self, count: usize) -> Vec<u8> {
        match self.below(4) {
            0 => self.bytes(count),
            1 => vec![self.special(); count],
            _ => self.specials(count),
        }
    }
}
