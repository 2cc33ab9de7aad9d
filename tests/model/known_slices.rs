//! What is known of slices, with the answers written out: document 02, Req 10. A1 to A13 are of
//! ComLynx, A14 to A22 of Eversolar, A23 to A31 of Fronius, A32 to A40 of drives, A41 to A49 of one
//! whole stretch, and A50 to A59 are refusals and places at the end.

use crate::known::{bytes, lent_with, list};

/// What a program is given, and all that it answers.
pub struct KnownAsk {
    pub name: &'static str,
    pub input: Vec<u8>,
    pub output: Vec<u8>,
}

/// Parts of a slice, each so many times, one after another.
type Parts<'a> = &'a [(&'a str, usize)];

/// A slice is set, and one call is made on it. Lent are bytes of EE, and a payload stands at the
/// front of them later.
fn on_a_slice(
    name: &'static str,
    slice: Parts,
    call: &[u8],
    lent: usize,
    told: &str,
    payload: &str,
) -> KnownAsk {
    let slice: Vec<u8> =
        slice.iter().flat_map(|&(part, times)| bytes(part).repeat(times)).collect();
    let setting = [&[0x91], &(slice.len() as u32).to_le_bytes()[..], &slice].concat();
    let result = [bytes(told), lent_with(bytes(payload), lent)].concat();
    let input = [&setting[..], call, &lent_with("", lent)].concat();
    KnownAsk { name, input, output: [list(&[0]), list(&result)].concat() }
}

/// The next answer from a place: number, place, bytes lost, fields, the payload's length.
fn ask(
    name: &'static str,
    op: u8,
    slice: Parts,
    place: u64,
    told: &str,
    payload: &str,
) -> KnownAsk {
    lending(255, name, op, slice, place, told, payload)
}

fn lending(
    lent: usize,
    name: &'static str,
    op: u8,
    slice: Parts,
    place: u64,
    told: &str,
    payload: &str,
) -> KnownAsk {
    let call = [&[op], &place.to_le_bytes()[..]].concat();
    on_a_slice(name, slice, &call, lent, told, payload)
}

/// Answers that are known to the last byte.
pub fn asks() -> Vec<KnownAsk> {
    let of_families = [of_comlynx(), of_eversolar(), of_fronius(), of_drives()];
    of_families.into_iter().chain([of_stretches(), of_limits()]).flatten().collect()
}

// ---- ComLynx ----

const COMLYNX: u8 = 0x92;
const P1: &str = "7E FF 03 00 02 11 FF 00 15 79 91 7E";
/// P1 behind a flag.
const P1_GOING_ON: &str = "FF 03 00 02 11 FF 00 15 79 91 7E";
/// P2 in a message: the data 7E 7D, stuffed.
const P2: &str = "7E FF 03 00 02 11 FF 02 15 7D 5E 7D 5D 5B 56 7E";

/// A2: the flag before the place counts as just seen. A3: it is two bytes before the place, and the
/// other flag opens a stretch that nothing closes. A10: the pair is left of the place, and the bytes
/// before the first flag are ignored.
fn of_comlynx() -> Vec<KnownAsk> {
    let ping = "01 0C 00 00 00 00 00 02 00 FF 11 15 00 00";
    let two = &[(P1, 1), (P1_GOING_ON, 1)];
    let longest = &[("7E", 1), ("00", 65_534), ("7E", 1)];
    vec![
        ask("A1: P1 from 0", COMLYNX, &[(P1, 1)], 0, ping, ""),
        ask("A2: P1 from 1", COMLYNX, &[(P1, 1)], 1, ping, ""),
        ask(
            "A3: P1 from 2",
            COMLYNX,
            &[(P1, 1)],
            2,
            "00 0C 00 00 00 00 00 00 00 00 00 00 00 00",
            "",
        ),
        ask(
            "A4: P11, three flags from 0",
            COMLYNX,
            &[("7E", 3)],
            0,
            "00 03 00 00 00 00 00 00 00 00 00 00 00 00",
            "",
        ),
        ask(
            "A5: two pings that share a flag, from behind it",
            COMLYNX,
            two,
            12,
            "01 17 00 00 00 00 00 02 00 FF 11 15 00 00",
            "",
        ),
        ask(
            "A6: two pings that share a flag, from that flag on",
            COMLYNX,
            two,
            11,
            "01 17 00 00 00 00 00 02 00 FF 11 15 00 00",
            "",
        ),
        ask(
            "A7: P2, whose data are at the front of what is lent",
            COMLYNX,
            &[(P2, 1)],
            0,
            "01 10 00 00 00 00 00 02 00 FF 11 15 02 00",
            "7E 7D",
        ),
        ask(
            "A8: P1 without its last flag is nothing yet",
            COMLYNX,
            &[("7E FF 03 00 02 11 FF 00 15 79 91", 1)],
            0,
            "00 0B 00 00 00 00 00 00 00 00 00 00 00 00",
            "",
        ),
        ask(
            "A9: a 7D before the flag",
            COMLYNX,
            &[("41 42 7E 43 7D 7E", 1)],
            0,
            "02 06 00 00 00 02 00 00 00 00 00 00 00 00",
            "",
        ),
        ask(
            "A10: a pair cut by the place",
            COMLYNX,
            &[("7E 43 7D 5E 7E 41 7E", 1)],
            3,
            "03 07 00 00 00 01 00 00 00 00 00 00 00 00",
            "",
        ),
        ask(
            "A11: 265 bytes",
            COMLYNX,
            &[("7E", 1), ("00", 265), ("7E", 1)],
            1,
            "04 0B 01 00 00 09 01 00 00 00 00 00 00 00",
            "",
        ),
        ask(
            "A12: 264 bytes and a pair that stands for one more, and one more",
            COMLYNX,
            &[("7E", 1), ("00", 264), ("7D 5E 00 7E", 1)],
            0,
            "03 0D 01 00 00 0B 01 00 00 00 00 00 00 00",
            "",
        ),
        ask(
            "A13: 65,534 bytes, which is as many as a slice has room for",
            COMLYNX,
            longest,
            0,
            "03 00 00 01 00 FE FF 00 00 00 00 00 00 00",
            "",
        ),
    ]
}

// ---- Eversolar ----

const EVERSOLAR: u8 = 0x93;
/// P3 of Req 03.
const P3: &str = "AA 55 01 00 00 00 10 00 00 01 10";

/// A17 and A18: eleven bytes of data are P3, and the sum, which is 02 3C, is not 00 00. A19 and A20:
/// 255 bytes of data and a sum of 00 00, which is 01 FE.
fn of_eversolar() -> Vec<KnownAsk> {
    let inside = &[("AA 55 01 00 00 00 10 00 0B", 1), (P3, 1), ("00 00", 1)];
    let promises_255 = ("AA 55 00 00 00 00 00 00 FF", 1);
    vec![
        ask(
            "A14: P3 from 0",
            EVERSOLAR,
            &[(P3, 1)],
            0,
            "01 0B 00 00 00 00 00 01 00 00 00 10 00 00 00",
            "",
        ),
        ask(
            "A15: P3 from 1",
            EVERSOLAR,
            &[(P3, 1)],
            1,
            "00 0B 00 00 00 00 00 00 00 00 00 00 00 00 00",
            "",
        ),
        ask(
            "A16: AA AA 55, and data",
            EVERSOLAR,
            &[("AA AA 55 01 00 00 00 10 00 01 F1 02 02", 1)],
            0,
            "01 0D 00 00 00 00 00 01 00 00 00 10 00 01 00",
            "F1",
        ),
        ask(
            "A17: P3 inside a frame with a wrong sum",
            EVERSOLAR,
            inside,
            0,
            "06 16 00 00 00 16 00 00 00 00 00 00 00 00 00",
            "",
        ),
        ask(
            "A18: the same from behind the first AA",
            EVERSOLAR,
            inside,
            1,
            "01 14 00 00 00 00 00 01 00 00 00 10 00 00 00",
            "",
        ),
        ask(
            "A19: N is 255, and a byte is missing",
            EVERSOLAR,
            &[promises_255, ("00", 256)],
            0,
            "00 09 01 00 00 00 00 00 00 00 00 00 00 00 00",
            "",
        ),
        ask(
            "A20: N is 255, and none is missing",
            EVERSOLAR,
            &[promises_255, ("00", 257)],
            0,
            "06 0A 01 00 00 0A 01 00 00 00 00 00 00 00 00",
            "",
        ),
        ask(
            "A21: a wrong sum, and P3 behind it",
            EVERSOLAR,
            &[("AA 55 01 00 00 00 10 00 00 10 01", 1), (P3, 1)],
            0,
            "06 0B 00 00 00 0B 00 00 00 00 00 00 00 00 00",
            "",
        ),
        ask(
            "A22: the same from the place that A21 gives",
            EVERSOLAR,
            &[("AA 55 01 00 00 00 10 00 00 10 01", 1), (P3, 1)],
            11,
            "01 16 00 00 00 00 00 01 00 00 00 10 00 00 00",
            "",
        ),
    ]
}

// ---- Fronius ----

const FRONIUS: u8 = 0x94;
const P4: &str = "80 80 80 00 00 00 01 01";
const P5: &str = "80 80 80 03 01 01 10 04 D2 00 EB";

/// A24: from the second 80 on there are two. A30 and A31: 127 bytes of data, of which one is
/// missing, or a sum of 00, which is 7F.
fn of_fronius() -> Vec<KnownAsk> {
    vec![
        ask("A23: P4 from 0", FRONIUS, &[(P4, 1)], 0, "01 08 00 00 00 00 00 00 00 01 00 00", ""),
        ask("A24: P4 from 1", FRONIUS, &[(P4, 1)], 1, "00 08 00 00 00 00 00 00 00 00 00 00", ""),
        ask(
            "A25: P12 from 2 is P4",
            FRONIUS,
            &[("80 80", 1), (P4, 1)],
            2,
            "01 0A 00 00 00 00 00 00 00 01 00 00",
            "",
        ),
        ask(
            "A26: P5",
            FRONIUS,
            &[("00", 1), (P5, 1)],
            0,
            "01 0C 00 00 00 00 00 01 01 10 03 00",
            "04 D2 00",
        ),
        ask(
            "A27: P5 with a wrong sum",
            FRONIUS,
            &[("80 80 80 03 01 01 10 04 D2 00 EC", 1)],
            0,
            "06 0B 00 00 00 0B 00 00 00 00 00 00",
            "",
        ),
        ask(
            "A28: length 81",
            FRONIUS,
            &[("80 80 80 81", 1)],
            0,
            "07 04 00 00 00 04 00 00 00 00 00 00",
            "",
        ),
        ask(
            "A29: length 81 behind five 80",
            FRONIUS,
            &[("80", 5), ("81", 1)],
            0,
            "07 06 00 00 00 04 00 00 00 00 00 00",
            "",
        ),
        ask(
            "A30: length 7F, and a byte is missing",
            FRONIUS,
            &[("80 80 80 7F", 1), ("00", 130)],
            0,
            "00 86 00 00 00 00 00 00 00 00 00 00",
            "",
        ),
        ask(
            "A31: length 7F, and none is missing",
            FRONIUS,
            &[("80 80 80 7F", 1), ("00", 131)],
            0,
            "06 87 00 00 00 87 00 00 00 00 00 00",
            "",
        ),
    ]
}

// ---- drives ----

const DRIVES: u8 = 0x95;
/// The example of document 003.
const D1: &str = "05 30 31 52 33 30 30 30 31 41 37 04";

/// A38: a frame of 45, which is a request and too long by one. A39: the same with 44, whose sum is
/// not 00. A40: all of the longest slice.
fn of_drives() -> Vec<KnownAsk> {
    vec![
        ask(
            "A32: D1 behind an EOT",
            DRIVES,
            &[("04", 1), (D1, 1)],
            0,
            "01 0D 00 00 00 00 00 05 30 31 52 05 00",
            "33 30 30 30 31",
        ),
        ask("A33: D1 from 1", DRIVES, &[(D1, 1)], 1, "00 0C 00 00 00 00 00 00 00 00 00 00 00", ""),
        ask(
            "A34: D1 behind another opening byte",
            DRIVES,
            &[("06", 1), (D1, 1)],
            0,
            "15 0D 00 00 00 0D 00 00 00 00 00 00 00",
            "",
        ),
        ask(
            "A35: the same from that of D1 on",
            DRIVES,
            &[("06", 1), (D1, 1)],
            1,
            "01 0D 00 00 00 00 00 05 30 31 52 05 00",
            "33 30 30 30 31",
        ),
        ask(
            "A36: D1 with a wrong sum",
            DRIVES,
            &[("05 30 31 52 33 30 30 30 31 41 38 04", 1)],
            0,
            "06 0C 00 00 00 0C 00 00 00 00 00 00 00",
            "",
        ),
        ask(
            "A37: an opening byte and an EOT",
            DRIVES,
            &[("05 04", 1)],
            0,
            "03 02 00 00 00 02 00 00 00 00 00 00 00",
            "",
        ),
        ask(
            "A38: a request of 45",
            DRIVES,
            &[("05 30 31 52", 1), ("30", 40), ("04", 1)],
            0,
            "03 2D 00 00 00 2D 00 00 00 00 00 00 00",
            "",
        ),
        ask(
            "A39: a request of 44",
            DRIVES,
            &[("05 30 31 52", 1), ("30", 39), ("04", 1)],
            0,
            "06 2C 00 00 00 2C 00 00 00 00 00 00 00",
            "",
        ),
        ask(
            "A40: a frame of 65,536, of which 65,535 can be told",
            DRIVES,
            &[("05", 1), ("30", 65_534), ("04", 1)],
            0,
            "03 00 00 01 00 FF FF 00 00 00 00 00 00",
            "",
        ),
    ]
}

// ---- one whole stretch ----

/// Number, bytes lost, fields, the payload's length.
fn stretch(lent: usize, name: &'static str, slice: Parts, told: &str, payload: &str) -> KnownAsk {
    on_a_slice(name, slice, &[0x96], lent, told, payload)
}

/// A44: the body FF 03 00 02 11 7E 00 15 has the checksum 49 C7, and its 7E is not stuffed.
fn of_stretches() -> Vec<KnownAsk> {
    let (nothing, no_room) = ("00 00 00 00 00 00 00 00 00 00", "09 00 00 00 00 00 00 00 00 00");
    let too_long = "03 FF FF 00 00 00 00 00 00 00";
    vec![
        stretch(
            255,
            "A41: the stretch of P1",
            &[("FF 03 00 02 11 FF 00 15 79 91", 1)],
            "01 00 00 02 00 FF 11 15 00 00",
            "",
        ),
        stretch(
            256,
            "A42: the stretch of P2",
            &[("FF 03 00 02 11 FF 02 15 7D 5E 7D 5D 5B 56", 1)],
            "01 00 00 02 00 FF 11 15 02 00",
            "7E 7D",
        ),
        stretch(255, "A43: an empty stretch", &[], nothing, ""),
        stretch(
            255,
            "A44: a 7E is a byte as any other",
            &[("FF 03 00 02 11 7E 00 15 49 C7", 1)],
            "01 00 00 02 00 7E 11 15 00 00",
            "",
        ),
        stretch(255, "A45: a 7E behind a 7D", &[("7D 7E", 1)], "02 02 00 00 00 00 00 00 00 00", ""),
        stretch(255, "A46: 65,536 bytes", &[("00", 65_536)], too_long, ""),
        stretch(255, "A47: 65,537 bytes", &[("00", 65_537)], too_long, ""),
        stretch(254, "A48: 254 lent to P1", &[(P1_GOING_ON, 1)], no_room, ""),
        stretch(254, "A49: 254 lent to an empty stretch", &[], no_room, ""),
    ]
}

// ---- refusals and the end ----

/// A50 to A53: a slice above 65,536 bytes, whatever the place and whatever is lent. A54 to A57: a
/// place past the end before too little lent, by one or by all that a place may be. A58: the last
/// place is none past the end. A59: too little lent.
fn of_limits() -> Vec<KnownAsk> {
    let too_long = &[("7E", 65_537)];
    vec![
        ask(
            "A50: 65,537 bytes",
            COMLYNX,
            too_long,
            0,
            "17 00 00 00 00 00 00 00 00 00 00 00 00 00",
            "",
        ),
        ask(
            "A51: 65,537 bytes from 65,538",
            EVERSOLAR,
            too_long,
            65_538,
            "17 00 00 00 00 00 00 00 00 00 00 00 00 00 00",
            "",
        ),
        lending(
            254,
            "A52: 65,537 bytes from 65,538, 254 lent",
            FRONIUS,
            too_long,
            65_538,
            "17 00 00 00 00 00 00 00 00 00 00 00",
            "",
        ),
        lending(
            0,
            "A53: 65,537 bytes, nothing lent",
            DRIVES,
            too_long,
            0,
            "17 00 00 00 00 00 00 00 00 00 00 00 00",
            "",
        ),
        ask(
            "A54: P1 from 13",
            COMLYNX,
            &[(P1, 1)],
            13,
            "18 00 00 00 00 00 00 00 00 00 00 00 00 00",
            "",
        ),
        lending(
            254,
            "A55: P3 from 12, 254 lent",
            EVERSOLAR,
            &[(P3, 1)],
            12,
            "18 00 00 00 00 00 00 00 00 00 00 00 00 00 00",
            "",
        ),
        ask(
            "A56: P4 from 4,294,967,296",
            FRONIUS,
            &[(P4, 1)],
            4_294_967_296,
            "18 00 00 00 00 00 00 00 00 00 00 00",
            "",
        ),
        ask(
            "A57: 65,536 bytes from 65,537",
            DRIVES,
            &[("00", 65_536)],
            65_537,
            "18 00 00 00 00 00 00 00 00 00 00 00 00",
            "",
        ),
        ask(
            "A58: 65,536 bytes from 65,536",
            COMLYNX,
            &[("7E", 65_536)],
            65_536,
            "00 00 00 01 00 00 00 00 00 00 00 00 00 00",
            "",
        ),
        lending(
            254,
            "A59: D1 from 12, 254 lent",
            DRIVES,
            &[(D1, 1)],
            12,
            "09 00 00 00 00 00 00 00 00 00 00 00 00",
            "",
        ),
    ]
}
