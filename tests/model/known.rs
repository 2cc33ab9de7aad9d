//! The numbers the paper prints: P1 to P12, L1, and published examples of 000, with their
//! answers written out. Eversolar's words go as document 02, Req 03, has them; the cases N1 to N16
//! are of its Req 09, the bytes lost with each damage. What is known of drives is a source of its
//! own, and so is what is known after a storm (Req 13), of slices (Req 10) and of the checksum
//! without a table (Req 05).

use crate::{known_checksum, known_drives, known_storms};

#[derive(Clone)]
pub struct KnownCall {
    pub name: &'static str,
    pub call: Vec<u8>,
    /// The whole result.
    pub result: Vec<u8>,
}

pub struct KnownListing {
    pub name: &'static str,
    pub input: Vec<u8>,
    pub output: String,
}

pub fn bytes(hex: &str) -> Vec<u8> {
    hex.split_whitespace().map(|byte| u8::from_str_radix(byte, 16).expect("hex")).collect()
}

pub fn known(name: &'static str, call: &str, result: &str) -> KnownCall {
    KnownCall { name, call: bytes(call), result: bytes(result) }
}

/// Calls whose results are known to the last byte.
pub fn calls() -> Vec<KnownCall> {
    let calls = [short_calls(), calls_of_req_03(), calls_of_l1(), calls_in_place()];
    let of_requests = [known_checksum::calls(), known_drives::calls()];
    [calls.concat(), bytes_come(), bytes_lost(), of_requests.concat()].concat()
}

fn short_calls() -> Vec<KnownCall> {
    vec![
        known("P1, state", "71 08 00 FF 03 00 02 11 FF 00 15", "00 86 6E"),
        known("P1, state, two lists", "75 02 00 FF 03 06 00 00 02 11 FF 00 15", "00 86 6E"),
        known("P1, sent", "73 86 6E", "00 79 91"),
        known(
            "P1, frame",
            "11 02 00 FF 11 15 00 00 0C 00 00 00 00 00 00 00 00 00 00 00 00 00",
            "00 0C 00 0C 00 7E FF 03 00 02 11 FF 00 15 79 91 7E",
        ),
        known(
            "P3",
            "31 00 0B 00 00 00 00 00 00 00 00 00 00 00 00",
            "00 0B 00 0B 00 AA 55 01 00 00 00 10 00 00 01 10",
        ),
        known(
            "P4",
            "13 00 00 01 00 00 08 00 00 00 00 00 00 00 00 00",
            "00 08 00 08 00 80 80 80 00 00 00 01 01",
        ),
        known(
            "P5, frame",
            "13 01 01 10 03 00 04 D2 00 0B 00 00 00 00 00 00 00 00 00 00 00 00",
            "00 0B 00 0B 00 80 80 80 03 01 01 10 04 D2 00 EB",
        ),
        known("P5, 1,234 W", "42 01 10 03 00 04 D2 00", "00 01 00 00 00 00 00 48 93 40"),
        known("P6", "41 00 03 00 04 D2 FD", "00 D2 04 00 00 00 00 00 00"),
        known("P7", "41 00 03 00 FF FF 0A", "00 00 60 8D 51 5A 45 18 09"),
        known("P8, signed", "41 01 03 00 80 00 00", "00 00 00 0C FE FF FF FF FF"),
        known("P8, unsigned", "41 00 03 00 80 00 00", "00 00 00 F4 01 00 00 00 00"),
        known("P9, 0B", "41 00 03 00 00 01 0B", "0F 00 00 00 00 00 00 00 00"),
        known("P9, FC", "41 00 03 00 00 01 FC", "10 00 00 00 00 00 00 00 00"),
        known("P10, 1", "35 E8 03 00 00 00 00 00 00 01", "00 00 00 00 00 00 00 00 00"),
        known("P10, 2", "35 E8 03 00 00 00 00 00 00 02", "00 0A 00 00 00 00 00 00 00"),
        known("P10, 3", "35 E8 03 00 00 00 00 00 00 03", "00 06 00 00 00 00 00 00 00"),
        known("P10, 4", "35 E8 03 00 00 00 00 00 00 04", "00 04 00 00 00 00 00 00 00"),
        known("11 FF", "22 FF 11", "00 01 01 FF"),
        known(
            "000, ping request to (1, 2, 3)",
            "11 02 00 03 12 15 00 00 0C 00 00 00 00 00 00 00 00 00 00 00 00 00",
            "00 0C 00 0C 00 7E FF 03 00 02 12 03 00 15 23 9D 7E",
        ),
        known("checksum of P3, word", "36 01 10", "00 10 01"),
        known("checksum of P3, bytes", "37 10 01", "00 01 10"),
    ]
}

const P3: &str = "AA 55 01 00 00 00 10 00 00 01 10";
const P3_OF_DOCUMENT_01: &str = "AA 55 01 00 00 00 10 00 00 10 01";
const SUM_THE_SAME_BOTH_WAYS: &str = "AA 55 01 00 00 00 10 00 01 F1 02 02";

/// The order of the words: which sum is right, and what two words of a payload tell.
fn calls_of_req_03() -> Vec<KnownCall> {
    let no_message = "06 0B 00 0B 00 00 00 00 00 00 00 00 00";
    vec![
        eversolar_read("P3, read in one call", P3, "01 0B 00 00 00 01 00 00 00 10 00 00 00", &[]),
        eversolar_read("P3 of document 01 is damage", P3_OF_DOCUMENT_01, no_message, &[]),
        eversolar_read(
            "a sum the same both ways, read in one call",
            SUM_THE_SAME_BOTH_WAYS,
            "01 0C 00 00 00 01 00 00 00 10 00 01 00",
            &[0xF1],
        ),
        KnownCall {
            name: "total energy of 77,883",
            call: [bytes("34 11 90"), list(&[vec![0; 40], bytes("00 01 30 3B")].concat())].concat(),
            result: bytes("00 3B 30 01 00"),
        },
    ]
}

/// A fresh reader is called once on a whole frame. Looking starts afresh behind it, and all but
/// its header and its last byte stay held.
fn eversolar_read(name: &'static str, frame: &str, told: &str, payload: &[u8]) -> KnownCall {
    let (frame, fresh) = (bytes(frame), vec![0; 268]);
    let mut later = fresh.clone();
    later[..frame.len() - 3].copy_from_slice(&frame[2..frame.len() - 1]);
    let call = [vec![0x02], fresh, list(&frame), lent_with("", 255)].concat();
    KnownCall { name, call, result: [bytes(told), later, lent_with(payload, 255)].concat() }
}

pub const HEADER: &str = "port answer from to code data\n";
const LINE: &str = "1 1 0002 11FF 15 -\n";
const END: &str = "end 1 0\n";

pub fn list(bytes: &[u8]) -> Vec<u8> {
    [&(bytes.len() as u16).to_le_bytes(), bytes].concat()
}

/// A call that writes a line into exactly its room.
pub fn line(name: &'static str, call: &[u8], text: &str) -> KnownCall {
    let call = [call, &list(&vec![0xEE; text.len()])].concat();
    let length = (text.len() as u16).to_le_bytes();
    KnownCall { name, call, result: [&[0], &length[..], &list(text.as_bytes())].concat() }
}

/// PORTS with nothing held but the body of L1's frame, which a ComLynx reader has at `stage`.
pub fn ports(stage: u8, body: &[u8]) -> Vec<u8> {
    let mut ports = vec![0; 270 + 268 + 135 + 45];
    ports[..body.len()].copy_from_slice(body);
    ports[265] = stage;
    ports
}

pub fn counts(packets: u64, messages: u64) -> Vec<u8> {
    [packets, messages, 0].map(u64::to_le_bytes).concat()
}

/// The text or the payload at the front of a lent buffer of EE.
pub fn lent_with(front: impl AsRef<[u8]>, length: usize) -> Vec<u8> {
    let mut lent = front.as_ref().to_vec();
    lent.resize(length, 0xEE);
    list(&lent)
}

/// Case L1, line by line, through its port and as a packet.
fn calls_of_l1() -> Vec<KnownCall> {
    let frame = bytes("7E FF 03 00 02 11 FF 00 15 79 91 7E");
    let (fresh, after) = (ports(0, &[]), ports(1, &frame[1..11]));
    let message = bytes("02 00 00 02 02 00 11 FF 01 00 15");
    let of_one_port = [fresh.clone(), vec![1], list(&frame), lent_with("", 255)].concat();
    let read = [bytes("01 0C 00 00 00"), message.clone(), bytes("00 00"), after.clone()].concat();
    let of_a_listing = [fresh.clone(), counts(0, 0), vec![0], list(&packet_of(1, &frame))].concat();
    let (begun, listed) = ([0, 2, 19, 0, LINE.len() as u8, 0], [after.clone(), counts(1, 1)]);
    let of_the_end = [after.clone(), counts(1, 1), vec![1], list(&[])].concat();
    let ended = [0, 3, 0, 0, END.len() as u8, 0];
    vec![
        line("L1, header", &[0x81], HEADER),
        line("L1, message", &bytes("8A 01 00 02 11 FF 15 00 00"), LINE),
        line("P3, message", &bytes("8B 02 01 00 00 00 10 00 00 00"), "2 1 0100 0000 1000 -\n"),
        line("P5, message", &bytes("8C 03 01 01 10 03 00 04 D2 00"), "3 1 - 0101 10 04D200\n"),
        line("a damage", &bytes("83 03 06 08 00"), "3 6 8\n"),
        line("a damage that lost 65,535 bytes", &bytes("83 01 03 FF FF"), "1 3 65535\n"),
        line("a stop", &[0x84, 13], "stop 13\n"),
        line("L1, end", &[&[0x85][..], &counts(1, 0)[..16]].concat(), END),
        KnownCall {
            name: "fresh ports",
            call: vec![0x86],
            result: [vec![0], fresh.clone()].concat(),
        },
        KnownCall {
            name: "L1, its port",
            call: [vec![0x87], of_one_port].concat(),
            result: [read, lent_with("", 255)].concat(),
        },
        KnownCall {
            name: "a fresh listing",
            call: vec![0x88],
            result: [vec![0], fresh, counts(0, 0)].concat(),
        },
        KnownCall {
            name: "L1, its packet",
            call: [vec![0x89], of_a_listing, lent_with("", 8192)].concat(),
            result: [begun.to_vec(), listed.concat(), lent_with(LINE, 8192)].concat(),
        },
        KnownCall {
            name: "L1, its end",
            call: [vec![0x89], of_the_end, lent_with("", 8192)].concat(),
            result: [ended.to_vec(), after, counts(1, 1), lent_with(END, 8192)].concat(),
        },
    ]
}

/// A fresh reader in place is called once on a whole frame. Its host lends bytes of DD, which stay
/// where nothing of the frame is held. `told` ends with the numbers of the state.
pub fn read_in_place(
    name: &'static str,
    fresh: &str,
    held: usize,
    frame: &str,
    told: &str,
    held_later: &str,
    payload: &str,
) -> KnownCall {
    let mut later = bytes(held_later);
    later.resize(held, 0xDD);
    let call = [bytes(fresh), list(&vec![0xDD; held]), list(&bytes(frame)), lent_with("", 255)];
    let result = [bytes(told), list(&later), lent_with(bytes(payload), 255)];
    KnownCall { name, call: call.concat(), result: result.concat() }
}

/// L1, P3 and P5 read in place; and L1 where a byte too few is lent to hold bytes in, which is 18
/// even where too little is lent for the payload too.
fn calls_in_place() -> Vec<KnownCall> {
    let l1 = "7E FF 03 00 02 11 FF 00 15 79 91 7E";
    let spoilt = [vec![0; 5], list(&[0xDD; 264])].concat();
    vec![
        read_in_place(
            "L1, in place",
            "07 00 00 00 00 00",
            265,
            l1,
            "01 0C 00 00 00 02 00 FF 11 15 00 00 01 00 00 00 00",
            "FF 03 00 02 11 FF 00 15 79 91",
            "",
        ),
        read_in_place(
            "P3, in place",
            "08 00 00 00 00 00",
            263,
            P3,
            "01 0B 00 00 00 01 00 00 00 10 00 00 00 00 00 00 00 00",
            "01 00 00 00 10 00 00 01",
            "",
        ),
        read_in_place(
            "P5, in place",
            "09 00 00 00 00 00",
            130,
            "80 80 80 03 01 01 10 04 D2 00 EB",
            "01 0B 00 00 00 01 01 10 03 00 00 00 00 00 00",
            "01 01 10 04 D2 00",
            "04 D2 00",
        ),
        read_in_place(
            "P5 with a wrong sum, in place",
            "09 00 00 00 00 00",
            130,
            "80 80 80 03 01 01 10 04 D2 00 EC",
            "06 0B 00 0B 00 00 00 00 00 00 00 00 00 00 00",
            "01 01 10 04 D2 00",
            "",
        ),
        read_in_place(
            "65,536 bytes come, in place",
            "07 03 00 00 FE FF",
            265,
            "00 00 7E",
            "02 03 00 FF FF 00 00 00 00 00 00 00 01 00 00 00 00",
            "",
            "",
        ),
        KnownCall {
            name: "264 held bytes are spoilt",
            call: [vec![0x07], spoilt.clone(), list(&bytes(l1)), lent_with("", 254)].concat(),
            result: [vec![18], vec![0; 11], spoilt, lent_with("", 254)].concat(),
        },
    ]
}

/// The numbers of a ComLynx state: stage, count, and how many bytes came.
type Numbers = (u8, u16, u16);

/// A ComLynx reader that holds DD everywhere is called once: the number, the bytes used and those
/// lost, and what is held later in front of the DD. No message comes.
fn comlynx_read(
    name: &'static str,
    before: Numbers,
    piece: &str,
    told: (u8, u16, u16),
    held_later: &str,
    after: Numbers,
) -> KnownCall {
    let numbers = |(stage, count, came): Numbers| {
        [vec![stage], count.to_le_bytes().to_vec(), came.to_le_bytes().to_vec()].concat()
    };
    let mut later = bytes(held_later);
    later.resize(265, 0xDD);
    let call = [vec![0x01], vec![0xDD; 265], numbers(before), list(&bytes(piece))];
    let result = [numbers(told), vec![0; 7], later, numbers(after), lent_with("", 255)];
    KnownCall { name, call: [call.concat(), lent_with("", 255)].concat(), result: result.concat() }
}

/// What a ComLynx state counts: every byte since the flag as it was sent, up to 65,535.
fn bytes_come() -> Vec<KnownCall> {
    vec![
        comlynx_read("a pair is two", (1, 0, 0), "01 7D 5E", (0, 3, 0), "01 7E", (1, 2, 3)),
        comlynx_read("a 7D counts at once", (1, 0, 5), "7D", (0, 1, 0), "", (2, 0, 6)),
        comlynx_read("a broken pair counts", (1, 0, 0), "7D 00", (0, 2, 0), "", (3, 0, 2)),
        comlynx_read("bytes after it count", (3, 0, 2), "01 7D 5E", (0, 3, 0), "", (3, 0, 5)),
        comlynx_read("no flag yet", (0, 0, 0), "01 7D 5E", (0, 3, 0), "", (0, 0, 0)),
        comlynx_read("a flag alone", (0, 0, 0), "7E", (0, 1, 0), "", (1, 0, 0)),
        comlynx_read("overfull", (1, 266, 400), "00 00", (0, 2, 0), "", (1, 266, 402)),
        comlynx_read("65,535 come", (3, 0, 65_533), "00 00", (0, 2, 0), "", (3, 0, 65_535)),
        comlynx_read("65,536 come", (3, 0, 65_535), "00", (0, 1, 0), "", (3, 0, 65_535)),
        comlynx_read("65,534 lost", (3, 0, 65_533), "00 7E", (2, 2, 65_534), "", (1, 0, 0)),
        comlynx_read("65,537 lost", (3, 0, 65_535), "00 00 7E", (2, 3, 65_535), "", (1, 0, 0)),
        comlynx_read("2 held, 5 come", (1, 2, 5), "7E 7E", (3, 1, 5), "", (1, 0, 0)),
        comlynx_read("2 held, none come", (1, 2, 0), "7E", (3, 1, 0), "", (1, 0, 0)),
        comlynx_read("none held, 5 come", (1, 0, 5), "7E", (0, 1, 0), "", (1, 0, 0)),
        comlynx_read("none held, a 7D", (2, 0, 5), "7E", (2, 1, 5), "", (1, 0, 0)),
        comlynx_read("1 come before a flag", (0, 0, 1), "7E", (18, 0, 0), "", (0, 0, 1)),
        comlynx_read("N1, a call", (0, 0, 0), "7E FF 03 7D 00 7E", (2, 6, 4), "FF 03", (1, 0, 0)),
    ]
}

/// Damages of single calls: Fronius by its reader, N3 by its port, and N2 as a packet.
fn bytes_lost() -> Vec<KnownCall> {
    let (n3, n2) = (bytes("7E 01 02 03 04 05 06 07 08 7D 5E 7E"), bytes("7E 01 7E 02 7E 7D 7E"));
    let of_n3 = [ports(0, &[]), vec![1], list(&n3), lent_with("", 255)].concat();
    let n3_later = ports(1, &bytes("01 02 03 04 05 06 07 08 7E"));
    let of_n2 = [ports(0, &[]), counts(0, 0), vec![0], list(&packet_of(1, &n2))].concat();
    let n2_lines = "1 3 1\n1 3 1\n1 2 1\n";
    let n2_later = [ports(1, &[2]), [1_u64, 0, 3].map(u64::to_le_bytes).concat()].concat();
    vec![
        fronius_read("a wrong length behind one more 80", "80 80 80 80 81", "07 05 00 04 00", ""),
        fronius_read("N15, a wrong length", "80 80 80 80 80 80 90", "07 07 00 04 00", ""),
        fronius_read("N15, a sum", "80 80 80 80 80 00 00 00 01 02", "06 0A 00 08 00", "00 00 01"),
        KnownCall {
            name: "N3, its port",
            call: [vec![0x87], of_n3].concat(),
            result: [bytes("03 0C 00 0A 00"), vec![0; 8], n3_later, lent_with("", 255)].concat(),
        },
        KnownCall {
            name: "N2, its packet",
            call: [vec![0x89], of_n2, lent_with("", 8192)].concat(),
            result: [bytes("00 02 0E 00 12 00"), n2_later, lent_with(n2_lines, 8192)].concat(),
        },
    ]
}

/// A fresh Fronius reader is called once on a frame that is damage.
fn fronius_read(name: &'static str, frame: &str, told: &str, held_later: &str) -> KnownCall {
    let mut later = bytes(held_later);
    later.resize(135, 0);
    let call = [vec![0x03], vec![0; 135], list(&bytes(frame)), lent_with("", 255)].concat();
    KnownCall { name, call, result: [bytes(told), vec![0; 5], later, lent_with("", 255)].concat() }
}

/// The version is 00 02 for port 4, and 00 01 for the others.
pub fn packet_of(port: u8, piece: &[u8]) -> Vec<u8> {
    let mut packet = b"SBR\x00".to_vec();
    packet.extend([1 + u8::from(port == 4), port, piece.len() as u8]);
    packet.extend(piece);
    packet
}

pub fn listing(name: &'static str, packets: &[(u8, &str)], output: &str) -> KnownListing {
    let input = packets.iter().flat_map(|&(port, piece)| packet_of(port, &bytes(piece))).collect();
    KnownListing { name, input, output: output.to_string() }
}

/// Inputs whose whole output is known.
pub fn listings() -> Vec<KnownListing> {
    let mut listings = listings_of_document_01();
    listings.extend(short_listings_of_req_09());
    listings.extend(long_listings_of_req_09());
    listings.extend(known_drives::listings());
    listings.extend(known_storms::listings());
    listings
}

fn listings_of_document_01() -> Vec<KnownListing> {
    vec![
        listing("empty input", &[], "port answer from to code data\nend 0 0\n"),
        listing(
            "L1",
            &[(1, "7E FF 03 00 02 11 FF 00 15 79 91 7E")],
            "port answer from to code data\n1 1 0002 11FF 15 -\nend 1 0\n",
        ),
        listing(
            "000, ping reply of (1, 2, 3)",
            &[(1, "7E FF 03 12 03 00 02 00 95 82 F8 7E")],
            "port answer from to code data\n1 1 1203 0002 95 -\nend 1 0\n",
        ),
        listing(
            "P2, cut inside a pair",
            &[(1, "7E FF 03 00 02 11 FF 02 15 7D"), (1, "5E 7D 5D"), (1, "5B 56 7E")],
            "port answer from to code data\n1 1 0002 11FF 15 7E7D\nend 1 0\n",
        ),
        listing(
            "000, byte stuffing",
            &[(1, "7E FF 03 00 02 7D 5D 7D 5E 00 15 99 C9 7E")],
            "port answer from to code data\n1 1 0002 7D7E 15 -\nend 1 0\n",
        ),
        listing(
            "000, network scan",
            &[(1, "7E FF 03 EE FE 1F FF 00 15 1C 6C 7E 7E FF 03 11 04 EE FE 00 95 7C F7 7E 7E FF 03 EE FE 10 FF 00 15 E5 DE 7E")],
            "port answer from to code data\n1 1 EEFE 1FFF 15 -\n1 1 1104 EEFE 95 -\n1 1 EEFE 10FF 15 -\nend 3 0\n",
        ),
        listing(
            "a pair broken by the flag",
            &[(1, "7E 7D 7E 7D"), (1, "7E"), (1, "7E")],
            "port answer from to code data\n1 2 1\n1 2 1\nend 0 2\n",
        ),
        listing(
            "P3, read",
            &[(2, P3)],
            "port answer from to code data\n2 1 0100 0000 1000 -\nend 1 0\n",
        ),
        listing(
            "N11: P3 of document 01, read",
            &[(2, P3_OF_DOCUMENT_01)],
            "port answer from to code data\n2 6 11\nend 0 1\n",
        ),
        listing(
            "a sum the same both ways",
            &[(2, SUM_THE_SAME_BOTH_WAYS)],
            "port answer from to code data\n2 1 0100 0000 1000 F1\nend 1 0\n",
        ),
        listing(
            "P5, read",
            &[(3, "80 80 80 03 01 01 10 04 D2 00 EB")],
            "port answer from to code data\n3 1 - 0101 10 04D200\nend 1 0\n",
        ),
        listing("P11", &[(1, "7E 7E 7E")], "port answer from to code data\nend 0 0\n"),
        listing(
            "P12",
            &[(3, "80 80 80 80 80 00 00 00 01 01")],
            "port answer from to code data\n3 1 - 0000 01 -\nend 1 0\n",
        ),
        listing(
            "AA AA 55",
            &[(2, "AA AA 55 01 00 00 00 10 00 00 01 10")],
            "port answer from to code data\n2 1 0100 0000 1000 -\nend 1 0\n",
        ),
        listing(
            "two frames, one flag between",
            &[(1, "7E FF 03 00 02 11 FF 00 15 79 91 7E FF 03 00 02 11 FF 00 15 79 91 7E")],
            "port answer from to code data\n1 1 0002 11FF 15 -\n1 1 0002 11FF 15 -\nend 2 0\n",
        ),
    ]
}

/// The lines between the header and the last line are damages, but for one message in N9.
fn losing(name: &'static str, packets: &[(u8, &str)], lines: &str) -> KnownListing {
    listing(name, packets, &format!("{HEADER}{lines}"))
}

/// The bytes lost with each damage, in inputs that are written out.
fn short_listings_of_req_09() -> Vec<KnownListing> {
    vec![
        losing(
            "N1: 7D before 00, 4 bytes between the flags",
            &[(1, "7E FF 03 7D 00 7E")],
            "1 2 4\nend 0 1\n",
        ),
        losing(
            "N2: three damages that share flags",
            &[(1, "7E 01 7E 02 7E 7D 7E")],
            "1 3 1\n1 3 1\n1 2 1\nend 0 3\n",
        ),
        losing(
            "N3: 9 unstuffed bytes, one of them a pair: 10 as sent",
            &[(1, "7E 01 02 03 04 05 06 07 08 7D 5E 7E")],
            "1 3 10\nend 0 1\n",
        ),
        losing(
            "N4: empty stretches and bytes before the first flag do not count",
            &[(1, "01 02 03 7E 7E 7E 05 7E 7E")],
            "1 3 1\nend 0 1\n",
        ),
        losing(
            "N5: 10 bytes that begin FE 03; a size of 1; a wrong sum",
            &[(1, "7E FE 03 00 02 11 FF 00 15 79 91 7E FF 03 00 02 11 FF 01 15 79 91 7E FF 03 00 02 11 FF 00 15 79 90 7E")],
            "1 4 10\n1 5 10\n1 6 10\nend 0 3\n",
        ),
        losing(
            "N6: a wrong sum with stuffed data: a body of 12, 14 as sent",
            &[(1, "7E FF 03 00 02 11 FF 02 15 7D 5E 7D 5D 00 00 7E")],
            "1 6 14\nend 0 1\n",
        ),
        losing(
            "N12: Eversolar, AA before AA 55 is not counted",
            &[(2, "AA AA 55 01 00 00 00 10 00 01 07 00 00")],
            "2 6 12\nend 0 1\n",
        ),
        losing(
            "N14: Fronius, length 81 and FF",
            &[(3, "80 80 80 81 80 80 80 FF")],
            "3 7 4\n3 7 4\nend 0 2\n",
        ),
        losing(
            "N15: Fronius, further 80 are not counted, for 7 or for 6",
            &[(3, "80 80 80 80 80 80 90"), (3, "80 80 80 80 80 00 00 00 01 02")],
            "3 7 4\n3 6 8\nend 0 2\n",
        ),
        losing(
            "N16: damages cut over packets of one byte, ports in turn",
            &[
                (1, "7E"),
                (3, "80"),
                (1, "01"),
                (3, "80"),
                (1, "02"),
                (3, "80"),
                (1, "03"),
                (3, "00"),
                (1, "7E"),
                (3, "00"),
                (1, "7D"),
                (3, "00"),
                (1, "7E"),
                (3, "01"),
                (1, "00"),
                (3, "00"),
            ],
            "1 3 3\n1 2 1\n3 6 8\nend 0 3\n",
        ),
    ]
}

/// Parts, each so many times, one after another.
fn repeated(parts: &[(&str, usize)]) -> Vec<u8> {
    parts.iter().flat_map(|&(part, times)| bytes(part).repeat(times)).collect()
}

/// The bytes of a port in packets of `cut` bytes; the last may have fewer.
pub fn cut_by(cut: usize, port: u8, parts: &[(&str, usize)]) -> Vec<u8> {
    repeated(parts).chunks(cut).flat_map(|piece| packet_of(port, piece)).collect()
}

fn losing_long(name: &'static str, input: Vec<u8>, lines: &str) -> KnownListing {
    KnownListing { name, input, output: format!("{HEADER}{lines}") }
}

/// The bytes lost with each damage, in inputs that are said by how they are made.
fn long_listings_of_req_09() -> Vec<KnownListing> {
    let eversolar_without_payload = packet_of(2, &bytes("AA 55 01 00 00 00 10 00 00 00 00"));
    let eversolar_with_255 = [("AA 55 00 11 01 00 11 83 FF", 1), ("00", 255), ("02 00", 1)];
    let fronius_without_payload = packet_of(3, &bytes("80 80 80 00 00 00 01 02"));
    let fronius_with_127 = [("80 80 80 7F 01 02 03", 1), ("00", 127), ("FF", 1)];
    vec![
        losing_long(
            "N7: 265, 266, 300 and a broken pair, cut by 200",
            cut_by(
                200,
                1,
                &[
                    ("7E", 1),
                    ("00", 265),
                    ("7E", 1),
                    ("00", 266),
                    ("7E", 1),
                    ("00", 300),
                    ("7D 7E", 1),
                ],
            ),
            "1 4 265\n1 3 266\n1 2 301\nend 0 3\n",
        ),
        losing_long(
            "N8: 65,534, 65,535, 65,536 and 70,000 bytes between flags",
            cut_by(
                240,
                1,
                &[
                    ("7E", 1),
                    ("00", 65_534),
                    ("7E", 1),
                    ("00", 65_535),
                    ("7E", 1),
                    ("00", 65_536),
                    ("7E", 1),
                    ("00", 70_000),
                    ("7E", 1),
                ],
            ),
            "1 3 65534\n1 3 65535\n1 3 65535\n1 3 65535\nend 0 4\n",
        ),
        losing_long(
            "N9: 70,000 bytes with a broken pair at their front, then a message by the same flag",
            cut_by(
                240,
                1,
                &[("7E 7D 00", 1), ("00", 69_998), ("7E FF 03 00 02 11 FF 00 15 79 91 7E", 1)],
            ),
            "1 2 65535\n1 1 0002 11FF 15 -\nend 1 1\n",
        ),
        losing_long(
            "N10: Eversolar, a wrong sum with N 0 and N 255",
            [eversolar_without_payload, cut_by(200, 2, &eversolar_with_255)].concat(),
            "2 6 11\n2 6 266\nend 0 2\n",
        ),
        losing_long(
            "N13: Fronius, a wrong sum with N 0 and N 127",
            [fronius_without_payload, cut_by(240, 3, &fronius_with_127)].concat(),
            "3 6 8\n3 6 135\nend 0 2\n",
        ),
        losing_long(
            "265 pairs and 40,000 pairs",
            cut_by(240, 1, &[("7E", 1), ("7D 5E", 265), ("7E", 1), ("7D 5E", 40_000), ("7E", 1)]),
            "1 4 530\n1 3 65535\nend 0 2\n",
        ),
    ]
}
