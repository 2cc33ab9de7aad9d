//! What is known of drives, with the answers written out: document 02, Req 04, and the example of
//! document 003, which is D1. D1 to D23 are frames, U1 to U13 packets of two versions, and N17 to N19
//! the bytes lost with a frame (Req 09).

use crate::known::{
    bytes, counts, cut_by, known, lent_with, line, list, listing, packet_of, ports, read_in_place,
    KnownCall, KnownListing, HEADER,
};

/// Calls whose results are known to the last byte.
pub fn calls() -> Vec<KnownCall> {
    [written_and_told(), frames_read(), characters_counted(), in_place()].concat()
}

/// Inputs whose whole output is known.
pub fn listings() -> Vec<KnownListing> {
    let mut listings = messages();
    listings.extend(damages());
    listings.extend(long_frames());
    listings.extend(packets());
    listings
}

const D1: &str = "05 30 31 52 33 30 30 30 31 41 37 04";
const D1_LINE: &str = "4 1 05 3031 52 3330303031\n";

/// The writer's call: opening byte, station, letter and data as text, and the room. The result is its
/// number, the length, and what is written, which stands at the front of the room.
fn drives_write(
    name: &'static str,
    opening: u8,
    lead: &str,
    payload: &str,
    room: usize,
    result: &str,
) -> KnownCall {
    let call = [&[0x14, opening], lead.as_bytes(), &list(payload.as_bytes())].concat();
    let (result, lent) = (bytes(result), vec![0xEE; room]);
    let mut later = result[3..].to_vec();
    later.resize(room, 0xEE);
    let result = [&result[..3], &list(&later)].concat();
    KnownCall { name, call: [call, list(&lent)].concat(), result }
}

/// Station, letter and data of D1, written; what the writer refuses, and in which order; whether a
/// reply is expected; lines; and packets of version 00 02.
fn written_and_told() -> Vec<KnownCall> {
    let (thirty_two, thirty_three) = ("0".repeat(32), "0".repeat(33));
    let (thirty_seven, thirty_eight) = ("0".repeat(37), "0".repeat(38));
    let of_d1 = format!("00 0C 00 {D1}");
    let longest_reply = format!("00 27 00 06 30 31 52 {} 42 33 04", "30 ".repeat(32));
    let longest_request = format!("00 2C 00 05 30 31 52 {} 41 33 04", "30 ".repeat(37));
    let (too_long, no_room, outside) = ("08 00 00", "09 00 00", "15 00 00");
    vec![
        drives_write("D1, written", 0x05, "01R", "30001", 12, &of_d1),
        drives_write("D1 with more room", 0x05, "01R", "30001", 20, &of_d1),
        drives_write("D1 without room", 0x05, "01R", "30001", 11, no_room),
        drives_write("D1 with the letter O", 0x05, "01R", "30O01", 0, outside),
        drives_write("D1 with a small letter", 0x05, "01r", "30001", 12, outside),
        drives_write("D1 with a small digit", 0x05, "0aR", "30001", 12, outside),
        drives_write("D1 with a G at its end", 0x05, "01R", "3000G", 12, outside),
        drives_write("D1 with an EOT in it", 0x05, "01R", "3\x04001", 12, outside),
        drives_write("opening byte 07", 0x07, "01R", "30001", 0, outside),
        drives_write("opening byte 07, 32 data", 0x07, "01R", &thirty_two, 39, outside),
        drives_write("opening byte 07, 33 data", 0x07, "01R", &thirty_three, 0, too_long),
        drives_write("a request of 44", 0x05, "01R", &thirty_seven, 44, &longest_request),
        drives_write("a request of 45", 0x05, "01R", &thirty_eight, 45, too_long),
        drives_write("a request of 45, no room", 0x05, "01r", &thirty_eight, 0, too_long),
        drives_write("a reply of 39", 0x06, "01R", &thirty_two, 39, &longest_reply),
        drives_write("a reply of 39, no room", 0x06, "01R", &thirty_two, 38, no_room),
        drives_write("a reply of 40", 0x06, "01R", &thirty_three, 40, too_long),
        drives_write("an error reply of 40", 0x15, "01R", &thirty_three, 40, too_long),
        known("station 255 does not reply", "24 05 46 46", "00 00"),
        known("station 01 replies", "24 05 30 31", "00 01"),
        known("station F0 replies", "24 05 46 30", "00 01"),
        known("station 0F replies", "24 05 30 46", "00 01"),
        known("a reply has none", "24 06 30 31", "00 00"),
        known("an error has none", "24 15 30 31", "00 00"),
        known("a reply from station 255", "24 06 46 46", "00 00"),
        known("station fF", "24 05 66 46", "15 00"),
        known("station 1 and a space", "24 05 31 20", "15 00"),
        known("no opening byte", "24 04 30 31", "15 00"),
        line("D1, message", &bytes("8D 04 05 30 31 52 05 00 33 30 30 30 31"), D1_LINE),
        line("D2, message", &bytes("8D 04 05 46 46 58 00 00"), "4 1 05 4646 58 -\n"),
        line("D10, damage", &bytes("83 04 15 0C 00"), "4 21 12\n"),
        known(
            "D1, its lead",
            "61 13 00 53 42 52 00 02 04 0C 05 30 31 52 33 30 30 30 31 41 37 04",
            "00 04 0C 13 00",
        ),
        known("version 1 with port 4", "61 08 00 53 42 52 00 01 04 01 05", "0C 00 00 00 00"),
        known("version 2 with port 3", "61 08 00 53 42 52 00 02 03 01 05", "0C 00 00 00 00"),
        known("version 3 with port 4", "61 08 00 53 42 52 00 03 04 01 05", "0B 00 00 00 00"),
        known(
            "a packet for port 4",
            "62 04 01 00 05 08 00 00 00 00 00 00 00 00 00",
            "00 08 00 08 00 53 42 52 00 02 04 01 05",
        ),
        known(
            "a packet for port 3",
            "62 03 01 00 80 08 00 00 00 00 00 00 00 00 00",
            "00 08 00 08 00 53 42 52 00 01 03 01 80",
        ),
        known("a packet for port 5", "62 05 01 00 05 01 00 00", "0C 00 00 01 00 00"),
    ]
}

/// PORTS with nothing held but what a reader of drives holds, where no frame is open.
fn ports_of_drives(held: &str) -> Vec<u8> {
    let mut ports = ports(0, &[]);
    let held = bytes(held);
    let begin = ports.len() - 45;
    ports[begin..begin + held.len()].copy_from_slice(&held);
    ports
}

/// PORTS with a stage and a count of the reader of drives.
fn with_numbers_of_drives(mut ports: Vec<u8>, stage: u8, count: u8) -> Vec<u8> {
    let begin = ports.len() - 3;
    ports[begin..].copy_from_slice(&[stage, count, 0]);
    ports
}

/// A reader is called once on a frame that is damage: the whole frame is lost, and what stands
/// between its opening byte and its EOT is held.
fn wrong_frame(name: &'static str, frame: &str, number: u8) -> KnownCall {
    let length = bytes(frame).len() as u16;
    let held = &frame[3..frame.len() - 3];
    drives_count(name, (0, 0), frame, (number, length, length), held, (0, 0))
}

/// D1 by its reader, by its port and as a packet, and D10, whose letter is small, likewise: 21 is a
/// damage there, and reading goes on.
fn frames_read() -> Vec<KnownCall> {
    let d10 = "05 30 31 72 33 30 30 30 31 43 37 04";
    let (held_of_d1, held_of_d10) =
        ("30 31 52 33 30 30 30 31 41 37", "30 31 72 33 30 30 30 31 43 37");
    let told = "01 0C 00 00 00 05 30 31 52 05 00";
    let fields = "01 00 05 02 00 30 31 01 00 52 05 00";
    let data = bytes("33 30 30 30 31");
    let both = [bytes(d10), bytes(D1)].concat();
    let of_a_port =
        |frame: &str| [ports(0, &[]), vec![4], list(&bytes(frame)), lent_with("", 255)].concat();
    let read = |told: &str, fields: Vec<u8>, held: &str| {
        [bytes(told), fields, ports_of_drives(held)].concat()
    };
    let of_a_packet = [ports(0, &[]), counts(0, 0), vec![0], list(&packet_of(4, &both))].concat();
    let lines = format!("4 21 12\n{D1_LINE}");
    let listed = [ports_of_drives(held_of_d1), [1_u64, 1, 1].map(u64::to_le_bytes).concat()];
    let on_the_way = with_numbers_of_drives(ports_of_drives(held_of_d1), 0x05, 10);
    let spoilt = with_numbers_of_drives(ports(0, &[]), 0x04, 0);
    let p4 = bytes("80 80 80 00 00 00 01 01");
    let p4_read = bytes("01 08 00 00 00 00 00 02 00 00 00 01 00 01 00 00");
    let mut with_p4_held = spoilt.clone();
    with_p4_held[270 + 268..][..3].copy_from_slice(&[0, 0, 1]);
    vec![
        KnownCall { name: "a fresh reader of drives", call: vec![0x0B], result: vec![0; 46] },
        drives_read("D1, read in one call", (0, 0), D1, told, held_of_d1, (0, 0), &data),
        drives_read(
            "D10, read in one call",
            (0, 0),
            d10,
            "15 0C 00 0C 00 00 00 00 00 00 00",
            held_of_d10,
            (0, 0),
            &[],
        ),
        wrong_frame("D1 with the sum B7", "05 30 31 52 33 30 30 30 31 42 37 04", 6),
        wrong_frame("D1 with the sum AC", "05 30 31 52 33 30 30 30 31 41 43 04", 6),
        wrong_frame("D1 with a G at its end", "05 30 31 52 33 30 30 30 47 42 44 04", 21),
        wrong_frame("a reply with the letter Q", "06 30 31 51 42 32 04", 21),
        wrong_frame("an error with the letter Q", "15 30 31 51 42 32 04", 21),
        KnownCall {
            name: "D1, its port",
            call: [vec![0x87], of_a_port(D1)].concat(),
            result: [read("01 0C 00 00 00", bytes(fields), held_of_d1), lent_with(&data, 255)]
                .concat(),
        },
        KnownCall {
            name: "D10, its port",
            call: [vec![0x87], of_a_port(d10)].concat(),
            result: [read("15 0C 00 0C 00", vec![0; 8], held_of_d10), lent_with("", 255)].concat(),
        },
        KnownCall {
            name: "the end of D1, its port",
            call: [vec![0x87], on_the_way.clone(), vec![4], list(&[0x04]), lent_with("", 255)]
                .concat(),
            result: [read("01 01 00 00 00", bytes(fields), held_of_d1), lent_with(&data, 255)]
                .concat(),
        },
        KnownCall {
            name: "P4 beside a spoilt reader of drives",
            call: [vec![0x87], spoilt.clone(), vec![3], list(&p4), lent_with("", 255)].concat(),
            result: [p4_read, with_p4_held, lent_with("", 255)].concat(),
        },
        KnownCall {
            name: "the end of D1, port 5",
            call: [vec![0x87], on_the_way.clone(), vec![5], list(&[0x04]), lent_with("", 255)]
                .concat(),
            result: [vec![12], vec![0; 12], on_the_way, lent_with("", 255)].concat(),
        },
        KnownCall {
            name: "D10 and D1, their packet",
            call: [vec![0x89], of_a_packet, lent_with("", 8192)].concat(),
            result: [
                bytes("00 02 1F 00"),
                (lines.len() as u16).to_le_bytes().to_vec(),
                listed.concat(),
                lent_with(lines, 8192),
            ]
            .concat(),
        },
    ]
}

/// A reader of drives that holds DD everywhere is called once. `told` has all up to the length.
fn drives_read(
    name: &'static str,
    before: (u8, u16),
    piece: &str,
    told: &str,
    held_later: &str,
    after: (u8, u16),
    payload: &[u8],
) -> KnownCall {
    let numbers = |(stage, count): (u8, u16)| [vec![stage], count.to_le_bytes().to_vec()].concat();
    let mut later = bytes(held_later);
    later.resize(42, 0xDD);
    let call = [vec![0x0A], vec![0xDD; 42], numbers(before), list(&bytes(piece))];
    let result = [bytes(told), later, numbers(after), lent_with(payload, 255)];
    KnownCall { name, call: [call.concat(), lent_with("", 255)].concat(), result: result.concat() }
}

/// The same where no message comes: the number, the bytes used and those lost.
fn drives_count(
    name: &'static str,
    before: (u8, u16),
    piece: &str,
    (number, used, lost): (u8, u16, u16),
    held_later: &str,
    after: (u8, u16),
) -> KnownCall {
    let [low, high] = used.to_le_bytes();
    let [lost_low, lost_high] = lost.to_le_bytes();
    let told = format!("{number:02X} {low:02X} {high:02X} {lost_low:02X} {lost_high:02X}");
    drives_read(name, before, piece, &(told + &" 00".repeat(6)), held_later, after, &[])
}

/// What a state of drives holds and counts: characters since the opening byte, up to 65,533.
fn characters_counted() -> Vec<KnownCall> {
    vec![
        drives_count("no opening byte yet", (0, 0), "00 04 30 04", (0, 4, 0), "", (0, 0)),
        drives_count("neighbours of opening bytes", (0, 0), "03 07 14 16", (0, 4, 0), "", (0, 0)),
        drives_count("an opening byte alone", (0, 0), "04 15", (0, 2, 0), "", (0x15, 0)),
        drives_count("two characters", (0, 0), "06 30 05", (0, 3, 0), "30 05", (6, 2)),
        drives_count("an EOT at once", (0, 0), "05 04", (3, 2, 2), "", (0, 0)),
        drives_count("42 counted", (5, 42), "31", (0, 1, 0), "", (5, 43)),
        drives_count("65,533 counted", (5, 65_531), "31 31", (0, 2, 0), "", (5, 65_533)),
        drives_count("65,534 counted", (5, 65_533), "31", (0, 1, 0), "", (5, 65_533)),
        drives_count("65,534 lost", (6, 65_532), "04", (3, 1, 65_534), "", (0, 0)),
        drives_count("65,535 lost", (6, 65_533), "04", (3, 1, 65_535), "", (0, 0)),
        drives_count("65,536 lost", (6, 65_533), "00 04", (3, 2, 65_535), "", (0, 0)),
        drives_count("42 held, of a reply", (0x15, 42), "04 04", (3, 1, 44), "", (0, 0)),
        drives_count("42 held, of a request", (5, 42), "04", (21, 1, 44), "", (0, 0)),
        drives_count("43 counted, of a request", (5, 43), "04", (3, 1, 45), "", (0, 0)),
        drives_count("4 held", (5, 4), "04", (3, 1, 6), "", (0, 0)),
        drives_count("5 held", (5, 5), "04", (21, 1, 7), "", (0, 0)),
        drives_count("65,534 in a frame", (5, 65_534), "04", (18, 0, 0), "", (5, 65_534)),
        drives_count("1 before a frame", (0, 1), "04", (18, 0, 0), "", (0, 1)),
        drives_count("stage 01", (1, 0), "04", (18, 0, 0), "", (1, 0)),
        drives_count("stage 02", (2, 0), "04", (18, 0, 0), "", (2, 0)),
        drives_count("stage 03", (3, 0), "04", (18, 0, 0), "", (3, 0)),
        drives_count("stage 04", (4, 0), "04", (18, 0, 0), "", (4, 0)),
        drives_count("stage 07", (7, 0), "04", (18, 0, 0), "", (7, 0)),
        drives_count("stage 14", (0x14, 0), "04", (18, 0, 0), "", (0x14, 0)),
        drives_count("stage 16", (0x16, 0), "04", (18, 0, 0), "", (0x16, 0)),
    ]
}

/// D1 in place; and where a byte too few or too many is lent to hold bytes in, which is 18 even
/// where too little is lent for the payload too.
fn in_place() -> Vec<KnownCall> {
    let spoilt = |name, held| {
        let spoilt = [vec![0; 3], list(&vec![0xDD; held])].concat();
        let call = [vec![0x0C], spoilt.clone(), list(&bytes(D1)), lent_with("", 254)].concat();
        let result = [vec![18], vec![0; 10], spoilt, lent_with("", 254)].concat();
        KnownCall { name, call, result }
    };
    vec![
        read_in_place(
            "D1, in place",
            "0C 00 00 00",
            42,
            D1,
            "01 0C 00 00 00 05 30 31 52 05 00 00 00 00",
            "30 31 52 33 30 30 30 31 41 37",
            "33 30 30 30 31",
        ),
        read_in_place(
            "65,536 bytes of a frame, in place",
            "0C 05 FD FF",
            42,
            "00 04",
            "03 02 00 FF FF 00 00 00 00 00 00 00 00 00",
            "",
            "",
        ),
        spoilt("41 held bytes are spoilt", 41),
        spoilt("43 held bytes are spoilt", 43),
        spoilt("298 held bytes are spoilt", 298),
    ]
}

// ---- listings ----

/// Packets, and the lines behind the header.
fn lists(name: &'static str, packets: &[(u8, &str)], lines: &str) -> KnownListing {
    listing(name, packets, &format!("{HEADER}{lines}"))
}

/// The same of an input that is said by how it is made.
fn lists_bytes(name: &'static str, input: Vec<u8>, lines: &str) -> KnownListing {
    KnownListing { name, input, output: format!("{HEADER}{lines}") }
}

const LONGEST_REQUEST: &str = "05 30 31 57 33 30 30 30 38 31 30 30 30 31 30 30 31 31 30 30 32 31 30 30 33 31 30 30 34 31 30 30 35 31 30 30 36 31 30 30 37 44 37 04";
const LONGEST_REPLY: &str = "06 30 31 52 31 30 30 30 31 30 30 31 31 30 30 32 31 30 30 33 31 30 30 34 31 30 30 35 31 30 30 36 31 30 30 37 44 37 04";
/// The longest reply with one 0 more behind its data, its sum right, and no opening byte.
const LONGER_THAN_A_REPLY: &str = "30 31 52 31 30 30 30 31 30 30 31 31 30 30 32 31 30 30 33 31 30 30 34 31 30 30 35 31 30 30 36 31 30 30 37 30 30 37 04";

/// Frames that are read, on port 4.
fn messages() -> Vec<KnownListing> {
    vec![
        lists(
            "D1: the page's example, 1 address at 3000 from station 01",
            &[(4, D1)],
            "4 1 05 3031 52 3330303031\nend 1 0\n",
        ),
        lists(
            "D2: the shortest request, to every drive",
            &[(4, "05 46 46 58 45 34 04")],
            "4 1 05 4646 58 -\nend 1 0\n",
        ),
        lists(
            "D3: the shortest reply",
            &[(4, "06 30 41 58 43 39 04")],
            "4 1 06 3041 58 -\nend 1 0\n",
        ),
        lists(
            "D4: an error response, which has a code of two characters",
            &[(4, "15 30 31 57 34 44 33 30 04")],
            "4 1 15 3031 57 3444\nend 1 0\n",
        ),
        lists(
            "D5: the longest request, 37 data characters",
            &[(4, LONGEST_REQUEST)],
            "4 1 05 3031 57 33303030383130303031303031313030323130303331303034313030353130303631303037\nend 1 0\n",
        ),
        lists(
            "D6: the longest reply, 32 data characters",
            &[(4, LONGEST_REPLY)],
            "4 1 06 3031 52 3130303031303031313030323130303331303034313030353130303631303037\nend 1 0\n",
        ),
        lists(
            "D17: noise, EOTs and other control bytes before the opening byte",
            &[(4, "00 04 04 7E 41 37 FF 02 03 05 30 31 52 33 30 30 30 31 41 37 04")],
            "4 1 05 3031 52 3330303031\nend 1 0\n",
        ),
        lists(
            "D18: two frames, an EOT and noise between them",
            &[(4, "05 30 31 52 33 30 30 30 31 41 37 04 04 0D 0A 06 30 31 52 30 42 42 38 39 46 04")],
            "4 1 05 3031 52 3330303031\n4 1 06 3031 52 30424238\nend 2 0\n",
        ),
        lists(
            "D19: D1 in packets of one byte",
            &[
                (4, "05"),
                (4, "30"),
                (4, "31"),
                (4, "52"),
                (4, "33"),
                (4, "30"),
                (4, "30"),
                (4, "30"),
                (4, "31"),
                (4, "41"),
                (4, "37"),
                (4, "04"),
            ],
            "4 1 05 3031 52 3330303031\nend 1 0\n",
        ),
        lists(
            "D20: the value 3000 of the page, 0BB8",
            &[(4, "06 30 31 52 30 42 42 38 39 46 04")],
            "4 1 06 3031 52 30424238\nend 1 0\n",
        ),
        lists(
            "D21: a request and a reply of each letter",
            &[
                (4, "05 31 46 52 33 30 30 30 32 42 45 04"),
                (4, "06 31 46 52 30 30 30 31 30 30 30 32 34 43 04"),
                (4, "05 31 46 57 33 30 30 30 31 30 30 30 31 38 33 04"),
                (4, "06 31 46 57 30 30 30 31 38 46 04"),
                (4, "05 31 46 58 32 33 30 30 30 41 30 30 30 39 35 04"),
                (4, "06 31 46 58 43 46 04"),
                (4, "05 31 46 59 44 30 04"),
                (4, "06 31 46 59 30 30 30 31 30 30 30 32 35 33 04"),
            ],
            "4 1 05 3146 52 3330303032\n4 1 06 3146 52 3030303130303032\n4 1 05 3146 57 333030303130303031\n4 1 06 3146 57 30303031\n4 1 05 3146 58 323330303041303030\n4 1 06 3146 58 -\n4 1 05 3146 59 -\n4 1 06 3146 59 3030303130303032\nend 8 0\n",
        ),
        lists(
            "D22: a frame that has not ended",
            &[(4, "05 30 31 52 33 30 30 30 31 41 37")],
            "end 0 0\n",
        ),
        lists(
            "D23: 37 times F: the total is cut to its low 8 bits",
            &[(4, "05 46 46 59 46 46 46 46 46 46 46 46 46 46 46 46 46 46 46 46 46 46 46 46 46 46 46 46 46 46 46 46 46 46 46 46 46 46 46 46 46 30 33 04")],
            "4 1 05 4646 59 46464646464646464646464646464646464646464646464646464646464646464646464646\nend 1 0\n",
        ),
    ]
}

/// Frames that are damage, on port 4: 3 for the length, then 21 for a character, then 6 for the sum.
fn damages() -> Vec<KnownListing> {
    let too_long = |opening: &str| format!("{opening} {LONGER_THAN_A_REPLY}");
    let [ack, nak, enq] = ["06", "15", "05"].map(too_long);
    vec![
        lists(
            "D7: a request of 45 bytes",
            &[(4, "05 30 31 57 33 30 30 30 38 31 30 30 30 31 30 30 31 31 30 30 32 31 30 30 33 31 30 30 34 31 30 30 35 31 30 30 36 31 30 30 37 30 30 37 04")],
            "4 3 45\nend 0 1\n",
        ),
        lists(
            "D8: replies of 40 bytes, and a request of as many",
            &[(4, &ack), (4, &nak), (4, &enq)],
            "4 3 40\n4 3 40\n4 1 05 3031 52 313030303130303131303032313030333130303431303035313030363130303730\nend 1 2\n",
        ),
        lists(
            "D9: frames of 2 and of 6 bytes",
            &[(4, "05 04 05 30 31 52 30 04")],
            "4 3 2\n4 3 6\nend 0 2\n",
        ),
        lists(
            "D10: a small r, its sum right",
            &[(4, "05 30 31 72 33 30 30 30 31 43 37 04")],
            "4 21 12\nend 0 1\n",
        ),
        lists(
            "D11: small letters in the station, in the data, in the sum",
            &[
                (4, "05 30 61 52 33 30 30 30 31 44 37 04"),
                (4, "05 30 31 57 33 30 30 30 31 30 62 62 38 44 38 04"),
                (4, "05 30 31 52 33 30 30 30 31 61 37 04"),
            ],
            "4 21 12\n4 21 16\n4 21 12\nend 0 3\n",
        ),
        lists(
            "D12: the letters Q, S, V and Z",
            &[
                (4, "05 30 31 51 33 30 30 30 31 41 36 04"),
                (4, "05 30 31 53 33 30 30 30 31 41 38 04"),
                (4, "05 30 31 56 33 30 30 30 31 41 42 04"),
                (4, "05 30 31 5A 33 30 30 30 31 41 46 04"),
            ],
            "4 21 12\n4 21 12\n4 21 12\n4 21 12\nend 0 4\n",
        ),
        lists(
            "D13: 2F, 3A, 40 and 47 in the data",
            &[
                (4, "06 30 31 52 30 2F 30 30 37 32 04"),
                (4, "06 30 31 52 30 3A 30 30 37 44 04"),
                (4, "06 30 31 52 30 40 30 30 38 33 04"),
                (4, "06 30 31 52 30 47 30 30 38 41 04"),
            ],
            "4 21 11\n4 21 11\n4 21 11\n4 21 11\nend 0 4\n",
        ),
        lists(
            "D14: the sums A6, A8 and 7A for A7",
            &[
                (4, "05 30 31 52 33 30 30 30 31 41 36 04"),
                (4, "05 30 31 52 33 30 30 30 31 41 38 04"),
                (4, "05 30 31 52 33 30 30 30 31 37 41 04"),
            ],
            "4 6 12\n4 6 12\n4 6 12\nend 0 3\n",
        ),
        lists(
            "D15: all three wrong, then character and sum",
            &[
                (4, "05 30 31 71 33 30 30 30 38 31 30 30 30 31 30 30 31 31 30 30 32 31 30 30 33 31 30 30 34 31 30 30 35 31 30 30 36 31 30 30 37 30 7A 7A 04"),
                (4, "05 30 31 71 33 30 30 30 31 30 30 04"),
            ],
            "4 3 45\n4 21 12\nend 0 2\n",
        ),
        lists(
            "D16: an ENQ inside a frame opens nothing",
            &[(4, "05 30 31 52 05 30 31 52 33 30 30 30 31 41 37 04")],
            "4 21 16\nend 0 1\n",
        ),
        lists(
            "N17: 3, 21 and 6 with the bytes of their frames",
            &[
                (4, "05 04"),
                (4, "05 30 31 72 33 30 30 30 31 43 37 04"),
                (4, "05 30 31 52 33 30 30 30 31 41 36 04"),
            ],
            "4 3 2\n4 21 12\n4 6 12\nend 0 3\n",
        ),
        lists(
            "N19: the next frame is lost with an opening byte before it, and the one behind it is not",
            &[(4, "15 30 05 30 31 52 33 30 30 30 31 41 37 04 05 30 31 52 33 30 30 30 31 41 37 04")],
            "4 21 14\n4 1 05 3031 52 3330303031\nend 1 1\n",
        ),
    ]
}

/// Frames that do not end for long, in packets of 240.
fn long_frames() -> Vec<KnownListing> {
    let n18 = [
        ("05", 1),
        ("00", 65_532),
        ("04", 1),
        ("05", 1),
        ("00", 65_533),
        ("04", 1),
        ("05", 1),
        ("00", 65_534),
        ("04", 1),
        (D1, 1),
    ];
    let openings = [("15", 1), ("05", 70_000), ("04", 1), (D1, 1)];
    vec![
        lists_bytes(
            "N18: 65,534, 65,535 and 65,536 bytes from ENQ through EOT, then D1",
            cut_by(240, 4, &n18),
            "4 3 65534\n4 3 65535\n4 3 65535\n4 1 05 3031 52 3330303031\nend 1 3\n",
        ),
        lists_bytes(
            "70,000 opening bytes open one frame",
            cut_by(240, 4, &openings),
            "4 3 65535\n4 1 05 3031 52 3330303031\nend 1 1\n",
        ),
    ]
}

/// P4's packet, of version 00 01, and what stands behind it.
fn behind_a_message(name: &'static str, packet: &str, stop: &str) -> KnownListing {
    let message = packet_of(3, &bytes("80 80 80 00 00 00 01 01"));
    let input = [message, bytes(packet)].concat();
    lists_bytes(name, input, &format!("3 1 - 0000 01 -\nstop {stop}\nend 1 0\n"))
}

/// Versions and ports: 12 for a known version with the wrong port, 11 for another version.
fn packets() -> Vec<KnownListing> {
    let count_241 = format!("53 42 52 00 02 04 F1 {}", "00 ".repeat(241));
    vec![
        lists(
            "U1: four ports in one input",
            &[
                (1, "7E FF 03 00 02 11 FF 00 15 79 91 7E"),
                (2, "AA 55 01 00 00 00 10 00 00 01 10"),
                (3, "80 80 80 00 00 00 01 01"),
                (4, D1),
            ],
            "1 1 0002 11FF 15 -\n2 1 0100 0000 1000 -\n3 1 - 0000 01 -\n4 1 05 3031 52 3330303031\nend 4 0\n",
        ),
        behind_a_message(
            "U2: version 1 with port 4",
            "53 42 52 00 01 04 0C 05 30 31 52 33 30 30 30 31 41 37 04",
            "12",
        ),
        behind_a_message("U3: version 2 with port 1", "53 42 52 00 02 01 01 7E", "12"),
        behind_a_message("U4: version 2 with port 3", "53 42 52 00 02 03 01 80", "12"),
        behind_a_message("U5: version 2 with port 0", "53 42 52 00 02 00 01 05", "12"),
        behind_a_message("U6: version 2 with port 5", "53 42 52 00 02 05 01 05", "12"),
        behind_a_message("U7: version 2, port 4, count 0", "53 42 52 00 02 04 00", "12"),
        behind_a_message("U8: version 2, port 4, count 241", &count_241, "12"),
        behind_a_message(
            "U9: version 3 with port 4",
            "53 42 52 00 03 04 0C 05 30 31 52 33 30 30 30 31 41 37 04",
            "11",
        ),
        behind_a_message(
            "U10: version 0 with port 4",
            "53 42 52 00 00 04 0C 05 30 31 52 33 30 30 30 31 41 37 04",
            "11",
        ),
        behind_a_message(
            "U11: version 02 00 with port 4",
            "53 42 52 02 00 04 0C 05 30 31 52 33 30 30 30 31 41 37 04",
            "11",
        ),
        behind_a_message(
            "U12: version 2, port 4, its last byte missing",
            "53 42 52 00 02 04 0C 05 30 31 52 33 30 30 30 31 41 37",
            "13",
        ),
        behind_a_message("U13: version 2 and a wrong mark", "53 42 53 00 02 04 01 05", "10"),
    ]
}
