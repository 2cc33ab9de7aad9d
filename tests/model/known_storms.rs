//! What is known after a storm, with the answers written out: document 02, Req 13. On port 1 every
//! message of the list is listed behind at most one more line; on the other ports messages may be
//! lost, and on ports 2 and 3 others may be listed that nobody sent.

use crate::known::{cut_by, listing, KnownListing, HEADER};

/// Parts, each so many times, one after another.
type Parts<'a> = &'a [(&'a str, usize)];

/// A storm, and behind it the packets of a list, cut by `cut` bytes; the lines behind the header.
fn lists(
    name: &'static str,
    port: u8,
    storm: Parts,
    cut: usize,
    list: Parts,
    lines: &str,
) -> KnownListing {
    let input = [cut_by(240, port, storm), cut_by(cut, port, list)].concat();
    KnownListing { name, input, output: format!("{HEADER}{lines}") }
}

/// Inputs whose whole output is known.
pub fn listings() -> Vec<KnownListing> {
    let mut listings = one_more_answer();
    listings.extend(no_more_answer());
    listings.extend(lost_on_port_2());
    listings.extend(lost_on_port_3());
    listings.extend(lost_on_port_4());
    listings.push(all_ports());
    listings
}

// ---- port 1 ----

/// P1, the ping of L1.
const P1: &str = "7E FF 03 00 02 11 FF 00 15 79 91 7E";
const P1_LINE: &str = "1 1 0002 11FF 15 -\n";

/// A storm on port 1, then P1 three times, cut by `cut` bytes: what is told before the three, and
/// the last line.
fn three_pings(
    name: &'static str,
    storm: Parts,
    cut: usize,
    before: &str,
    end: &str,
) -> KnownListing {
    let lines = [before, &P1_LINE.repeat(3), end].concat();
    lists(name, 1, storm, cut, &[(P1, 3)], &lines)
}

/// Storms that leave a stretch open: the first message's opening flag closes it, and what is told
/// there is a damage, or a message that was never sent as such.
fn one_more_answer() -> Vec<KnownListing> {
    vec![
        three_pings("S1: 3 bytes since a flag", &[("7E FF 03 00", 1)], 12, "1 3 3\n", "end 3 1\n"),
        three_pings("S2: a 7D at the end", &[("7D 7E 41 42 7D", 1)], 5, "1 2 3\n", "end 3 1\n"),
        three_pings("S3: a broken pair", &[("7E 7D 00", 1)], 1, "1 2 2\n", "end 3 1\n"),
        three_pings(
            "S4: 10 bytes that begin FE 03",
            &[("7E FE 03 00 02 11 FF 00 15 79 91", 1)],
            7,
            "1 4 10\n",
            "end 3 1\n",
        ),
        three_pings(
            "S5: 10 bytes with a size of 1",
            &[("7E FF 03 00 02 11 FF 01 15 79 91", 1)],
            11,
            "1 5 10\n",
            "end 3 1\n",
        ),
        three_pings(
            "S6: 10 bytes with a wrong sum",
            &[("7E FF 03 00 02 11 FF 00 15 79 90", 1)],
            13,
            "1 6 10\n",
            "end 3 1\n",
        ),
        three_pings("S7: 265 bytes", &[("7E", 1), ("00", 265)], 12, "1 4 265\n", "end 3 1\n"),
        three_pings("S8: 266 bytes", &[("7E", 1), ("00", 266)], 36, "1 3 266\n", "end 3 1\n"),
        three_pings(
            "S9: 70,000 bytes",
            &[("7E", 1), ("00", 70_000)],
            12,
            "1 3 65535\n",
            "end 3 1\n",
        ),
        three_pings(
            "S10: all of P1 but its closing flag, which is a message",
            &[("7E FF 03 00 02 11 FF 00 15 79 91", 1)],
            12,
            "1 1 0002 11FF 15 -\n",
            "end 4 0\n",
        ),
        three_pings(
            "S11: a stuffed body of document 000 without its closing flag, which is a message",
            &[("7E FF 03 00 02 7D 5D 7D 5E 00 15 99 C9", 1)],
            2,
            "1 1 0002 7D7E 15 -\n",
            "end 4 0\n",
        ),
    ]
}

/// Storms that leave nothing open, and one that ends with a flag and told something itself; and S1
/// where reading stops before the last flag.
fn no_more_answer() -> Vec<KnownListing> {
    let stopped = &[(P1, 2), ("7E FF 03 00 02 11 FF 00 15 79 91", 1)];
    let two_pings = format!("1 3 3\n{}end 2 1\n", P1_LINE.repeat(2));
    vec![
        three_pings("S12: no storm", &[], 12, "", "end 3 0\n"),
        three_pings("S13: no flag", &[("00 41 7D 5E", 1)], 12, "", "end 3 0\n"),
        three_pings("S14: a flag at the end", &[("41 42 7E", 1)], 240, "", "end 3 0\n"),
        three_pings("S15: two flags", &[("7E 41 42 7E", 1)], 12, "1 3 2\n", "end 3 1\n"),
        lists("S16: S1 without its last byte", 1, &[("7E FF 03 00", 1)], 12, stopped, &two_pings),
    ]
}

// ---- port 2 ----

/// P3 of Req 03.
const P3: &str = "AA 55 01 00 00 00 10 00 00 01 10";
const P3_LINE: &str = "2 1 0100 0000 1000 -\n";

/// Nine bytes promise a frame, and the frame takes what comes. S17: 257 bytes more, which are 23
/// times P3 and four bytes of the next; they end with 01 00, and the sum is 7,412. S18: nine bytes,
/// and from then on each frame begins in the data of one message and ends in the lead of the next:
/// it ends with 03 09, which is 777, and its sum is 552 at first and 610 later. S19 and S20: the
/// same with other data, so that each message and each frame across two of them has the sum 03 0A,
/// 778.
fn lost_on_port_2() -> Vec<KnownListing> {
    let promises_7 = "AA 55 00 00 00 00 00 00 07";
    let with_9 = "AA 55 01 00 00 11 11 03 09 AA 55 00 00 00 00 00 00 09 02 36";
    let with_10 = "AA 55 01 00 00 11 11 03 0A AA 55 00 00 00 00 00 00 0A D2 03 0A";
    let never_sent = "2 1 0000 0000 0000 D2030AAA550100001111\n".repeat(4);
    vec![
        lists(
            "S17: a frame of 255 data bytes begun, then P3 sixty times",
            2,
            &[("AA 55 00 00 00 00 00 00 FF", 1)],
            11,
            &[(P3, 60)],
            &format!("2 6 266\n{}end 36 1\n", P3_LINE.repeat(36)),
        ),
        lists(
            "S18: a frame of 7 data bytes begun, then messages of which none is read",
            2,
            &[(promises_7, 1)],
            20,
            &[(with_9, 5)],
            "2 6 18\n2 6 20\n2 6 20\n2 6 20\n2 6 20\nend 0 5\n",
        ),
        lists(
            "S19: a frame of 7 data bytes begun, then messages that nobody sent",
            2,
            &[(promises_7, 1)],
            21,
            &[(with_10, 5)],
            &format!("2 6 18\n{never_sent}end 4 1\n"),
        ),
        lists(
            "S20: messages that nobody sent, and no damage",
            2,
            &[("AA 55 00 00 00 00 00 E2 07", 1)],
            4,
            &[(with_10, 5)],
            &format!("2 1 0000 0000 00E2 AA550100001111\n{never_sent}end 5 0\n"),
        ),
    ]
}

// ---- port 3 ----

const P4: &str = "80 80 80 00 00 00 01 01";
const P4_LINE: &str = "3 1 - 0000 01 -\n";

/// Four bytes promise a frame, and the frame takes what comes. S21: 131 bytes more, which are 16
/// times P4 and 80 80 80; the last 80 is no sum, for the sum is 9F. S22: seven bytes, and from then
/// on each frame begins in the data of one message and ends in the lead of the next: it ends with
/// 11, and its sum is 89 at first and 25 later. S23 and S24: the same with other data, so that each
/// message and each frame across two of them has the sum 00.
fn lost_on_port_3() -> Vec<KnownListing> {
    let promises_3 = "80 80 80 03";
    let with_4 = "80 80 80 04 01 01 11 80 80 80 04 9B";
    let with_5 = "80 80 80 05 01 01 00 80 80 80 05 74 00";
    let never_sent = "3 1 - 7400 80 8080050101\n".repeat(4);
    vec![
        lists(
            "S21: a frame of 127 data bytes begun, then P4 sixty times",
            3,
            &[("80 80 80 7F", 1)],
            8,
            &[(P4, 60)],
            &format!("3 6 135\n{}end 43 1\n", P4_LINE.repeat(43)),
        ),
        lists(
            "S22: a frame of 3 data bytes begun, then messages of which none is read",
            3,
            &[(promises_3, 1)],
            5,
            &[(with_4, 5)],
            "3 6 11\n3 6 12\n3 6 12\n3 6 12\n3 6 12\nend 0 5\n",
        ),
        lists(
            "S23: a frame of 3 data bytes begun, then messages that nobody sent",
            3,
            &[(promises_3, 1)],
            13,
            &[(with_5, 5)],
            &format!("3 6 11\n{never_sent}end 4 1\n"),
        ),
        lists(
            "S24: messages that nobody sent on port 3, and no damage",
            3,
            &[("80 80 80 04 75", 1)],
            1,
            &[(with_5, 5)],
            &format!("3 1 - 7580 80 80050101\n{never_sent}end 5 0\n"),
        ),
    ]
}

// ---- port 4 ----

/// The example of document 003.
const D1: &str = "05 30 31 52 33 30 30 30 31 41 37 04";
const D1_LINE: &str = "4 1 05 3031 52 3330303031\n";

/// An opening byte opens a frame, which the first message's EOT ends: this message is lost, and no
/// other. Where none is open, none is lost.
fn lost_on_port_4() -> Vec<KnownListing> {
    let two = D1_LINE.repeat(2);
    let fifty = &[("05", 1), ("30", 50)];
    let but_its_end = "06 30 41 58 43 39";
    vec![
        lists("S25: an ENQ", 4, &[("05", 1)], 12, &[(D1, 3)], &format!("4 21 13\n{two}end 2 1\n")),
        lists(
            "S26: an ENQ, 50 digits",
            4,
            fifty,
            12,
            &[(D1, 3)],
            &format!("4 3 63\n{two}end 2 1\n"),
        ),
        lists(
            "S27: all of a reply but its EOT",
            4,
            &[(but_its_end, 1)],
            5,
            &[(D1, 3)],
            &format!("4 21 18\n{two}end 2 1\n"),
        ),
        lists(
            "S28: no opening byte",
            4,
            &[("30 31 52 04 04", 1)],
            1,
            &[(D1, 3)],
            &format!("{D1_LINE}{two}end 3 0\n"),
        ),
    ]
}

// ---- all ports ----

/// A storm on each port that leaves something open, then a message on each, twice: all ports lose
/// the first but port 1.
fn all_ports() -> KnownListing {
    let (storm_2, storm_3) = ("AA 55 00 00 00 00 00 00 00", "80 80 80 00");
    let storms = [(1, "7E FF 03 00"), (2, storm_2), (3, storm_3), (4, "05")];
    let messages = [(1, P1), (2, P3), (3, P4), (4, D1)];
    let lost = format!("1 3 3\n{P1_LINE}2 6 11\n3 6 8\n4 21 13\n");
    let read = [P1_LINE, P3_LINE, P4_LINE, D1_LINE].concat();
    listing(
        "S29: a storm on each port, then a message on each, twice",
        &[storms, messages, messages].concat(),
        &format!("{HEADER}{lost}{read}end 5 4\n"),
    )
}
