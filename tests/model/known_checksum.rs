//! What is known of the checksum without a table (document 02, Req 05), with the answers written
//! out: P1 of document 01, and the frames and entries that document 000 prints.

use crate::known::{bytes, known, list, KnownCall};

/// Calls whose results are known to the last byte.
pub fn calls() -> Vec<KnownCall> {
    [p1_in_every_way(), nothing_to_sum(), entries_of_appendix_b(), printed_frames()].concat()
}

/// "P1 ComLynx ping of L1: checksum state 6E86, sent 79 91." By the entries that appendix B prints
/// the states behind FF, 03, 00 and 02, which are its first half, are 00FF, 3DE3, D5A8 and 0A85.
fn p1_in_every_way() -> Vec<KnownCall> {
    vec![
        known("P1 by bits", "76 08 00 FF 03 00 02 11 FF 00 15", "00 86 6E"),
        known("P1 by bits, its first half", "77 FF FF 04 00 FF 03 00 02", "00 85 0A"),
        known("P1 by bits, its second half", "77 85 0A 04 00 11 FF 00 15", "00 86 6E"),
        known(
            "P1 by bits, of a longer list",
            "78 08 00 0A 00 FF 03 00 02 11 FF 00 15 79 91",
            "00 86 6E",
        ),
        known(
            "P1 by bits, of a list that ends before n",
            "78 FF FF 08 00 FF 03 00 02 11 FF 00 15",
            "00 86 6E",
        ),
        known("P1 by bits, two lists", "79 02 00 FF 03 06 00 00 02 11 FF 00 15", "00 86 6E"),
    ]
}

/// A state goes through unchanged where no byte comes.
fn nothing_to_sum() -> Vec<KnownCall> {
    vec![
        known("no byte, by bits", "76 00 00", "00 FF FF"),
        known("no further byte, by bits", "77 34 12 00 00", "00 34 12"),
        known("none of two bytes, by bits", "78 00 00 02 00 79 91", "00 FF FF"),
        known("two empty lists, by bits", "79 00 00 00 00", "00 FF FF"),
    ]
}

/// From state 0 one byte leads to the entry that it chooses: 1189, 8408, F0B7 and 0F78 are printed
/// at 01, 80, 87 and FF.
fn entries_of_appendix_b() -> Vec<KnownCall> {
    vec![
        known("entry 01, by bits", "77 00 00 01 00 01", "00 89 11"),
        known("entry 80, by bits", "77 00 00 01 00 80", "00 08 84"),
        known("entry 87, by bits", "77 00 00 01 00 87", "00 B7 F0"),
        known("entry FF, by bits", "77 00 00 01 00 FF", "00 78 0F"),
    ]
}

/// What a frame's checksum covers, and the two bytes that are sent for it.
fn printed_frames() -> Vec<KnownCall> {
    let frames = [
        ("P1 and its checksum", "FF 03 00 02 11 FF 00 15", "79 91"),
        ("000, 6.1, request, and its checksum", "FF 03 00 02 12 03 00 15", "23 9D"),
        ("000, 5.1.1, and its checksum", "FF 03 00 02 7D 7E 00 15", "99 C9"),
        ("000, network 1, and its checksum", "FF 03 EE FE 1F FF 00 15", "1C 6C"),
        ("000, a reply, and its checksum", "FF 03 11 04 EE FE 00 95", "7C F7"),
        ("000, subnet 0, and its checksum", "FF 03 EE FE 10 FF 00 15", "E5 DE"),
    ];
    frames.into_iter().flat_map(|(name, covered, sent)| of_a_frame(name, covered, sent)).collect()
}

/// F0B8 is "Good final FCS value" in RFC 1662 and in appendix B: that of what is covered and what
/// is sent.
const GOOD: &str = "00 B8 F0";

/// "The complement is sent", "checksum low byte first": that gives the state over what is covered.
/// It goes on over what is sent to the good value; so do all bytes, in one list or in two.
fn of_a_frame(name: &'static str, covered: &str, sent: &str) -> [KnownCall; 4] {
    let (covered, sent) = (bytes(covered), bytes(sent));
    let state: Vec<u8> = sent.iter().map(|byte| 0xFF - byte).collect();
    let call = |op: u8, arguments: Vec<u8>, result: Vec<u8>| {
        let call = [vec![op], arguments].concat();
        KnownCall { name, call, result }
    };
    [
        call(0x76, list(&covered), [vec![0], state.clone()].concat()),
        call(0x77, [state, list(&sent)].concat(), bytes(GOOD)),
        call(0x76, list(&[covered.clone(), sent.clone()].concat()), bytes(GOOD)),
        call(0x79, [list(&covered), list(&sent)].concat(), bytes(GOOD)),
    ]
}
