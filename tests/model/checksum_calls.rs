//! Calls of the checksum. What is asked by the table is asked without it too, with the same
//! arguments: document 02, Req 05, "Nothing a caller is told changes."

use crate::calls::{op, Call, Making};
use crate::fields::in_words;
use crate::random::Random;
use crate::shown;

const BY_TABLE: &str = "checksum";
const BY_BITS: &str = "checksum without a table";

/// The opcode of a call by the table, and that of its twin, the same call without one.
const TWINS: [(u8, u8); 4] = [(0x71, 0x76), (0x72, 0x77), (0x74, 0x78), (0x75, 0x79)];

/// What the checksum of P1 covers.
const COVERED: [u8; 8] = [0xFF, 0x03, 0x00, 0x02, 0x11, 0xFF, 0x00, 0x15];

/// Lists of no byte up to as many as a list may have; 263 are covered in the longest body.
const LENGTHS: [usize; 10] = [0, 1, 2, 8, 255, 256, 263, 1000, 4096, 16_384];
const LENGTHS_OF_TWO: [usize; 8] = [0, 1, 2, 3, 8, 255, 256, 1000];

/// The lowest and the highest, the polynomial, and its complement.
const STATES: [u16; 5] = [0x0000, 0x0001, 0xFFFF, 0x8408, 0x7BF7];

fn over(bytes: &[u8]) -> Making {
    op(0x71).list(bytes)
}

fn going_on(state: u16, bytes: &[u8]) -> Making {
    op(0x72).w(state).list(bytes)
}

fn sent_for(state: u16) -> Call {
    op(0x73).w(state).from(BY_TABLE)
}

fn over_the_first(count: u16, bytes: &[u8]) -> Making {
    op(0x74).w(count).list(bytes)
}

fn over_both(first: &[u8], second: &[u8]) -> Making {
    op(0x75).list(first).list(second)
}

fn twin_of(op: u8) -> Option<u8> {
    TWINS.into_iter().find(|&(by_table, _)| by_table == op).map(|(_, by_bits)| by_bits)
}

/// A call by the table, and behind it its twin.
fn with_its_twin(by_table: Making) -> [Call; 2] {
    let twin = twin_of(by_table.bytes[0]).expect("every call but 73 has a twin");
    let by_bits = op(twin).raw(&by_table.bytes[1..]);
    [by_table.from(BY_TABLE), by_bits.from(BY_BITS)]
}

pub fn checksum_sweep(random: &mut Random, calls: &mut Vec<Call>) {
    let sweeps = [every_byte(), p1_cut_everywhere(), every_length(random), two_lengths(random)];
    calls.extend(sweeps.into_iter().flatten().flat_map(with_its_twin));
    calls.extend((0..=255).map(|byte| sent_for(byte * 257)));
}

/// Alone, and from state 0, where its entry shows.
fn every_byte() -> Vec<Making> {
    (0..=255).flat_map(|byte| [over(&[byte]), going_on(0, &[byte])]).collect()
}

/// The two parts in two lists, in either order; the second part going on; and the first part of
/// them all.
fn p1_cut_everywhere() -> Vec<Making> {
    let cut_at = |cut: usize| {
        let (first, second) = COVERED.split_at(cut);
        let between = right::checksum::over(first);
        [
            over_both(first, second),
            over_both(second, first),
            going_on(between, second),
            over_the_first(cut as u16, &COVERED),
        ]
    };
    (0..=COVERED.len()).flat_map(cut_at).collect()
}

/// Each length with every telling state and every telling number of first bytes, and in two lists.
fn every_length(random: &mut Random) -> Vec<Making> {
    LENGTHS.into_iter().flat_map(|length| of_a_length(length, random)).collect()
}

fn of_a_length(length: usize, random: &mut Random) -> Vec<Making> {
    let (bytes, all) = (random.bytes(length), length as u16);
    let (first, second) = bytes.split_at(random.between(0, length));
    let mut makings = vec![over(&bytes), over_both(first, second), over_both(&bytes, &bytes)];
    makings.extend(STATES.map(|state| going_on(state, &bytes)));
    makings.push(going_on(random.word(), &bytes));
    let counts = [0, 1, all.saturating_sub(1), all, all + 1, 65_535];
    makings.extend(counts.map(|count| over_the_first(count, &bytes)));
    makings
}

fn two_lengths(random: &mut Random) -> Vec<Making> {
    let mut makings = Vec::new();
    for first in LENGTHS_OF_TWO {
        for second in LENGTHS_OF_TWO {
            makings.push(over_both(&random.content(first), &random.content(second)));
        }
    }
    makings
}

/// A call and its twin, either of them first; or what is sent for a state, which has no twin.
pub fn random_checksum(random: &mut Random) -> Vec<Call> {
    let length = random.pick(&[0, 1, 2, 8, 100, 263, 1000]);
    let bytes = random.content(length);
    let making = match random.below(5) {
        0 => over(&bytes),
        1 => going_on(any_state(random), &bytes),
        2 => return vec![sent_for(random.word())],
        3 => {
            let (first, second) = bytes.split_at(random.between(0, length));
            over_both(first, second)
        }
        _ => {
            let count = random.pick(&[0, 1, length as u16, length as u16 + 1, 65_535, 7, 50]);
            over_the_first(count, &bytes)
        }
    };
    let mut twins = with_its_twin(making);
    if random.one_in(2) {
        twins.reverse();
    }
    twins.into()
}

fn any_state(random: &mut Random) -> u16 {
    match random.one_in(4) {
        true => random.pick(&STATES),
        false => random.word(),
    }
}

/// A call of any kind with more bytes than a list may have.
pub fn too_long_to_sum(random: &mut Random) -> Call {
    let length = random.pick(&[16_385, 16_386, 32_768, 65_535]);
    let bytes = random.bytes(length);
    let making = match random.below(5) {
        0 => over(&bytes),
        1 => going_on(any_state(random), &bytes),
        2 => over_the_first(random.pick(&[0, 8, 65_535]), &bytes),
        3 => over_both(&bytes, &COVERED),
        _ => over_both(&COVERED, &bytes),
    };
    let [by_table, by_bits] = with_its_twin(making);
    match random.one_in(2) {
        true => by_table,
        false => by_bits,
    }
}

fn are_twins(one: &Call, other: &Call) -> bool {
    let (ops, turned) = ((one.bytes[0], other.bytes[0]), (other.bytes[0], one.bytes[0]));
    (TWINS.contains(&ops) || TWINS.contains(&turned)) && one.bytes[1..] == other.bytes[1..]
}

/// Twins that stand one behind the other must be answered alike; what is wrong with the first that
/// are not.
pub fn twins_disagree(calls: &[(usize, &Call)], results: &[Vec<u8>]) -> Option<String> {
    let told_apart =
        |&at: &usize| are_twins(calls[at].1, calls[at + 1].1) && results[at] != results[at + 1];
    let first = (0..results.len().saturating_sub(1)).find(told_apart)?;
    let words = [first, first + 1].map(|at| {
        let call = &calls[at].1.bytes;
        format!("call: {}\n  answer: {}", shown(call), in_words(call[0], &results[at]))
    });
    Some(words.join("\n  "))
}
