//! Calls of the readers in place: those of the readers, with the held bytes lent as a list.

use crate::calls::{
    forged_call, fresh_state, grid_calls, op, reader_call, reader_chain, shape, state_on_the_way,
    Call, Making, Shape,
};
use crate::listing_calls::spoilt_state;
use crate::random::Random;
use crate::streams::{self, Family, FAMILIES};

const LENGTHS: &str = "readers in place, lengths of the held bytes";
const GRID: &str = "readers in place, limits of the state";
const LENT: &str = "readers in place, lent lengths";
const FORGED: &str = "readers in place, forged states";
const CHAIN: &str = "readers in place, streams in pieces";

/// The lengths that are right for a family and those about them, those with the same low byte, and
/// those about what is lent at most. For each family all but one are wrong.
const HELD_LENGTHS: [usize; 31] = [
    0, 1, 7, 9, 41, 42, 43, 129, 130, 131, 255, 256, 262, 263, 264, 265, 266, 267, 298, 386, 511,
    512, 513, 519, 521, 554, 642, 775, 777, 1000, 16_384,
];

/// A reader's call made in place, with so many held bytes lent.
pub fn in_place(shape: Shape, call: &Call, length: usize, random: &mut Random) -> Making {
    let (state, rest) = call.bytes[1..].split_at(shape.state);
    let (held, numbers) = state.split_at(shape.held);
    let mut held = held.to_vec();
    held.extend(random.bytes(length.saturating_sub(shape.held)));
    held.truncate(length);
    op(shape.in_place).raw(numbers).list(&held).raw(rest)
}

pub fn in_place_sweep(random: &mut Random, calls: &mut Vec<Call>) {
    for family in FAMILIES {
        let shape = shape(family);
        held_lengths(family, random, calls);
        lent_lengths(family, random, calls);
        for call in grid_calls(family, random) {
            if random.one_in(4) {
                calls.push(in_place(shape, &call, shape.held, random).from(GRID));
            }
        }
    }
}

/// Every length of the held bytes, with states in and out of their range, with enough lent and
/// with too little.
fn held_lengths(family: Family, random: &mut Random, calls: &mut Vec<Call>) {
    let shape = shape(family);
    for length in HELD_LENGTHS {
        let frame = streams::frame(family, random);
        let on_the_way = state_on_the_way(shape, random);
        let spoilt = (spoilt_state(family, random), frame.clone());
        for (state, piece) in [(fresh_state(shape), frame), on_the_way, spoilt] {
            let piece = if random.one_in(6) { &[] } else { &piece[..] };
            for lents in [[0, 1, 254], [255, 256, 532]] {
                let lent = random.pick(&lents);
                let call = reader_call(shape, &state, piece, &random.bytes(lent)).from(LENGTHS);
                calls.push(in_place(shape, &call, length, random).from(LENGTHS));
            }
        }
    }
}

/// A message that fills the held bytes, whatever they were, and whose last byte comes.
fn lent_lengths(family: Family, random: &mut Random, calls: &mut Vec<Call>) {
    let shape = shape(family);
    for length in [0, 1, 127, 130, 253, 254, 255, 256, 257, 532, 8192, 16_384] {
        let payload = random.content(family.most_payload());
        let frame = streams::frame_with(family, random, payload);
        let mut state = fresh_state(shape);
        state[..shape.held].copy_from_slice(&family.content(random, shape.held));
        let call = reader_call(shape, &state, &frame, &random.bytes(length)).from(LENT);
        calls.push(in_place(shape, &call, shape.held, random).from(LENT));
    }
}

/// Forged states, mostly with as many held bytes as there must be.
pub fn random_in_place(family: Family, random: &mut Random) -> Call {
    let shape = shape(family);
    let call = forged_call(family, random);
    let wrong = [0, shape.held - 1, shape.held + 1, 512, 513, random.between(0, 700)];
    let length = if random.one_in(5) { random.pick(&wrong) } else { shape.held };
    in_place(shape, &call, length, random).from(FORGED)
}

pub fn in_place_chain(family: Family, random: &mut Random, calls: &mut Vec<Call>) {
    let (shape, mut of_states) = (shape(family), Vec::new());
    reader_chain(family, random, &mut of_states);
    for call in of_states {
        calls.push(in_place(shape, &call, shape.held, random).from(CHAIN));
    }
}

/// A whole call but for its held bytes, of which there are more than a list may have.
pub fn too_many_held(random: &mut Random) -> Making {
    let shape = shape(random.pick(&FAMILIES));
    let numbers = vec![0; shape.state - shape.held];
    let length = random.pick(&[16_385, 16_386]);
    let making = op(shape.in_place).raw(&numbers).list(&random.bytes(length));
    making.list(&[]).list(&[0; 255])
}
