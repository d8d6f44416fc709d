//! The calls of budgeting that are tried on one plan: general inflations, and lists of so many
//! words.

use crate::budget::{Call, HIGHEST_GENERAL};
use crate::random::Random;

/// A general inflation that is accepted, often at an end.
pub fn low_general(random: &mut Random) -> u64 {
    random.near_an_end(0, HIGHEST_GENERAL as i64) as u64
}

/// One that is refused; in some the low bits are those of one that is accepted.
pub fn high_general(random: &mut Random) -> u64 {
    let low = low_general(random);
    match random.below(8) {
        0 | 1 => HIGHEST_GENERAL + 1,
        2 => HIGHEST_GENERAL + 1 + low,
        3 => (1 << 16) + low,
        4 => (1 << 32) + low,
        5 => (1 << (16 + random.below(48))) + low,
        6 => u64::MAX,
        _ => random.next().max(HIGHEST_GENERAL + 1),
    }
}

fn call(general: u64, units_count: usize, cents_count: usize) -> Call {
    Call {
        general,
        units_count,
        cents_count,
    }
}

/// Lists that are just long enough, longer, and too short, with rates of both kinds.
pub fn some_calls(random: &mut Random, [units, cents]: [usize; 2]) -> Vec<Call> {
    let [low, other, high] = [low_general, low_general, high_general].map(|draw| draw(random));
    let [more_units, more_cents] = [units, cents].map(|count| count + 1 + random.below(40));
    let [less_units, less_cents] = [units, cents].map(|count| random.below(count));
    vec![
        call(low, units, cents),
        call(other, more_units, cents),
        call(low, units, more_cents),
        call(other, more_units, more_cents),
        call(low, units - 1, cents),
        call(low, units, cents - 1),
        call(other, more_units, less_cents),
        call(other, less_units, more_cents),
        call(low, less_units, less_cents),
        call(high, units, cents),
        call(high, units - 1, more_cents),
        call(high, 0, 0),
    ]
}

/// Each fault of a call with and without the other.
pub fn few_calls(random: &mut Random, [units, cents]: [usize; 2]) -> Vec<Call> {
    let [low, high] = [low_general, high_general].map(|draw| draw(random));
    vec![
        call(low, units, cents),
        call(low, units - 1, cents),
        call(high, units, cents),
        call(high, units, cents - 1),
    ]
}

/// Every pair of lengths up to three beyond those that are needed.
pub fn every_length(random: &mut Random, [units, cents]: [usize; 2]) -> Vec<Call> {
    let counts = (0..=units + 3).flat_map(|units| (0..=cents + 3).map(move |cents| (units, cents)));
    counts
        .map(|(units, cents)| call(low_general(random), units, cents))
        .collect()
}

/// Every general inflation that is accepted, and those that follow.
pub fn every_general([units, cents]: [usize; 2]) -> impl Iterator<Item = Call> {
    (0..=HIGHEST_GENERAL + 10).map(move |general| call(general, units, cents))
}
