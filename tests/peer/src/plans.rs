//! Plans for one sheet: right ones, ones that break a rule of the chain, and damaged bytes.

use crate::chains::{some_chain, Lives};
use crate::plan::*;
use crate::random::Random;
use crate::sheet::{field, unsigned, write, Field};

const MOST: i64 = 65_535;

/// What the total field may hold: it must not matter.
fn some_total(random: &mut Random) -> u64 {
    match random.below(4) {
        0 => 0,
        1 => u64::MAX,
        2 => random.next() >> random.below(64),
        _ => random.next(),
    }
}

pub fn plan_of(random: &mut Random, chain: &Chain) -> Vec<u8> {
    written(chain, some_total(random))
}

/// A chain of the sheet if it has one; else the chain breaks some rule.
pub fn some_chain_on(random: &mut Random, sheet: &[u8]) -> Chain {
    let lives = Lives::on(sheet);
    some_chain(random, &lives)
        .or_else(|| chain_beside(random, sheet))
        .unwrap_or_else(|| Chain {
            i: 0,
            j: 0,
            ends: vec![lives.horizon],
        })
}

/// A chain that is feasible but for one length, or but for where it stops.
pub fn chain_beside(random: &mut Random, sheet: &[u8]) -> Option<Chain> {
    let lives = Lives::on(sheet).beside(random);
    some_chain(random, &lives)
}

/// The chain with a few years added, taken out or changed places.
pub fn reshaped(random: &mut Random, chain: &Chain, horizon: i64) -> Chain {
    let mut chain = chain.clone();
    let at = random.below(chain.ends.len() + 1);
    let before = if at == 0 { chain.j } else { chain.ends[at - 1] };
    let years = 1 + random.below(5) as i64;
    match random.below(9) {
        // An end that is the one before, or falls below it and is made up for.
        0 | 1 => chain.ends.insert(at, before),
        2 | 3 => {
            let lower = (before - years).max(0);
            chain.ends.splice(at..at, [lower, before]);
        }
        4 => {
            chain.ends.pop();
        }
        5 => chain.ends.push(horizon + years),
        6 => [chain.i, chain.j] = [chain.j, chain.i],
        7 => chain.i = chain.j + years,
        _ if chain.ends.len() > 1 => {
            let first = at.min(chain.ends.len() - 2);
            chain.ends.swap(first, first + 1);
        }
        _ => chain.i = chain.j + years,
    }
    chain
}

/// The fields of a plan but its mark and total.
fn numbers(plan: &[u8]) -> Vec<Field> {
    let ends = (plan.len() - HEAD_BYTES) / 2;
    [VERSION, MAINTAINED, RENOVATED, REPLACEMENTS]
        .into_iter()
        .chain((0..ends).map(end))
        .collect()
}

fn with_number(plan: &[u8], field: Field, value: i64) -> Vec<u8> {
    let mut plan = plan.to_vec();
    write(&mut plan, field, value);
    plan
}

/// The values that a field gets: its neighbours, those of the fields beside it, the ends of its
/// range, and its own with another upper byte or with its bytes swapped.
fn values(plan: &[u8], at: usize, fields: &[Field]) -> Vec<i64> {
    let value = |at: usize| unsigned(plan, fields[at]);
    let own = value(at);
    let mut list = vec![own + 1, own - 1, 0, 1, MOST, own + 256, own ^ 0x8000];
    list.push((own as u16).swap_bytes().into());
    list.push(value(at.saturating_sub(1)));
    list.push(value((at + 1).min(fields.len() - 1)));
    list
}

/// Every number of the plan with each of its other values.
pub fn every_number(plan: &[u8]) -> Vec<Vec<u8>> {
    let fields = numbers(plan);
    (0..fields.len())
        .flat_map(|at| {
            let values = values(plan, at, &fields);
            values.into_iter().map(move |value| (at, value))
        })
        .map(|(at, value)| with_number(plan, fields[at], value))
        .collect()
}

pub fn other_number(random: &mut Random, plan: &[u8], horizon: i64) -> Vec<u8> {
    let fields = numbers(plan);
    let at = random.below(fields.len());
    let mut values = values(plan, at, &fields);
    values.push(random.within(0, MOST));
    values.push(random.within(0, horizon));
    with_number(plan, fields[at], values[random.below(values.len())])
}

/// Every bit of the plan flipped, and each byte of the mark as other letters.
pub fn every_flip(plan: &[u8]) -> Vec<Vec<u8>> {
    let flip = |bit: usize| {
        let mut plan = plan.to_vec();
        plan[bit / 8] ^= 1 << (bit % 8);
        plan
    };
    let letters = (0..MARK.len())
        .flat_map(|at| b"RCPSrcp\0".map(|letter| with_number(plan, field(at, 1), letter.into())));
    (0..plan.len() * 8).map(flip).chain(letters).collect()
}

/// A bit flipped; half of the time in the mark or the version.
pub fn flipped(random: &mut Random, plan: &[u8]) -> Vec<u8> {
    let bytes = [TOTAL.at, plan.len()][random.below(2)];
    let mut plan = plan.to_vec();
    plan[random.below(bytes)] ^= 1 << random.below(8);
    plan
}

pub fn resized(plan: &[u8], length: usize, filler: u8) -> Vec<u8> {
    let mut plan = plan.to_vec();
    plan.resize(length, filler);
    plan
}

/// Every length up to four beyond the plan's own.
pub fn every_length(plan: &[u8]) -> Vec<Vec<u8>> {
    (0..=plan.len() + 4)
        .map(|length| resized(plan, length, 0))
        .collect()
}

pub fn other_length(random: &mut Random, plan: &[u8]) -> Vec<u8> {
    let own = plan.len();
    let length = match random.below(6) {
        0 => own - 1,
        1 => own - 2,
        2 => own + 1,
        3 => own + 2,
        4 => random.below(own),
        _ => own + 1 + random.below(600),
    };
    resized(plan, length, random.byte())
}

/// m one more or less than the ends that are there, or with another upper bit.
pub fn other_count(random: &mut Random, plan: &[u8]) -> Vec<u8> {
    let count = unsigned(plan, REPLACEMENTS);
    let others = [count - 1, count + 1, count + 0x8000, count + 0x100, MOST];
    with_number(plan, REPLACEMENTS, others[random.below(others.len())])
}

/// m 65,535: the plan's own bytes; the full length, with the ends that follow rising by a year,
/// staying at the last one, or zero; and one byte beside the full length.
pub fn longest_plans(chain: &Chain) -> Vec<Vec<u8>> {
    let own = written(chain, 0);
    let mut list = vec![with_number(&own, REPLACEMENTS, MOST)];
    for step in [Some(1), Some(0), None] {
        let mut long = chain.clone();
        let last = chain.last_year();
        let further = 1..=MOST - chain.ends.len() as i64;
        long.ends
            .extend(further.map(|years| step.map_or(0, |step| last + step * years)));
        list.push(written(&long, 0));
    }
    let full = list[1].len();
    for length in [full - 1, full + 1] {
        list.push(resized(&list[1], length, 0));
    }
    list
}
