//! The arcs that are tried on a valid sheet.

use crate::cost::Arc;
use crate::random::Random;
use crate::sheet::*;
use std::collections::BTreeSet;

fn horizon_of(sheet: &[u8]) -> u64 {
    unsigned(sheet, HORIZON) as u64
}

fn arcs(options: &[u64], starts: &[u64], ends: &[u64]) -> Vec<Arc> {
    let mut list = Vec::new();
    for &option in options {
        for &start in starts {
            for &end in ends {
                list.push(Arc { option, start, end });
            }
        }
    }
    list
}

/// Every option, every start and end up to the year after the horizon.
pub fn every_arc(sheet: &[u8]) -> Vec<Arc> {
    let years: Vec<u64> = (0..=horizon_of(sheet) + 1).collect();
    arcs(&[0, 1, 2], &years, &years)
}

/// Numbers from 0 to 2^64 − 1, in every combination.
pub fn far_arcs(sheet: &[u8]) -> Vec<Arc> {
    let horizon = horizon_of(sheet);
    let mut options = vec![0, 1, 2, 3, 4, 255, u64::MAX];
    let mut years = vec![0, 1, horizon - 1, horizon, horizon + 1];
    years.extend([u64::MAX - horizon, u64::MAX - 1, u64::MAX]);
    for power in [1 << 8, 1 << 16, 1 << 32, 1 << 63] {
        options.extend([power, power + 1, power + 2]);
        years.extend([power - 1, power, power + 1, power + horizon]);
    }
    arcs(&options, &years, &years)
}

/// The arc with one of its numbers, or both its years, moved up and down by each power of two,
/// modulo 2^64. From an accepted arc this gives arcs whose only fault is in an upper bit.
pub fn moved(arc: Arc) -> Vec<Arc> {
    let mut list = Vec::new();
    for power in (0..64).map(|bit| 1 << bit) {
        for move_by in [u64::wrapping_add, u64::wrapping_sub] {
            let option = move_by(arc.option, power);
            let start = move_by(arc.start, power);
            let end = move_by(arc.end, power);
            list.push(Arc { option, ..arc });
            list.push(Arc { start, ..arc });
            list.push(Arc { end, ..arc });
            list.push(Arc { start, end, ..arc });
        }
    }
    list
}

fn lives_of(sheet: &[u8], option: usize) -> [u64; 2] {
    [SHORTEST, LONGEST].map(|inner| unsigned_in(sheet, option, inner) as u64)
}

/// Arcs that start after they end, where end − start, modulo 2^64, lies between the lives.
pub fn wrapped_arcs(sheet: &[u8]) -> Vec<Arc> {
    let mut list = Vec::new();
    for option in 0..OPTIONS {
        let [shortest, longest] = lives_of(sheet, option);
        for length in shortest.max(1)..=longest {
            for end in [0, horizon_of(sheet).min(length - 1)] {
                list.push(Arc {
                    option: option as u64,
                    start: end.wrapping_sub(length),
                    end,
                });
            }
        }
    }
    list
}

/// Starts and lengths at and beside the limits of the sheet, and one start at random.
pub fn limit_arcs(random: &mut Random, sheet: &[u8]) -> Vec<Arc> {
    let horizon = horizon_of(sheet);
    let some_year = random.below(horizon as usize) as u64;
    let late_year = horizon.saturating_sub(120);
    let mut list = Vec::new();
    for option in 0..OPTIONS {
        let lengths = limit_lengths(sheet, option);
        for start in [0, 1, some_year, late_year, horizon - 1, horizon] {
            let mut ends: Vec<u64> = lengths.iter().map(|length| start + length).collect();
            ends.extend([horizon, horizon + 1]);
            list.extend(arcs(&[option as u64], &[start], &ends));
        }
    }
    list
}

/// The lives and the used ages, with their neighbours, and the ends of what a sheet may have.
fn limit_lengths(sheet: &[u8], option: usize) -> BTreeSet<u64> {
    let count = unsigned_in(sheet, option, OVERHAUL_COUNT) as usize;
    let ages = (0..count).map(|entry| unsigned_in(sheet, option, overhaul_age(entry)));
    let lives = lives_of(sheet, option).into_iter();
    let near = lives
        .chain(ages.map(|age| age as u64))
        .flat_map(|years| [years.saturating_sub(1), years, years + 1]);
    near.chain([0, 1, 2, 119, 120, 121]).collect()
}
