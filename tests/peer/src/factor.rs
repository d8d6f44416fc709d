//! The factor of a rate and a year, written from document 02 alone: what 10^12 becomes by plain
//! steps without inflation, each rounded up, and the two refusals in their order.

use crate::answer::Answer;
use std::iter::successors;

/// The factor of year 0.
pub const AT_ONCE: u64 = 1_000_000_000_000;
pub const MILLION: u64 = 1_000_000;
pub const HIGHEST_RATE: u64 = 200_000;
pub const LAST_YEAR: u64 = 300;
/// The factors of these rates are looked up, those of every other one are stepped.
pub const TABLE_RATES: [u64; 4] = [20_000, 30_000, 40_000, 50_000];

/// Why there is no factor.
#[derive(Clone, Copy, Debug, PartialEq, Eq, PartialOrd, Ord)]
pub enum Fault {
    RateTooHigh,
    YearTooLate,
    /// Numbered as the rate alone, which comes first.
    Both,
}

pub fn factor(rate: u64, year: u64) -> Result<u64, Fault> {
    match (rate > HIGHEST_RATE, year > LAST_YEAR) {
        (true, true) => Err(Fault::Both),
        (true, false) => Err(Fault::RateTooHigh),
        (false, true) => Err(Fault::YearTooLate),
        (false, false) => Ok(stepped(rate, year)),
    }
}

pub fn answer(outcome: Result<u64, Fault>) -> Answer {
    match outcome {
        Ok(factor) => Answer::accepted(factor),
        Err(Fault::RateTooHigh | Fault::Both) => Answer::refused(4),
        Err(Fault::YearTooLate) => Answer::refused(13),
    }
}

/// What a quotient becomes that is not whole.
#[derive(Clone, Copy)]
pub enum Rounding {
    Up,
    Nearest,
    Down,
}

impl Rounding {
    fn quotient(self, dividend: u128, divisor: u128) -> u128 {
        match self {
            Rounding::Up => dividend.div_ceil(divisor),
            Rounding::Nearest => (2 * dividend + divisor) / (2 * divisor),
            Rounding::Down => dividend / divisor,
        }
    }
}

/// The factor of a year made from that of the year before.
pub fn step(before: u64, rate: u64, rounding: Rounding) -> u64 {
    let dividend = u128::from(before) * u128::from(MILLION);
    rounding.quotient(dividend, (MILLION + rate).into()) as u64
}

fn stepped(rate: u64, year: u64) -> u64 {
    let next = |&before: &u64| Some(step(before, rate, Rounding::Up));
    let mut factors = successors(Some(AT_ONCE), next);
    factors.nth(year as usize).expect("a factor in every year")
}

#[cfg(test)]
mod tests {
    use super::*;

    // The figures of document 02.
    #[test]
    fn four_per_cent() {
        for (year, expected) in [
            (0, 1_000_000_000_000),
            (1, 961_538_461_539),
            (2, 924_556_213_019),
            (3, 888_996_358_673),
            (300, 7_762_452),
        ] {
            assert_eq!(factor(40_000, year), Ok(expected));
        }
    }

    // By hand. The third step of 20 per cent gives 578,703,703,704.17.
    #[test]
    fn other_rates() {
        for (rate, year, expected) in [
            (1, 1, 999_999_000_001),
            (20_000, 1, 980_392_156_863),
            (30_000, 1, 970_873_786_408),
            (50_000, 1, 952_380_952_381),
            (200_000, 1, 833_333_333_334),
            (200_000, 2, 694_444_444_445),
            (200_000, 3, 578_703_703_705),
        ] {
            assert_eq!(factor(rate, year), Ok(expected));
        }
    }

    #[test]
    fn nothing_is_discounted_in_year_0_or_at_rate_0() {
        for year in 0..=LAST_YEAR {
            assert_eq!(factor(0, year), Ok(AT_ONCE));
        }
        for rate in 0..=HIGHEST_RATE {
            assert_eq!(factor(rate, 0), Ok(AT_ONCE));
        }
    }

    #[test]
    fn the_rate_is_refused_first() {
        for (rate, year, packed) in [
            (200_001, 300, 4 * 4 + 3),
            (200_001, 301, 4 * 4 + 3),
            (200_000, 301, 13 * 4 + 3),
            (u64::MAX, 0, 4 * 4 + 3),
            (0, u64::MAX, 13 * 4 + 3),
            (u64::MAX, u64::MAX, 4 * 4 + 3),
            (40_000, 300, 7_762_452 * 256 + 3),
        ] {
            assert_eq!(answer(factor(rate, year)).packed(), packed);
        }
    }

    #[test]
    fn roundings_by_hand() {
        for (dividend, up, nearest, down) in
            [(6, 2, 2, 2), (7, 3, 2, 2), (8, 3, 3, 2), (9, 3, 3, 3)]
        {
            assert_eq!(Rounding::Up.quotient(dividend, 3), up);
            assert_eq!(Rounding::Nearest.quotient(dividend, 3), nearest);
            assert_eq!(Rounding::Down.quotient(dividend, 3), down);
        }
        assert_eq!(Rounding::Nearest.quotient(5, 2), 3);
    }
}
