//! Plans in which one rate of a payment in cents leaves no rest, the least that it can leave, or
//! the most: what is rounded up is whole, or just above or just below a whole number of cents.

use crate::plan::{written, Chain};
use crate::quotients::{greatest_divisor, Rest, RESTS};
use crate::random::Random;
use crate::sheet::*;
use crate::valid::{some_layout, FLOWS};

const MILLION: i64 = 1_000_000;
/// The rests of amounts come again with every million; an amount has up to this many.
const MOST_MILLIONS: i64 = 999;
/// A rate of 1 per cent makes 101 cents of each currency unit, without a rest.
const ONE_PER_CENT: i64 = 10_000;

/// The rate whose rest is drawn. One of 1 per cent comes before it, and what follows does not
/// lose the cent that is added for a rest.
#[derive(Clone, Copy, Debug, PartialEq, Eq, PartialOrd, Ord)]
pub enum Rate {
    /// In the first year, after the ageing.
    General,
    /// Of an investment in year 1, after general inflation.
    Own,
    /// The same of a removal.
    OfRemoval,
    /// In the second of two years, the first of which is a plain step.
    Ageing,
}

pub const RATES: [Rate; 4] = [Rate::General, Rate::Own, Rate::OfRemoval, Rate::Ageing];

pub struct Rise {
    pub rate: Rate,
    pub rest: Rest,
    pub general: u64,
    pub sheet: Vec<u8>,
    pub plan: Vec<u8>,
}

/// A rate whose factor has no divisor in common with 10, so that a rest can be 1.
fn drawn(random: &mut Random, low: i64, high: i64) -> i64 {
    loop {
        let rate = random.near_an_end(low, high);
        if rate % 2 != 0 && rate % 5 != 0 {
            return rate;
        }
    }
}

/// An amount of which 101 cents leave the rest.
fn amount(random: &mut Random, rate: i64, rest: Rest) -> i64 {
    let (_, times) = greatest_divisor(101 * (MILLION + rate), MILLION);
    let first = match rest {
        Rest::None => 0,
        Rest::Least => times.rem_euclid(MILLION),
        Rest::Most => (-times).rem_euclid(MILLION),
    };
    first + MILLION * random.near_an_end(0, MOST_MILLIONS)
}

/// T 2, and a replacement each year, with one payment.
fn sheet_with(layout: Layout, fields: &[(Field, i64)]) -> Vec<u8> {
    let mut sheet = layout.with_head(2, 200_000);
    write_all_in(&mut sheet, 2, &[(SHORTEST, 1), (LONGEST, 1)]);
    write_all_in(&mut sheet, 2, fields);
    sheet
}

fn rise(random: &mut Random, rate: Rate, rest: Rest) -> Rise {
    let [flow, _, ageing] = FLOWS[random.below(FLOWS.len())];
    let drawn = match rate {
        Rate::General => drawn(random, 0, 50_000),
        Rate::Own | Rate::OfRemoval => drawn(random, -100_000, 200_000),
        Rate::Ageing => drawn(random, 0, 200_000),
    };
    let amount = amount(random, drawn, rest);
    let (general, fields) = match rate {
        Rate::General => (drawn, [(flow, amount), (ageing, ONE_PER_CENT)]),
        Rate::Own => (
            ONE_PER_CENT,
            [(INVESTMENT, amount), (INVESTMENT_INFLATION, drawn)],
        ),
        Rate::OfRemoval => (
            ONE_PER_CENT,
            [(REMOVAL, amount), (REMOVAL_INFLATION, drawn)],
        ),
        Rate::Ageing => (ONE_PER_CENT, [(flow, amount), (ageing, drawn)]),
    };
    let layout = match rate {
        Rate::OfRemoval => VERSION_2,
        _ => some_layout(random),
    };
    let ends = vec![1, 2];
    Rise {
        rate,
        rest,
        general: general as u64,
        sheet: sheet_with(layout, &fields),
        plan: written(&Chain { i: 0, j: 0, ends }, random.next()),
    }
}

/// One plan for each rate and rest.
pub fn rises(random: &mut Random) -> Vec<Rise> {
    let kinds = RATES
        .iter()
        .flat_map(|&rate| RESTS.map(|rest| (rate, rest)));
    kinds.map(|(rate, rest)| rise(random, rate, rest)).collect()
}

#[cfg(test)]
mod tests {
    use super::*;
    use crate::budget::{budget, Call, Priced};

    fn value(rise: &Rise, fields: &[Field]) -> i64 {
        let layout = Layout::of(&rise.sheet);
        let there_are = fields.iter().filter(|&&inner| layout.has(inner));
        let values = there_are.map(|&inner| signed_in(&rise.sheet, 2, inner));
        values.max().expect("a field")
    }

    /// What the rate makes of the amount and its first rate, in millionths of a cent.
    fn dividend(rise: &Rise) -> i128 {
        let flows = [MAINTENANCE_AGEING, ELECTRICITY_AGEING];
        let rate = match rise.rate {
            Rate::General => rise.general as i64,
            Rate::Own => signed_in(&rise.sheet, 2, INVESTMENT_INFLATION),
            Rate::OfRemoval => signed_in(&rise.sheet, 2, REMOVAL_INFLATION),
            Rate::Ageing => value(rise, &flows),
        };
        let amount = value(rise, &[INVESTMENT, MAINTENANCE, ELECTRICITY, REMOVAL]);
        101 * i128::from(amount) * i128::from(MILLION + rate)
    }

    /// The word of cents that the rate makes.
    fn word(rise: &Rise) -> u64 {
        let call = Call {
            general: rise.general,
            units_count: 3,
            cents_count: 3,
        };
        let priced = Priced::of(&rise.sheet, &rise.plan);
        let budget = budget(&priced, call).expect("a budget");
        budget.cents[if rise.rate == Rate::Ageing { 2 } else { 1 }]
    }

    #[test]
    fn rests_are_those_named_and_round_up() {
        let mut random = Random(24);
        for rise in (0..500).flat_map(|_| rises(&mut random)) {
            let million = i128::from(MILLION);
            let [whole, rest] = [dividend(&rise) / million, dividend(&rise) % million];
            let (expected, more) = match rise.rest {
                Rest::None => (0, 0),
                Rest::Least => (1, 1),
                Rest::Most => (999_999, 1),
            };
            assert_eq!(rest, expected, "{:?}", rise.rate);
            let cents = match rise.rate {
                Rate::Ageing => ((whole + more) * 101 + 99) / 100,
                _ => whole + more,
            };
            assert_eq!(i128::from(word(&rise)), cents, "{:?}", rise.rate);
        }
    }
}
