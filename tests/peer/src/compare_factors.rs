//! The comparison of the library's factors with the independent ones, with their exact values, and
//! with the payments that take the same steps.

use crate::answer::described;
use crate::cost::Arc;
use crate::exact_factor::{Walk, WrongRule, WRONG_RULES};
use crate::factor::{answer, factor, Fault, HIGHEST_RATE, LAST_YEAR, MILLION, TABLE_RATES};
use crate::library;
use crate::random::Random;
use crate::report::Tally;
use crate::sheet::{write_all_in, Field, Layout, INVESTMENT, LONGEST, REMOVAL, SHORTEST};
use crate::valid::some_layout;

/// Every kind of outcome must occur this often, or the pairs test too little.
const LEAST_SEEN: u64 = 1_000;
/// This many rates get every year, besides those of the table and at the limits.
const DRAWN_RATES: usize = 3_000;
/// This many accepted pairs are moved by each power of two.
const MOVED_PAIRS: usize = 100;
/// This many rates get payments in every year.
const PAID_RATES: usize = 100;

/// The outcomes that are told apart when they are counted.
#[derive(Clone, Copy, PartialEq, Eq, PartialOrd, Ord)]
enum Kind {
    LookedUp,
    Stepped,
    Refused(Fault),
    /// As well as one of the first two: the wrong rule would give another factor.
    ToldFrom(WrongRule),
}

impl Kind {
    fn of(rate: u64, outcome: Result<u64, Fault>) -> Kind {
        match outcome {
            Err(fault) => Kind::Refused(fault),
            Ok(_) if TABLE_RATES.contains(&rate) => Kind::LookedUp,
            Ok(_) => Kind::Stepped,
        }
    }

    fn all() -> impl Iterator<Item = Kind> {
        let faults = [Fault::RateTooHigh, Fault::YearTooLate, Fault::Both];
        [Kind::LookedUp, Kind::Stepped]
            .into_iter()
            .chain(faults.map(Kind::Refused))
            .chain(WRONG_RULES.map(Kind::ToldFrom))
    }

    fn described(self) -> String {
        match self {
            Kind::LookedUp => "a factor of the table".into(),
            Kind::Stepped => "a factor that is stepped".into(),
            Kind::Refused(fault) => {
                format!("number {} for {fault:?}", answer(Err(fault)).number)
            }
            Kind::ToldFrom(wrong) => format!("another factor than {wrong:?} gives"),
        }
    }
}

/// The rates at the limits and beside those of the table, those that would come before and after
/// it, and those whose low bits are one of it.
fn limit_rates() -> impl Iterator<Item = u64> {
    let beside = |rate: u64| [rate - 1, rate + 1, rate + (1 << 16), rate + (1 << 17)];
    let limits = [0, 1, HIGHEST_RATE - 1, HIGHEST_RATE];
    let of_table = TABLE_RATES.into_iter().flat_map(beside);
    of_table.chain([10_000, 60_000]).chain(limits)
}

fn some_rate(random: &mut Random) -> u64 {
    random.near_an_end(0, HIGHEST_RATE as i64) as u64
}

fn some_year(random: &mut Random) -> u64 {
    random.near_an_end(0, LAST_YEAR as i64) as u64
}

/// Numbers from 0 to 2^64 − 1: what is beside the limit and beside powers of two, with and without
/// a good number in the low bits.
fn far_numbers(limit: u64, good: u64) -> Vec<u64> {
    let mut list = vec![0, good, limit - 1, limit, limit + 1, limit + good];
    list.extend([u64::MAX - MILLION, u64::MAX - MILLION + 1]);
    list.extend([u64::MAX - limit, u64::MAX - good, u64::MAX]);
    for power in [1 << 8, 1 << 16, 1 << 32, 1 << 63] {
        list.extend([power - 1, power, power + 1, power + good, power + limit]);
    }
    list
}

/// The numbers that differ from one by a power of two, modulo 2^64.
fn moved(number: u64) -> impl Iterator<Item = u64> {
    (0..64).flat_map(move |bit| [number.wrapping_add(1 << bit), number.wrapping_sub(1 << bit)])
}

/// 10^8 currency units paid once by a replacement, as its investment or as its removal.
fn paid_once(layout: Layout, rate: u64, paid: Field) -> Vec<u8> {
    let mut sheet = layout.with_head(LAST_YEAR as i64, rate as i64);
    let fields = [(SHORTEST, 1), (LONGEST, 1), (paid, 100_000_000)];
    write_all_in(&mut sheet, 2, &fields);
    sheet
}

struct Comparison {
    tally: Tally<Kind>,
    /// How many factors were judged by the exact value.
    judged: u64,
    /// How many were compared with the cost of a payment.
    paid: u64,
}

impl Comparison {
    fn expect(&mut self, rate: u64, year: u64, outcome: Result<u64, Fault>) -> Result<(), String> {
        let [given, expected] = [library::factor(rate, year), answer(outcome).packed()];
        if given != expected {
            let [given, expected] = [given, expected].map(described);
            return Err(format!(
                "rate {rate} year {year}: library answers {given}, peer answers {expected}"
            ));
        }
        self.tally.compared += 1;
        self.tally.saw(Kind::of(rate, outcome));
        Ok(())
    }

    fn compare(&mut self, rate: u64, year: u64) -> Result<(), String> {
        self.expect(rate, year, factor(rate, year))
    }

    /// At the rates of the table and at others.
    fn every_year(&mut self, random: &mut Random) -> Result<(), String> {
        for rate in TABLE_RATES.into_iter().chain(limit_rates()) {
            self.every_year_at(rate)?;
        }
        for _ in 0..DRAWN_RATES {
            self.every_year_at(random.below(HIGHEST_RATE as usize + 1) as u64)?;
        }
        Ok(())
    }

    fn every_year_at(&mut self, rate: u64) -> Result<(), String> {
        let mut walk = Walk::at(rate);
        self.judge(rate, &walk)?;
        for _ in 0..LAST_YEAR {
            walk.next_year();
            self.judge(rate, &walk)?;
        }
        Ok(())
    }

    fn judge(&mut self, rate: u64, walk: &Walk) -> Result<(), String> {
        let Walk { year, factor, .. } = *walk;
        self.expect(rate, year, Ok(factor))?;
        if let Some(fault) = walk.fault(factor) {
            return Err(format!("rate {rate} year {year}: the factor {fault}"));
        }
        self.judged += 1;
        let told = WRONG_RULES
            .into_iter()
            .filter(|&wrong| walk.tells_from(wrong));
        told.for_each(|wrong| self.tally.saw(Kind::ToldFrom(wrong)));
        Ok(())
    }

    /// Not in year 0, which has the same factor at every rate.
    fn every_rate(&mut self, random: &mut Random) -> Result<(), String> {
        for rate in 0..=HIGHEST_RATE {
            let year = random.near_an_end(1, LAST_YEAR as i64) as u64;
            self.compare(rate, year)?;
        }
        Ok(())
    }

    /// Numbers up to 2^64 − 1 for the rate, the year and both.
    fn far_pairs(&mut self, random: &mut Random) -> Result<(), String> {
        for good_rate in TABLE_RATES {
            let years = far_numbers(LAST_YEAR, some_year(random));
            for rate in far_numbers(HIGHEST_RATE, good_rate) {
                for &year in &years {
                    self.compare(rate, year)?;
                }
            }
        }
        Ok(())
    }

    /// Accepted pairs, half of them in the table, with one number moved and the other good or not.
    fn moved_pairs(&mut self, random: &mut Random) -> Result<(), String> {
        for index in 0..MOVED_PAIRS {
            let rate = match index % 8 {
                low @ 0..4 => TABLE_RATES[low],
                _ => some_rate(random),
            };
            let year = some_year(random);
            for other_rate in moved(rate) {
                self.compare(other_rate, year)?;
                self.compare(other_rate, LAST_YEAR + 1 + random.next() / 2)?;
            }
            for other_year in moved(year) {
                self.compare(rate, other_year)?;
                self.compare(HIGHEST_RATE + 1 + random.next() / 2, other_year)?;
            }
        }
        Ok(())
    }

    /// 10^8 currency units paid in a year have its factor as their present value in units: in
    /// version 1 an investment, in version 2 the removal of what was built a year before.
    fn payments(&mut self, random: &mut Random) -> Result<(), String> {
        let drawn: Vec<u64> = (0..PAID_RATES).map(|_| some_rate(random)).collect();
        for rate in TABLE_RATES.into_iter().chain(drawn) {
            let layout = some_layout(random);
            let (paid, years) = match layout.has(REMOVAL) {
                true => (REMOVAL, 1),
                false => (INVESTMENT, 0),
            };
            let sheet = paid_once(layout, rate, paid);
            for year in years..LAST_YEAR {
                let start = year - years;
                let [option, end] = [2, start + 1];
                let cost = library::cost(&sheet, Arc { option, start, end });
                if cost != library::factor(rate, year) {
                    return Err(format!("rate {rate} year {year}: not what a payment costs"));
                }
                self.paid += 1;
            }
        }
        Ok(())
    }

    fn summary(&self) -> Result<String, String> {
        let kinds = Kind::all().map(|kind| (kind, kind.described()));
        let calls = self.tally.summary("factors", kinds, LEAST_SEEN)?;
        let told = WRONG_RULES.map(|wrong| self.tally.seen(Kind::ToldFrom(wrong)));
        let [to_the_nearest, down, at_the_end] = told;
        Ok(format!(
            "{calls}; at every rate to {HIGHEST_RATE}; all {} factors judged, in every year y to \
             {LAST_YEAR} at the rates of the table, at limits and at {DRAWN_RATES} drawn ones, \
             from 0 to y above their exact value; {to_the_nearest} of them would be others if \
             steps were rounded to the nearest, {down} if they were rounded down, {at_the_end} if \
             only the last result was rounded up; {} more are what a payment costs",
            self.judged, self.paid
        ))
    }
}

pub fn compare_factors(seed: u64) -> Result<String, String> {
    let mut random = Random(seed);
    let mut comparison = Comparison {
        tally: Tally::new(),
        judged: 0,
        paid: 0,
    };
    comparison.every_year(&mut random)?;
    comparison.every_rate(&mut random)?;
    comparison.far_pairs(&mut random)?;
    comparison.moved_pairs(&mut random)?;
    comparison.payments(&mut random)?;
    comparison.summary()
}
