//! What the arcs of an option cost, each made from the one that is a year shorter, so that all
//! arcs of a horizon of 300 years are costed in little time. The yearly payments are carried from
//! year to year, in u64.

use crate::sheet::{Flow, Record, Sheet};
use std::iter;

const MAINTAIN: usize = 0;
const RENOVATE: usize = 1;

/// The amounts of an option's payments in the year in which it starts, 0, 1, and so on up to the
/// horizon; those of overhauls in the year of the overhaul, and of removals in the year of the end.
pub struct ArcCosts<'a> {
    record: &'a Record,
    horizon: usize,
    discount: u64,
    investment: Vec<u64>,
    maintenance: Vec<u64>,
    electricity: Vec<u64>,
    /// By the overhaul's age; the ages rise.
    overhauls: Vec<(usize, Vec<u64>)>,
    removals: Vec<u64>,
}

impl ArcCosts<'_> {
    pub fn of(sheet: &Sheet, option: usize) -> ArcCosts<'_> {
        ArcCosts::with_record(sheet, option, &sheet.records[option])
    }

    /// Those that an option would have with another record.
    pub fn with_record<'a>(sheet: &Sheet, option: usize, record: &'a Record) -> ArcCosts<'a> {
        let horizon = sheet.horizon as usize;
        let discount = factor(sheet.rate);
        let moved = |amount, inflation| plain_steps(amount, inflation, discount, horizon);
        let used = &record.overhauls[..record.overhaul_count as usize];
        ArcCosts {
            record,
            horizon,
            discount,
            investment: moved(record.investment, record.investment_inflation),
            maintenance: moved(record.maintenance.amount, record.maintenance.inflation),
            electricity: electricity_at_start(option, &record.electricity, discount, horizon),
            overhauls: used
                .iter()
                .map(|overhaul| {
                    let amounts = moved(overhaul.amount, record.overhaul_inflation);
                    (overhaul.age as usize, amounts)
                })
                .collect(),
            removals: removals_at_end(option, record, discount, horizon),
        }
    }

    /// End and cost of every arc of length 1 or more that is offered from this year, the
    /// shortest first.
    pub fn from(&self, start: usize) -> Vec<(usize, u64)> {
        let record = self.record;
        let lives = record.shortest.max(1) as usize..=record.longest as usize;
        let most = (*lives.end()).min(self.horizon - start);
        let mut maintenance =
            Running::new(self.maintenance[start], &record.maintenance, self.discount);
        let mut electricity =
            Running::new(self.electricity[start], &record.electricity, self.discount);
        let mut total = self.investment[start];
        let mut list = Vec::new();
        for length in 1..=most {
            total += self.overhaul_at(start, length - 1);
            total += maintenance.next_year() + electricity.next_year();
            if lives.contains(&length) {
                let end = start + length;
                list.push((end, total + self.removals[end]));
            }
        }
        list
    }

    fn overhaul_at(&self, start: usize, age: usize) -> u64 {
        let due = self.overhauls.iter().find(|overhaul| overhaul.0 == age);
        due.map_or(0, |(_, amounts)| amounts[start + age])
    }
}

/// Renovating renews the building, while the motors go on ageing: they have been in service since
/// year 0. Those of other options are new when it starts.
fn electricity_at_start(option: usize, flow: &Flow, discount: u64, steps: usize) -> Vec<u64> {
    match option {
        RENOVATE => service_steps(flow, discount, steps),
        _ => plain_steps(flow.amount, flow.inflation, discount, steps),
    }
}

/// Maintaining pays none, and nothing is paid at the horizon.
fn removals_at_end(option: usize, record: &Record, discount: u64, horizon: usize) -> Vec<u64> {
    let amount = match option {
        MAINTAIN => 0,
        _ => record.removal,
    };
    let mut amounts = plain_steps(amount, record.removal_inflation, discount, horizon);
    amounts[horizon] = 0;
    amounts
}

fn plain_steps(amount: i64, inflation: i64, discount: u64, steps: usize) -> Vec<u64> {
    let growth = factor(inflation);
    let next = |&running: &u64| Some(plain(running, growth, discount));
    iter::successors(Some(units(amount)), next)
        .take(steps + 1)
        .collect()
}

fn service_steps(flow: &Flow, discount: u64, steps: usize) -> Vec<u64> {
    let first = units(flow.amount);
    let mut running = Running::new(first, flow, discount);
    let later = iter::repeat_with(|| running.next_year());
    iter::once(first).chain(later).take(steps + 1).collect()
}

fn units(amount: i64) -> u64 {
    amount as u64 * 10_000
}

/// A yearly payment in service: its amount of the year it has reached, and its factors.
struct Running {
    amount: u64,
    ageing: u64,
    growth: u64,
    discount: u64,
}

impl Running {
    fn new(amount: u64, flow: &Flow, discount: u64) -> Running {
        Running {
            amount,
            ageing: factor(flow.ageing),
            growth: factor(flow.inflation),
            discount,
        }
    }

    fn next_year(&mut self) -> u64 {
        let aged = up(self.amount * self.ageing, 1_000_000);
        self.amount = plain(aged, self.growth, self.discount);
        self.amount
    }
}

/// An amount after one plain step.
fn plain(amount: u64, growth: u64, discount: u64) -> u64 {
    up(amount * growth, discount)
}

fn factor(rate: i64) -> u64 {
    (1_000_000 + rate) as u64
}

/// The quotient rounded up. A step raises a running amount by 1 at most, so in 300 years it is
/// 10^13 + 300 at most. Aged, it is multiplied by at most 1,300,000; ageing and growth together
/// multiply it by at most 1,200,000, by check 8. So dividends stay below 1.4 × 10^19, and none
/// reaches 2^64, which is above 1.8 × 10^19.
fn up(dividend: u64, divisor: u64) -> u64 {
    dividend.div_ceil(divisor)
}

#[cfg(test)]
mod tests {
    use super::*;
    use crate::check::checked;
    use crate::cost::{arc_cost, fault, Arc};
    use crate::random::Random;
    use crate::sheets::{corner_motors_sheet, corner_sheet, long_sheet, small_sheet};

    #[test]
    fn a_rest_counts_as_a_unit_up_to_the_largest_dividends() {
        for divisor in [1_000_000, 1_000_001, 1_040_000, 1_199_999, 1_200_000] {
            for whole in [0, 1, 9_615, 15_000_000_000_000_000_000 / divisor] {
                let dividend = whole * divisor;
                assert_eq!(up(dividend, divisor), whole);
                assert_eq!(up(dividend + 1, divisor), whole + 1);
                assert_eq!(up(dividend + divisor - 1, divisor), whole + 1);
            }
        }
    }

    /// The arcs from a year are those without fault, at the cost that is defined.
    fn assert_as_defined(sheet: &Sheet, option: usize, start: usize) {
        let defined: Vec<(usize, u64)> = (start + 1..=sheet.horizon as usize)
            .map(|end| Arc {
                option: option as u64,
                start: start as u64,
                end: end as u64,
            })
            .filter(|&arc| fault(sheet, arc).is_none())
            .map(|arc| (arc.end as usize, arc_cost(sheet, arc)))
            .collect();
        assert_eq!(ArcCosts::of(sheet, option).from(start), defined);
    }

    #[test]
    fn as_defined_on_small_sheets() {
        let mut random = Random(17);
        for _ in 0..40 {
            let sheet = checked(&small_sheet(&mut random)).expect("a sheet");
            assert_as_defined(&sheet, 0, 0);
            for start in 0..=sheet.horizon as usize {
                assert_as_defined(&sheet, 1, start);
                assert_as_defined(&sheet, 2, start);
            }
        }
    }

    #[test]
    fn as_defined_up_to_year_300() {
        let mut random = Random(18);
        for make in [corner_sheet, long_sheet, corner_motors_sheet] {
            let sheet = checked(&make(&mut random)).expect("a sheet");
            assert_as_defined(&sheet, 0, 0);
            for start in [0, 1, 59, sheet.horizon as usize - 1] {
                assert_as_defined(&sheet, 1, start);
                assert_as_defined(&sheet, 2, start);
            }
        }
    }
}
