//! The exact value of an arc and of a chain, and how far from it a cost or a total may lie, written
//! from documents 01 and 02 alone: the payments, each moved by the products and quotients of its
//! steps as a fraction, without rounding. Fractions of year y are over 10^(6y) × (10^6 + r)^y, so
//! the value of a chain is over 10^(6T) × (10^6 + r)^T.

use crate::check::checked;
use crate::cost::Arc;
use crate::natural::Natural;
use crate::plan::{read, Chain};
use crate::report::hex;
use crate::sheet::{Flow, Record, Sheet, OPTIONS};

const UNITS: u64 = 10_000;
const MILLION: u64 = 1_000_000;
const MAINTAIN: usize = 0;
const RENOVATE: usize = 1;

/// An error if document 02 does not allow the total that is printed for an accepted plan.
pub fn judge_total(sheet: &[u8], plan: &[u8], total: u64) -> Result<(), String> {
    let read_sheet = checked(sheet).expect("an accepted sheet");
    let chain = read(plan).expect("an accepted plan");
    match Exact::of(&read_sheet, &chain).fault(total) {
        None => Ok(()),
        Some(fault) => Err(format!(
            "the total {total} of plan {} {fault}: {}",
            hex(plan),
            hex(sheet)
        )),
    }
}

/// The same of the cost that is answered for an accepted arc of length 1 or more.
pub fn judge_cost(sheet: &[u8], arc: Arc, cost: u64) -> Result<(), String> {
    let read_sheet = checked(sheet).expect("an accepted sheet");
    match Exact::of_arc(&read_sheet, arc).fault(cost) {
        None => Ok(()),
        Some(fault) => Err(format!(
            "the cost {cost} of {arc:?} {fault}: {}",
            hex(sheet)
        )),
    }
}

/// What a comparison says of so many totals that it judged.
pub fn totals_judged(count: u64) -> String {
    format!("all {count} totals, up to T 300, from 0 to 3T² + T units above their exact value")
}

pub struct Exact {
    /// The years in which the arc or the chain starts and ends.
    years: [i64; 2],
    horizon: i64,
    numerator: Natural,
    denominator: Natural,
}

impl Exact {
    /// The chain is feasible on the sheet, which passes the check.
    pub fn of(sheet: &Sheet, chain: &Chain) -> Exact {
        let mut walk = Walk::on(sheet);
        for (option, start, end) in chain.activities() {
            if start < end {
                walk.keep(option, end - start);
            }
        }
        walk.from(0)
    }

    /// The arc is without fault, and of length 1 or more.
    fn of_arc(sheet: &Sheet, arc: Arc) -> Exact {
        let mut walk = Walk::on(sheet);
        let option = arc.option as usize;
        for _ in 0..arc.start {
            walk.next_year(option);
        }
        walk.keep(option, (arc.end - arc.start) as i64);
        walk.from(arc.start as i64)
    }

    /// What is wrong with a figure that is printed: by document 02 it is never below the exact
    /// value, and not more than the allowance above it.
    fn fault(&self, figure: u64) -> Option<&'static str> {
        let printed = self.denominator.times(2 * figure);
        if printed < self.numerator.times(2) {
            Some("is below the exact value")
        } else if printed > self.doubled_with_allowance() {
            Some("is above the exact value by more than the allowance")
        } else {
            None
        }
    }

    /// Whether another chain of the sheet is more than the allowance below this one.
    pub fn is_far_above(&self, other: &Exact) -> bool {
        self.numerator.times(2) > other.doubled_with_allowance()
    }

    /// Twice the numerator of the value and the allowance, which is half of what is allowed up to
    /// the end without that up to the start: 3T² + T units for a chain.
    fn doubled_with_allowance(&self) -> Natural {
        let [start, end] = self.years.map(|year| allowed(year, self.horizon));
        let mut sum = self.numerator.times(2);
        sum.add_times(&self.denominator, end - start);
        sum
    }
}

/// Up to a year, in halves of a unit: 6y² + 4y, and 6T² + 2T at the horizon, where no removal is
/// paid.
fn allowed(year: i64, horizon: i64) -> u64 {
    let halves = 6 * year * year + if year < horizon { 4 } else { 2 } * year;
    halves as u64
}

fn factor(rate: i64) -> u64 {
    (MILLION as i64 + rate) as u64
}

/// The numerator of a fraction that moves forward, and by what it is multiplied each year.
struct Moving {
    numerator: Natural,
    each_year: u64,
}

impl Moving {
    /// From 1, by plain steps: × (10^6 + f) / (10^6 + r), both multiplied by 10^6, as the
    /// denominator is the same for all payments.
    fn plainly(inflation: i64) -> Moving {
        Moving {
            numerator: Natural::one(),
            each_year: factor(inflation) * MILLION,
        }
    }

    /// From a numerator, in service: × (10^6 + g) / 10^6 × (10^6 + f) / (10^6 + r).
    fn in_service(flow: &Flow, numerator: Natural) -> Moving {
        Moving {
            numerator,
            each_year: factor(flow.ageing) * factor(flow.inflation),
        }
    }

    /// A flow that is in service from now on; the numerator is that of 1.
    fn from_now(flow: &Flow, before: &Moving) -> Moving {
        Moving::in_service(flow, before.numerator.times(units(flow.amount)))
    }

    fn next_year(&mut self) {
        self.numerator.multiply(self.each_year);
    }
}

fn units(amount: i64) -> u64 {
    amount as u64 * UNITS
}

/// What 1 of each payment of an option becomes up to the year in which the option starts, and up to
/// that of an overhaul or a removal: by plain steps. But electricity of renovate takes in-service
/// steps from year 0, as renovating renews the building, while the motors go on ageing.
struct Before {
    investment: Moving,
    maintenance: Moving,
    electricity: Moving,
    overhaul: Moving,
    /// None if the amount is 0.
    removal: Option<Moving>,
}

impl Before {
    fn of(option: usize, record: &Record) -> Before {
        let electricity = &record.electricity;
        Before {
            investment: Moving::plainly(record.investment_inflation),
            maintenance: Moving::plainly(record.maintenance.inflation),
            electricity: match option {
                RENOVATE => Moving::in_service(electricity, Natural::one()),
                _ => Moving::plainly(electricity.inflation),
            },
            overhaul: Moving::plainly(record.overhaul_inflation),
            removal: (record.removal > 0).then(|| Moving::plainly(record.removal_inflation)),
        }
    }

    fn next_year(&mut self) {
        self.investment.next_year();
        self.maintenance.next_year();
        self.electricity.next_year();
        self.overhaul.next_year();
        self.removal.iter_mut().for_each(Moving::next_year);
    }
}

/// The value of the arcs up to the year that is reached.
struct Walk<'a> {
    year: i64,
    horizon: i64,
    records: &'a [Record; OPTIONS],
    before: [Before; OPTIONS],
    value: Natural,
    denominator: Natural,
    /// 10^6 × (10^6 + r).
    each_year: u64,
}

impl Walk<'_> {
    fn on(sheet: &Sheet) -> Walk<'_> {
        Walk {
            year: 0,
            horizon: sheet.horizon,
            records: &sheet.records,
            before: [0, 1, 2].map(|option| Before::of(option, &sheet.records[option])),
            value: Natural::zero(),
            denominator: Natural::one(),
            each_year: MILLION * factor(sheet.rate),
        }
    }

    fn from(self, start: i64) -> Exact {
        Exact {
            years: [start, self.year],
            horizon: self.horizon,
            numerator: self.value,
            denominator: self.denominator,
        }
    }

    /// Keeps an option for some years, 1 or more.
    fn keep(&mut self, option: usize, length: i64) {
        let record = &self.records[option];
        let before = &self.before[option];
        let mut maintenance = Moving::from_now(&record.maintenance, &before.maintenance);
        let mut electricity = Moving::from_now(&record.electricity, &before.electricity);
        self.value
            .add_times(&before.investment.numerator, units(record.investment));
        for age in 1..=length {
            self.next_year(option);
            for flow in [&mut maintenance, &mut electricity] {
                flow.next_year();
                self.value.add(&flow.numerator);
            }
            if age < length {
                self.overhaul(option, age);
            }
        }
        self.removal(option);
    }

    /// An option before the present one does not come again, so its payments stay behind.
    fn next_year(&mut self, option: usize) {
        self.year += 1;
        self.value.multiply(self.each_year);
        self.denominator.multiply(self.each_year);
        self.before[option..].iter_mut().for_each(Before::next_year);
    }

    /// What is paid at the end of a renovation or replacement, unless that is the horizon.
    fn removal(&mut self, option: usize) {
        let paid = option != MAINTAIN && self.year < self.horizon;
        if let Some(before) = self.before[option].removal.as_ref().filter(|_| paid) {
            let amount = units(self.records[option].removal);
            self.value.add_times(&before.numerator, amount);
        }
    }

    fn overhaul(&mut self, option: usize, age: i64) {
        let record = &self.records[option];
        let used = &record.overhauls[..record.overhaul_count as usize];
        if let Some(due) = used.iter().find(|overhaul| overhaul.age == age) {
            let before = &self.before[option].overhaul;
            self.value.add_times(&before.numerator, units(due.amount));
        }
    }
}

#[cfg(test)]
mod tests {
    use super::*;
    use crate::cases::*;
    use crate::check::checked;
    use crate::sheet::*;

    fn exact(bytes: &[u8], i: i64, j: i64, ends: &[i64]) -> Exact {
        let ends = ends.to_vec();
        Exact::of(&checked(bytes).expect("a sheet"), &Chain { i, j, ends })
    }

    /// T 2, and options that have every payment.
    fn two_years(options: &[usize]) -> Vec<u8> {
        let fields = [
            (SHORTEST, 1),
            (LONGEST, 2),
            (INVESTMENT, 7),
            (INVESTMENT_INFLATION, 10_300),
            (MAINTENANCE, 5),
            (MAINTENANCE_INFLATION, 8_500),
            (MAINTENANCE_AGEING, 15_000),
            (ELECTRICITY, 3),
            (ELECTRICITY_INFLATION, -2_000),
            (OVERHAUL_INFLATION, 10_000),
            (OVERHAUL_COUNT, 1),
            (overhaul_age(0), 1),
            (overhaul_amount(0), 2),
        ];
        let mut sheet = with_head(2, 40_000);
        for &option in options {
            for (inner, value) in fields {
                write_in(&mut sheet, option, inner, value);
            }
        }
        sheet
    }

    // The payments over (10^6 × 1,040,000)², term by term.
    #[test]
    fn every_payment_of_two_years() {
        let million: u128 = 1_000_000;
        let year = million * 1_040_000;
        let maintained = 1_015_000 * 1_008_500;
        let lit = million * 998_000;
        let kept = 7 * year * year
            + 2 * million * 1_010_000 * year
            + 5 * (maintained * year + maintained * maintained)
            + 3 * (lit * year + lit * lit);
        for (option, i, j, ends) in [(0, 2, 2, &[][..]), (1, 0, 2, &[]), (2, 0, 0, &[2])] {
            let value = exact(&two_years(&[option]), i, j, ends);
            assert_eq!(value.numerator, (10_000 * kept).into());
            assert_eq!(value.denominator, (year * year).into());
        }
        let renewed = 7 * (year * year + million * 1_010_300 * year)
            + 5 * (maintained * year + million * 1_008_500 * maintained)
            + 3 * (lit * year + lit * lit);
        let sheet = two_years(&[0, 1, 2]);
        for (i, j, ends) in [(0, 0, &[1, 2][..]), (0, 1, &[2]), (1, 1, &[2]), (1, 2, &[])] {
            let value = exact(&sheet, i, j, ends);
            assert_eq!(value.numerator, (10_000 * renewed).into());
        }
    }

    // Renovated in year 1, electricity has been in service for two years, maintenance for one.
    #[test]
    fn a_renovation_with_old_motors() {
        let mut sheet = two_years(&[0, 1, 2]);
        for option in 0..OPTIONS {
            write_in(&mut sheet, option, ELECTRICITY_AGEING, 20_000);
        }
        let million: u128 = 1_000_000;
        let year = million * 1_040_000;
        let [maintained, lit] = [1_015_000 * 1_008_500, 1_020_000 * 998_000];
        let renewed = 7 * (year * year + million * 1_010_300 * year)
            + 5 * (maintained * year + million * 1_008_500 * maintained);
        let old_motors = 3 * (lit * year + lit * lit);
        let new_motors = 3 * (lit * year + million * 998_000 * lit);
        for (i, j, ends, motors) in [
            (1, 2, &[][..], old_motors),
            (1, 1, &[2], new_motors),
            (0, 1, &[2], new_motors),
            (0, 0, &[1, 2], new_motors),
        ] {
            let value = exact(&sheet, i, j, ends);
            assert_eq!(value.numerator, (10_000 * (renewed + motors)).into());
        }
    }

    // The removals of the three years before T, over (10^6 × 1,040,000)^3 up to year 3.
    #[test]
    fn removals_of_an_arc_and_of_a_chain() {
        let million: u128 = 1_000_000;
        let [year, renovated, replaced] = [1_040_000, 1_010_000, 990_000].map(|of| million * of);
        let sheet = checked(&three_removals()).expect("a sheet");
        let of_arc = |option, start, end| Exact::of_arc(&sheet, Arc { option, start, end });
        for (option, start, end, paid) in [
            (0, 0, 1, 0),
            (0, 0, 2, 0),
            (1, 1, 2, renovated * renovated),
            (1, 0, 2, renovated * renovated),
            (2, 1, 2, 2 * replaced * replaced),
            (2, 2, 4, 0),
            (1, 2, 4, 0),
        ] {
            let value = of_arc(option, start, end);
            assert_eq!(value.numerator, (10_000 * paid).into());
        }
        let value = exact(&three_removals(), 0, 1, &[2, 3, 4]);
        let paid = [(renovated, 1), (replaced, 2), (replaced, 3)];
        let mut expected = Natural::zero();
        for (amount, (each_year, years)) in [1, 2, 2].into_iter().zip(paid) {
            let mut term = Natural::one().times(10_000 * amount);
            (0..4).for_each(|at| term.multiply(if at < years { each_year } else { year } as u64));
            expected.add(&term);
        }
        assert_eq!(value.numerator, expected);
    }

    // Electricity of 1 in year 2 is 10,000 × 1.02² / 1.04² = 9,619.08 units with old motors, and
    // 10,000 × 1.02 / 1.04² = 9,430.47 with new ones. Half of 6 × 2² + 4 × 2 − 6 − 4 is 11, and in
    // year 3, which is T, half of 6 × 3² + 2 × 3 − 6 × 2² − 4 × 2 is 14.
    #[test]
    fn the_limits_of_a_cost() {
        for (option, start, end, least, most) in [
            (1, 1, 2, 9_620, 9_630),
            (2, 1, 2, 9_431, 9_441),
            (1, 2, 3, 9_435, 9_448),
            (2, 2, 3, 9_068, 9_081),
        ] {
            let arc = Arc { option, start, end };
            let judge = |cost| judge_cost(&same_motors_sheet(), arc, cost).is_ok();
            assert!(!judge(least - 1) && judge(least));
            assert!(judge(most) && !judge(most + 1));
        }
    }

    // From year 0 to 1 the allowance is 5, to 2 it is 16 and to 4, which is T, 52.
    #[test]
    fn allowances_of_arcs_add_up() {
        let allowances = [0, 1, 2, 3, 4].map(|year| allowed(year, 4) / 2);
        assert_eq!(allowances, [0, 5, 16, 33, 52]);
        assert_eq!(allowed(4, 5), 6 * 16 + 4 * 4);
        assert_eq!(allowed(300, 300), 2 * (3 * 90_000 + 300));
    }

    // Nothing is rounded: the total is the exact value. 3 × 4² + 4 is 52.
    #[test]
    fn the_limits_of_a_total() {
        for (sheet, total) in [(case_12(), 240_000), (case_12_with_removal(), 270_000)] {
            let value = exact(&sheet, 0, 0, &[2, 4]);
            assert_eq!(value.fault(total - 1), Some("is below the exact value"));
            assert_eq!(value.fault(total), None);
            assert_eq!(value.fault(total + 52), None);
            let above = "is above the exact value by more than the allowance";
            assert_eq!(value.fault(total + 53), Some(above));
        }
    }

    // T 1, one payment of 1 in year 0 and one of 1 / 1.04: 19,615.38 units; the allowance is 4.
    #[test]
    fn a_total_beside_a_fraction() {
        let mut sheet = with_head(1, 40_000);
        for (inner, value) in [
            (SHORTEST, 1),
            (LONGEST, 1),
            (INVESTMENT, 1),
            (MAINTENANCE, 1),
        ] {
            write_in(&mut sheet, 2, inner, value);
        }
        let value = exact(&sheet, 0, 0, &[1]);
        for (total, holds) in [
            (19_615, false),
            (19_616, true),
            (19_619, true),
            (19_620, false),
        ] {
            assert_eq!(value.fault(total).is_none(), holds);
        }
    }

    // Chains of case 12 that cost 24 and 34; then values 52 and 53 units above that of the first.
    #[test]
    fn the_limit_of_a_loss() {
        let [least, other] = [&[2, 4][..], &[1, 2, 4]].map(|ends| exact(&case_12(), 0, 0, ends));
        assert!(other.is_far_above(&least));
        assert!(!least.is_far_above(&other));
        assert!(!least.is_far_above(&least));
        let moved = |units: u64| {
            let mut value = exact(&case_12(), 0, 0, &[2, 4]);
            value.numerator.add_times(&least.denominator, units);
            value
        };
        assert!(!moved(52).is_far_above(&least));
        assert!(moved(53).is_far_above(&least));
    }

    // By fractions, worked out apart: 38,979,203,928.8765 units.
    #[test]
    fn the_case_study_of_the_paper() {
        let value = exact(&paper_sheet(), 0, 0, &[60, 120, 180, 240, 300]);
        let hundredths = value.numerator.times(100);
        assert!(hundredths > value.denominator.times(3_897_920_392_887));
        assert!(hundredths < value.denominator.times(3_897_920_392_888));
        assert_eq!(value.fault(38_979_215_559), None);
        assert!(value.fault(38_979_203_928).is_some());
    }
}
