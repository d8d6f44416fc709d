//! What a plan's chain pays in each year, and refusals 15 and 16, written from documents 01 and 02
//! alone. Every payment is moved forward on its own, from its amount in year 0 to its year: in
//! units as its arc costs it, and in cents of that year.

use crate::answer::Answer;
use crate::check::checked;
use crate::cost::{factor, payments, up, Payment, MILLION};
use crate::plan::{read, Chain};
use crate::price;
use crate::sheet::Sheet;

const CENTS: u128 = 100;
/// The last year that has a word of cents.
pub const LAST_OF_CENTS: i64 = 15;
pub const HIGHEST_GENERAL: u64 = 50_000;

/// What a call is given besides sheet and plan: any rate, and so many words of each list.
#[derive(Clone, Copy, Debug)]
pub struct Call {
    pub general: u64,
    pub units_count: usize,
    pub cents_count: usize,
}

/// The total of the plan, and the words that are written, from the first one of each list on.
#[derive(Debug, PartialEq)]
pub struct Budget {
    pub total: u64,
    pub units: Vec<u64>,
    pub cents: Vec<u64>,
}

#[derive(Clone, Debug, PartialEq)]
pub enum Refusal {
    /// That of pricing: one of 1 to 9, or 14.
    OfPrice(price::Refusal),
    /// 15.
    HighGeneral,
    /// 16, and which of the lists is too short.
    FewWords { units: bool, cents: bool },
}

/// How many words of units and of cents a horizon needs.
pub fn needed(horizon: i64) -> [usize; 2] {
    [horizon, horizon.min(LAST_OF_CENTS)].map(|last| last as usize + 1)
}

/// A plan that pricing accepts, and what its chain pays.
pub struct Priced {
    pub sheet: Sheet,
    pub chain: Chain,
    total: u64,
    payments: Vec<Payment>,
    units: Vec<u64>,
}

impl Priced {
    pub fn of(bytes: &[u8], plan: &[u8]) -> Result<Priced, price::Refusal> {
        let total = price::price(bytes, plan)?;
        let sheet = checked(bytes).expect("a priced sheet");
        let chain = read(plan).expect("a priced plan");
        let kept = chain.activities().into_iter();
        let kept = kept.filter(|(_, start, end)| start < end);
        let payments: Vec<Payment> = kept
            .flat_map(|(option, start, end)| {
                let record = &sheet.records[option];
                payments(option as u64, record, [start, end], sheet.horizon)
            })
            .collect();
        let units = by_year(&payments, sheet.horizon, |paid| paid.value(sheet.rate));
        Ok(Priced {
            sheet,
            chain,
            total,
            payments,
            units,
        })
    }

    fn cents(&self, general: i64) -> Vec<u64> {
        let last = self.sheet.horizon.min(LAST_OF_CENTS);
        by_year(&self.payments, last, |paid| paid.cents(general))
    }
}

/// The budget of a plan, or why there is none.
pub fn budget(plan: &Result<Priced, price::Refusal>, call: Call) -> Result<Budget, Refusal> {
    let priced = plan.as_ref();
    let priced = priced.map_err(|refusal| Refusal::OfPrice(refusal.clone()))?;
    let [units, cents] = needed(priced.sheet.horizon);
    let [units, cents] = [call.units_count < units, call.cents_count < cents];
    if call.general > HIGHEST_GENERAL {
        Err(Refusal::HighGeneral)
    } else if units || cents {
        Err(Refusal::FewWords { units, cents })
    } else {
        Ok(Budget {
            total: priced.total,
            units: priced.units.clone(),
            cents: priced.cents(call.general as i64),
        })
    }
}

pub fn answer(outcome: &Result<Budget, Refusal>) -> Answer {
    match outcome {
        Ok(budget) => Answer::accepted(budget.total),
        Err(Refusal::OfPrice(refusal)) => price::answer(&Err(refusal.clone())),
        Err(Refusal::HighGeneral) => Answer::refused(15),
        Err(Refusal::FewWords { .. }) => Answer::refused(16),
    }
}

/// The sum of the payments that fall in each year from 0 to the last one.
fn by_year(payments: &[Payment], last: i64, figure: impl Fn(&Payment) -> u128) -> Vec<u64> {
    let mut sums = vec![0; last as usize + 1];
    for payment in payments.iter().filter(|payment| payment.year() <= last) {
        sums[payment.year() as usize] += figure(payment);
    }
    let words = sums.into_iter().map(u64::try_from);
    words
        .map(|word| word.expect("four payments at most"))
        .collect()
}

impl Payment {
    fn year(&self) -> i64 {
        self.plain_steps + self.service_steps
    }

    /// In money of its year, if that has a word of cents.
    pub fn word_of_cents(&self, general: u64) -> u128 {
        match self.year() {
            ..=LAST_OF_CENTS => self.cents(general as i64),
            _ => 0,
        }
    }

    /// In money of its year.
    fn cents(&self, general: i64) -> u128 {
        let mut running = self.amount as u128 * CENTS;
        for _ in 0..self.plain_steps {
            running = plain(running, general, self.inflation);
        }
        for _ in 0..self.service_steps {
            running = plain(risen(running, self.ageing), general, self.inflation);
        }
        running
    }
}

/// General inflation and then its own; there is no discount.
fn plain(cents: u128, general: i64, inflation: i64) -> u128 {
    risen(risen(cents, general), inflation)
}

/// After one rate, rounded up to a whole cent.
fn risen(cents: u128, rate: i64) -> u128 {
    up(cents * factor(rate), MILLION)
}

#[cfg(test)]
mod tests {
    use super::*;
    use crate::cases::*;
    use crate::plan::written;
    use crate::sheet::*;

    fn plan(i: i64, j: i64, ends: &[i64]) -> Vec<u8> {
        let ends = ends.to_vec();
        written(&Chain { i, j, ends }, 12_345)
    }

    fn priced(sheet: &[u8], i: i64, j: i64, ends: &[i64]) -> Result<Priced, price::Refusal> {
        Priced::of(sheet, &plan(i, j, ends))
    }

    fn call(general: u64, units_count: usize, cents_count: usize) -> Call {
        Call {
            general,
            units_count,
            cents_count,
        }
    }

    /// Both lists of a call with more words than are needed.
    fn lists(priced: &Result<Priced, price::Refusal>, general: u64) -> (Vec<u64>, Vec<u64>) {
        let budget = budget(priced, call(general, 400, 400)).expect("a budget");
        (budget.units, budget.cents)
    }

    #[test]
    fn two_years_by_hand() {
        let priced = priced(&two_year_sheet(), 0, 0, &[1, 2]);
        let units = vec![10_000, 78_169, 66_483];
        assert_eq!(lists(&priced, 1_000), (units.clone(), vec![100, 817, 723]));
        assert_eq!(lists(&priced, 0), (units, vec![100, 814, 720]));
        assert_eq!(priced.expect("a plan").total, 154_652);
    }

    // 7 currency units, one plain step and one in service. Other orders give 722 and 724, and one
    // rounding a year 721.
    #[test]
    fn each_rate_in_its_order() {
        let payment = Payment {
            amount: 7,
            inflation: 10_000,
            ageing: 7_000,
            plain_steps: 1,
            service_steps: 1,
        };
        assert_eq!(payment.cents(1_000), 723);
        let after = |rates: [i64; 5]| rates.into_iter().fold(700, risen);
        assert_eq!(after([1_000, 10_000, 7_000, 1_000, 10_000]), 723);
        assert_eq!(after([10_000, 1_000, 7_000, 10_000, 1_000]), 722);
        assert_eq!(after([1_000, 10_000, 1_000, 10_000, 7_000]), 724);
    }

    #[test]
    fn a_rest_counts_as_a_cent() {
        assert_eq!(risen(100, 0), 100);
        assert_eq!(risen(100, 10_000), 101);
        assert_eq!(risen(100, 10_001), 102);
        assert_eq!(risen(1_000_000, 1), 1_000_001);
        assert_eq!(risen(999_999, 1), 1_000_000);
        assert_eq!(risen(1_000_001, 1), 1_000_003);
        assert_eq!(risen(10, -100_000), 9);
        assert_eq!(risen(11, -100_000), 10);
        assert_eq!(risen(0, 50_000), 0);
    }

    #[test]
    fn the_largest_payment() {
        let (units, cents) = lists(&priced(&fifteen_year_sheet(), 0, 0, &[15]), 50_000);
        assert_eq!(cents.len(), 16);
        assert_eq!(cents[..3], [0, 126_000_000_000, 158_760_000_000]);
        assert_eq!(cents[15], 3_203_009_131_254);
        assert_eq!(units[0], 0);
        assert_eq!(units[1..], [10_000_000_000_000; 15]);
    }

    // In units and in cents, electricity of year 2 takes two steps in service and that of year 3
    // three, in whichever year the building is renovated; 102 cents are then 104.04, and 105 are
    // 107.1.
    #[test]
    fn a_renovation_with_old_motors() {
        for (i, units, cents) in [
            (1, vec![0, 9_807, 9_621, 9_437], vec![0, 102, 105, 108]),
            (2, vec![0, 9_807, 9_618, 9_437], vec![0, 102, 105, 108]),
        ] {
            let priced = priced(&postponed_sheet(), i, 3, &[]);
            assert_eq!(lists(&priced, 0), (units, cents));
        }
    }

    // The same payment as above, of motors that are 14 years old when the building is renovated.
    #[test]
    fn the_largest_payment_of_old_motors() {
        let mut sheet = steady_motors_sheet();
        write(&mut sheet, HORIZON, 15);
        let (units, cents) = lists(&priced(&sheet, 14, 15, &[]), 50_000);
        assert_eq!((&units[..15], &cents[..15]), (&[0; 15][..], &[0; 15][..]));
        assert_eq!(units[15], 10_000_000_000_000);
        assert_eq!(cents[15], 3_203_009_131_254);
    }

    // The overhaul of 15 falls in the third year of an arc, and is not paid in its last.
    #[test]
    fn case_12_by_year() {
        let per_unit = |sums: &[u64]| sums.iter().map(|sum| sum * 10_000).collect::<Vec<u64>>();
        let in_cents = |sums: &[u64]| sums.iter().map(|sum| sum * 100).collect::<Vec<u64>>();
        for (ends, sums) in [
            (&[2, 4][..], [10, 1, 11, 1, 1]),
            (&[1, 4], [10, 11, 1, 16, 1]),
            (&[3, 4], [10, 1, 16, 11, 1]),
        ] {
            let found = lists(&priced(&case_12(), 0, 0, ends), 0);
            assert_eq!(found, (per_unit(&sums), in_cents(&sums)));
        }
    }

    // Replaced every second year, the removal of 3 falls in year 2 and not in year 4; replaced every
    // year, in years 1 to 3.
    #[test]
    fn case_12_with_removal_by_year() {
        for (ends, sums) in [
            (&[2, 4][..], [10, 1, 14, 1, 1]),
            (&[1, 4], [10, 14, 1, 16, 1]),
            (&[3, 4], [10, 1, 16, 14, 1]),
            (&[1, 2, 3, 4], [10, 14, 14, 14, 1]),
        ] {
            let (units, cents) = lists(&priced(&case_12_with_removal(), 0, 0, ends), 0);
            assert_eq!(units, sums.map(|sum| sum * 10_000));
            assert_eq!(cents, sums.map(|sum| sum * 100));
        }
    }

    // In units as cost.rs has them. In cents, 100 by 1.001 are 100.1, so 101, by 1.01 then 102.01,
    // so 103; again 103.1, so 104, and 105.04, so 106; then 107 and 109. 200 by 1.001 and 0.99 are
    // 201, so 199; then 200 and 198; then 199 and 198.
    #[test]
    fn removals_in_the_word_of_their_end_year() {
        for (i, j, ends, units, cents) in [
            (
                1,
                2,
                &[3, 4][..],
                [0, 0, 9_432, 17_253, 0],
                [0, 0, 106, 198, 0],
            ),
            (2, 3, &[4], [0, 0, 0, 9_160, 0], [0, 0, 0, 109, 0]),
            (2, 2, &[4], [0; 5], [0; 5]),
            (
                0,
                1,
                &[2, 3, 4],
                [0, 9_712, 18_124, 17_253, 0],
                [0, 103, 198, 198, 0],
            ),
            (
                0,
                0,
                &[1, 2, 4],
                [0, 19_039, 18_124, 0, 0],
                [0, 199, 198, 0, 0],
            ),
        ] {
            let found = lists(&priced(&three_removals(), i, j, ends), 1_000);
            assert_eq!(found, (units.to_vec(), cents.to_vec()));
        }
    }

    /// All options for any number of years, each with one payment of its own in its start year.
    fn three_investments(horizon: i64) -> Vec<u8> {
        let mut sheet = with_head(horizon, 0);
        for (option, amount) in [1, 20, 300].into_iter().enumerate() {
            write_in(&mut sheet, option, SHORTEST, 1);
            write_in(&mut sheet, option, LONGEST, 120);
            write_in(&mut sheet, option, INVESTMENT, amount);
        }
        sheet
    }

    // 30,000 cents at 5 per cent a year are 62,367.8 after 15 years, and with each year rounded up
    // 62,377.
    #[test]
    fn year_15_and_the_horizon() {
        for (horizon, words) in [(1, 2), (14, 15), (15, 16), (16, 16), (120, 16)] {
            let sheet = three_investments(horizon);
            let (units, cents) = lists(&priced(&sheet, 0, 0, &[horizon]), 50_000);
            assert_eq!((units.len(), cents.len()), (horizon as usize + 1, words));
            assert_eq!((units[0], cents[0]), (3_000_000, 30_000));
        }
        let (units, cents) = lists(&priced(&three_investments(17), 14, 15, &[16, 17]), 50_000);
        assert_eq!(units[14..], [200_000, 3_000_000, 3_000_000, 0]);
        assert_eq!(cents[14..], [3_967, 62_377]);
    }

    // An investment of 300 follows a removal of 300 or 4,000, unless that year is the horizon.
    #[test]
    fn removals_in_year_15_and_later() {
        let mut sheet = as_version_2(&three_investments(17));
        write_in(&mut sheet, 1, REMOVAL, 300);
        write_in(&mut sheet, 2, REMOVAL, 4_000);
        let (units, cents) = lists(&priced(&sheet, 14, 15, &[16, 17]), 50_000);
        assert_eq!(units[14..], [200_000, 6_000_000, 43_000_000, 0]);
        assert_eq!(cents[14..], [3_967, 2 * 62_377]);
        let (units, cents) = lists(&priced(&sheet, 0, 0, &[15, 17]), 0);
        assert_eq!(units[14..], [0, 43_000_000, 0, 0]);
        assert_eq!(cents[14..], [0, 430_000]);
        write(&mut sheet, HORIZON, 15);
        let (units, cents) = lists(&priced(&sheet, 0, 0, &[14, 15]), 0);
        assert_eq!(units[14..], [43_000_000, 0]);
        assert_eq!(cents[14..], [430_000, 0]);
    }

    #[test]
    fn each_way_into_15_and_16_and_their_order() {
        let priced = priced(&two_year_sheet(), 0, 0, &[1, 2]);
        let refusal = |general, units, cents| budget(&priced, call(general, units, cents)).err();
        let few = |units, cents| Some(Refusal::FewWords { units, cents });
        assert_eq!(refusal(50_000, 3, 3), None);
        assert_eq!(refusal(50_000, 2, 3), few(true, false));
        assert_eq!(refusal(50_000, 3, 2), few(false, true));
        assert_eq!(refusal(0, 0, 0), few(true, true));
        for general in [50_001, 1 << 32, u64::MAX] {
            assert_eq!(refusal(general, 3, 3), Some(Refusal::HighGeneral));
            assert_eq!(refusal(general, 0, 0), Some(Refusal::HighGeneral));
        }
        let packed = |call| answer(&budget(&priced, call)).packed();
        assert_eq!(packed(call(50_000, 3, 3)), 154_652 * 256 + 3);
        assert_eq!(packed(call(50_001, 2, 3)), 15 * 4 + 3);
        assert_eq!(packed(call(50_000, 2, 3)), 16 * 4 + 3);
    }

    #[test]
    fn what_pricing_refuses_comes_first() {
        let packed = |sheet: &[u8], ends, call| {
            let priced = priced(sheet, 0, 0, ends);
            answer(&budget(&priced, call)).packed()
        };
        let faulty = call(u64::MAX, 0, 0);
        assert_eq!(packed(&two_year_sheet(), &[2], faulty), 14 * 4 + 3);
        assert_eq!(packed(&with_head(301, 0), &[2], faulty), 3 * 4 + 3);
        let mut sheet = two_year_sheet();
        write_in(&mut sheet, 1, LONGEST, 7);
        assert_eq!(packed(&sheet, &[1, 2], call(0, 3, 3)), 5 * 4 + 1);
    }
}
