//! What an arc costs, and refusal 13, written from document 01 and document 02's requests 1, 4 and
//! 6 alone. Every payment is moved forward on its own, from its amount in year 0 to its year.

use crate::answer::Answer;
use crate::sheet::{Flow, Record, Sheet};
use std::iter;

const UNITS: u128 = 10_000;
pub const MILLION: u128 = 1_000_000;
pub const MAINTAIN: u64 = 0;
pub const RENOVATE: u64 = 1;
pub const REPLACE: u64 = 2;

/// An option kept from a start year to an end year, as a caller gives them: any three numbers.
#[derive(Clone, Copy, Debug)]
pub struct Arc {
    pub option: u64,
    pub start: u64,
    pub end: u64,
}

/// The conditions of refusal 13, in the order of its row.
#[derive(Clone, Copy, Debug, PartialEq, Eq, PartialOrd, Ord)]
pub enum Fault {
    OptionAboveTwo,
    EndAboveHorizon,
    EndBeforeStart,
    MaintainNotFromZero,
    LengthNotOffered,
}

#[derive(Clone, Copy, Debug, PartialEq)]
pub enum Refusal {
    /// One of 1 to 9.
    OfSheet(Answer),
    /// 13, and the first condition that holds.
    OfArc(Fault),
}

/// The cost of the arc, or why there is none, by what the check says of the sheet.
pub fn cost(checked: &Result<Sheet, Answer>, arc: Arc) -> Result<u64, Refusal> {
    let sheet = checked
        .as_ref()
        .map_err(|&answer| Refusal::OfSheet(answer))?;
    match fault(sheet, arc) {
        Some(fault) => Err(Refusal::OfArc(fault)),
        None => Ok(arc_cost(sheet, arc)),
    }
}

pub fn answer(outcome: Result<u64, Refusal>) -> Answer {
    match outcome {
        Ok(total) => Answer::accepted(total),
        Err(Refusal::OfSheet(answer)) => answer,
        Err(Refusal::OfArc(_)) => Answer::refused(13),
    }
}

/// Numbers are compared as i128, in which those of the caller and of the sheet all fit.
pub fn fault(sheet: &Sheet, arc: Arc) -> Option<Fault> {
    let [start, end] = [arc.start, arc.end].map(i128::from);
    if arc.option > REPLACE {
        Some(Fault::OptionAboveTwo)
    } else if end > i128::from(sheet.horizon) {
        Some(Fault::EndAboveHorizon)
    } else if end < start {
        Some(Fault::EndBeforeStart)
    } else if arc.option == MAINTAIN && start != 0 {
        Some(Fault::MaintainNotFromZero)
    } else if !offered(sheet, arc.option, end - start) {
        Some(Fault::LengthNotOffered)
    } else {
        None
    }
}

/// Length 0 does not ask for lives; where both are 0 there is no other length.
fn offered(sheet: &Sheet, option: u64, length: i128) -> bool {
    let record = &sheet.records[option as usize];
    if length == 0 {
        option != REPLACE
    } else {
        i128::from(record.shortest) <= length && length <= i128::from(record.longest)
    }
}

/// The arc is without fault, so its years are at most 300.
pub fn arc_cost(sheet: &Sheet, arc: Arc) -> u64 {
    let record = &sheet.records[arc.option as usize];
    let (start, end) = (arc.start as i64, arc.end as i64);
    if start == end {
        return 0;
    }
    let sum: u128 = payments(arc.option, record, [start, end], sheet.horizon)
        .map(|payment| payment.value(sheet.rate))
        .sum();
    u64::try_from(sum).expect("250 payments of about 10^13 at most")
}

/// An amount with its rates, and how many steps of each kind bring it from year 0 to its year.
pub struct Payment {
    pub amount: i64,
    pub inflation: i64,
    pub ageing: i64,
    pub plain_steps: i64,
    pub service_steps: i64,
}

/// The payments of an option with this record, kept from a start year to a later end year.
pub fn payments(
    option: u64,
    record: &Record,
    [start, end]: [i64; 2],
    horizon: i64,
) -> impl Iterator<Item = Payment> + '_ {
    let length = end - start;
    let investment = once(record.investment, record.investment_inflation, start);
    let used = &record.overhauls[..record.overhaul_count as usize];
    let overhauls = used
        .iter()
        .filter(move |overhaul| overhaul.age < length)
        .map(move |due| once(due.amount, record.overhaul_inflation, start + due.age));
    let yearly = (1..=length).flat_map(move |k| {
        [
            yearly(&record.maintenance, [start, k]),
            yearly(&record.electricity, electricity_steps(option, start, k)),
        ]
    });
    iter::once(investment)
        .chain(overhauls)
        .chain(yearly)
        .chain(removal(option, record, end, horizon))
}

/// Paid in one year.
fn once(amount: i64, inflation: i64, year: i64) -> Payment {
    Payment {
        amount,
        inflation,
        ageing: 0,
        plain_steps: year,
        service_steps: 0,
    }
}

/// What a renovation or a replacement of positive length that ends before the horizon pays in its
/// end year.
pub fn removal(option: u64, record: &Record, end: i64, horizon: i64) -> Option<Payment> {
    let paid = option != MAINTAIN && end < horizon;
    paid.then(|| once(record.removal, record.removal_inflation, end))
}

fn yearly(flow: &Flow, [plain_steps, service_steps]: [i64; 2]) -> Payment {
    Payment {
        amount: flow.amount,
        inflation: flow.inflation,
        ageing: flow.ageing,
        plain_steps,
        service_steps,
    }
}

/// How many plain steps, and then how many in service, bring electricity to year k of an arc.
/// Renovating renews the building, while the motors go on ageing: in a renovate arc from i the
/// electricity takes in-service steps from year 0, i + k of them for year k, and no plain steps.
fn electricity_steps(option: u64, start: i64, k: i64) -> [i64; 2] {
    match option {
        RENOVATE => [0, start + k],
        _ => [start, k],
    }
}

impl Payment {
    pub fn value(&self, rate: i64) -> u128 {
        let mut running = self.amount as u128 * UNITS;
        for _ in 0..self.plain_steps {
            running = plain(running, rate, self.inflation);
        }
        for _ in 0..self.service_steps {
            running = in_service(running, rate, self.inflation, self.ageing);
        }
        running
    }
}

/// Plain: a becomes a × (1,000,000 + f) / (1,000,000 + r), rounded up.
fn plain(a: u128, r: i64, f: i64) -> u128 {
    up(a * factor(f), factor(r))
}

/// In service: first a × (1,000,000 + g) / 1,000,000, rounded up; that result then takes the
/// plain step.
fn in_service(a: u128, r: i64, f: i64, g: i64) -> u128 {
    plain(up(a * factor(g), MILLION), r, f)
}

pub fn factor(rate: i64) -> u128 {
    let factor = MILLION.checked_add_signed(rate.into());
    factor.expect("a checked rate is -100,000 or more")
}

/// The quotient rounded up to a whole number: its whole part, and 1 more if a rest is left.
pub fn up(dividend: u128, divisor: u128) -> u128 {
    let whole = dividend / divisor;
    match dividend % divisor {
        0 => whole,
        _ => whole + 1,
    }
}

#[cfg(test)]
mod tests {
    use super::*;
    use crate::cases::*;
    use crate::check::checked;
    use crate::sheet::*;

    fn lives(sheet: &mut [u8], option: usize, shortest: i64, longest: i64) {
        write_all_in(sheet, option, &[(SHORTEST, shortest), (LONGEST, longest)]);
    }

    fn cost_on(sheet: &[u8], option: u64, start: u64, end: u64) -> Result<u64, Refusal> {
        cost(&checked(sheet), Arc { option, start, end })
    }

    fn assert_refused(sheet: &[u8], arcs: &[(u64, u64, u64)], fault: Fault) {
        for &(option, start, end) in arcs {
            let outcome = cost_on(sheet, option, start, end);
            assert_eq!(
                outcome,
                Err(Refusal::OfArc(fault)),
                "{option} {start} {end}"
            );
            assert_eq!(answer(outcome).packed(), 13 * 4 + 3);
        }
    }

    #[test]
    fn a_rest_counts_as_a_unit_however_small() {
        for divisor in [2, 3, 1_000_000, 1_040_000, 1_199_999, 1_200_000] {
            for whole in [0, 1, 9_615, 10_000_000_000_000] {
                let dividend = whole * divisor;
                assert_eq!(up(dividend, divisor), whole);
                assert_eq!(up(dividend + 1, divisor), whole + 1);
                assert_eq!(up(dividend + divisor - 1, divisor), whole + 1);
            }
        }
        assert_eq!(up(7, 1), 7);
    }

    #[test]
    fn cases_1_to_3_plain() {
        assert_eq!(plain(10_000, 40_000, 0), 9_616);
        assert_eq!(plain(9_616, 40_000, 0), 9_247);
        assert_eq!(plain(5, 0, -100_000), 5);
    }

    // 3 × 9/12 is 2.25, and 4 × 9/12 is 3.
    #[test]
    fn a_plain_step_with_a_small_rest_and_with_none() {
        assert_eq!(plain(3, 200_000, -100_000), 3);
        assert_eq!(plain(4, 200_000, -100_000), 3);
    }

    #[test]
    fn cases_4_and_5_in_service() {
        assert_eq!(in_service(10_000, 40_000, 0, 20_000), 9_808);
        assert_eq!(in_service(10_000, 40_000, 10_000, 20_000), 9_906);
    }

    // Aged, 10,001 is 10,201.02, so 10,202, which the discount makes 9,809.6; from 10,201 it would
    // be 9,808.7.
    #[test]
    fn an_ageing_with_a_small_rest() {
        assert_eq!(in_service(10_001, 40_000, 0, 20_000), 9_810);
    }

    /// The sheet of cases 6 to 8, without the overhaul.
    fn case_sheet() -> Vec<u8> {
        let mut sheet = with_head(3, 40_000);
        lives(&mut sheet, 2, 1, 2);
        write_in(&mut sheet, 2, INVESTMENT, 1);
        write_in(&mut sheet, 2, MAINTENANCE, 1);
        sheet
    }

    fn case_sheet_with_overhaul() -> Vec<u8> {
        let mut sheet = case_sheet();
        write_in(&mut sheet, 2, OVERHAUL_COUNT, 1);
        write_in(&mut sheet, 2, overhaul_age(0), 1);
        write_in(&mut sheet, 2, overhaul_amount(0), 1);
        sheet
    }

    #[test]
    fn cases_6_to_8_arcs() {
        assert_eq!(cost_on(&case_sheet(), 2, 1, 3), Ok(27_755));
        assert_eq!(cost_on(&case_sheet_with_overhaul(), 2, 1, 3), Ok(37_002));
        assert_eq!(cost_on(&case_sheet_with_overhaul(), 2, 1, 2), Ok(18_863));
    }

    /// The arcs of the paper's case study in units, and in its Table 5 in euros.
    const CASE_STUDY: [(u64, u64); 5] = [
        (32_376_325_834, 3_237_632),
        (5_476_429_609, 547_643),
        (936_951_814, 93_695),
        (161_521_417, 16_152),
        (27_986_885, 2_798),
    ];

    #[test]
    fn the_case_study_is_less_than_a_euro_from_the_paper_arc_by_arc() {
        for (start, (units, euros)) in (0..).step_by(60).zip(CASE_STUDY) {
            let outcome = cost_on(&paper_sheet(), 2, start, start + 60);
            assert_eq!(outcome, Ok(units));
            assert!(units.abs_diff(euros * 10_000) < 10_000);
        }
        let total: u64 = CASE_STUDY.iter().map(|(units, _)| units).sum();
        assert_eq!(total, 38_979_215_559);
    }

    // With r 0 a plain step by f −100,000 takes a tenth away, and ageing by 100,000 adds one.
    #[test]
    fn each_payment_has_its_own_rates() {
        let mut sheet = with_head(9, 0);
        let fields = [
            (INVESTMENT, 1),
            (MAINTENANCE, 100),
            (MAINTENANCE_INFLATION, -100_000),
            (ELECTRICITY, 10_000),
            (ELECTRICITY_INFLATION, -100_000),
            (ELECTRICITY_AGEING, 100_000),
            (OVERHAUL_INFLATION, -100_000),
            (OVERHAUL_COUNT, 1),
            (overhaul_age(0), 1),
            (overhaul_amount(0), 1_000_000),
        ];
        lives(&mut sheet, 1, 1, 2);
        write_all_in(&mut sheet, 1, &fields);
        // Investment, maintenance, electricity by two steps in service; then the overhaul and the
        // second year, its electricity by three.
        let one_year = 10_000 + 810_000 + 98_010_000;
        let two_years = one_year + 8_100_000_000 + 729_000 + 97_029_900;
        assert_eq!(cost_on(&sheet, 1, 1, 2), Ok(one_year));
        assert_eq!(cost_on(&sheet, 1, 1, 3), Ok(two_years));
    }

    // After one step in service 10,000 units are 9,808, after two 9,621, after three 9,437; after a
    // plain one and one in service they are 9,432, and one more makes 9,251.
    #[test]
    fn a_renovation_keeps_motors_that_are_as_old_as_year_0() {
        let sheet = same_motors_sheet();
        for (start, end, old, new) in [
            (0, 1, 9_808, 9_808),
            (0, 2, 19_429, 19_429),
            (1, 2, 9_621, 9_432),
            (1, 3, 19_058, 18_683),
            (2, 3, 9_437, 9_070),
        ] {
            assert_eq!(cost_on(&sheet, 1, start, end), Ok(old));
            assert_eq!(cost_on(&sheet, 2, start, end), Ok(new));
        }
    }

    #[test]
    fn its_maintenance_ages_from_its_start() {
        let mut sheet = same_motors_sheet();
        for option in [1, 2] {
            write_in(&mut sheet, option, MAINTENANCE, 1);
            write_in(&mut sheet, option, MAINTENANCE_AGEING, 20_000);
        }
        assert_eq!(cost_on(&sheet, 1, 1, 2), Ok(9_432 + 9_621));
        assert_eq!(cost_on(&sheet, 1, 1, 3), Ok(18_683 + 19_058));
        assert_eq!(cost_on(&sheet, 2, 1, 3), Ok(2 * 18_683));
    }

    #[test]
    fn motors_that_age_at_the_limit_of_check_8() {
        let sheet = steady_motors_sheet();
        for (start, end) in [(0, 1), (1, 2), (119, 239), (180, 300), (299, 300)] {
            let cost = (end - start) * 10_000_000_000_000;
            assert_eq!(cost_on(&sheet, 1, start, end), Ok(cost));
        }
        // A plain step takes a fifth away.
        assert_eq!(cost_on(&sheet, 2, 1, 2), Ok(8_000_000_000_000));
    }

    // 12 and 28 as in version 1, and 3 for each of 0 to 2 and 0 to 3, which end before year 4.
    #[test]
    fn case_12_arcs_with_removal() {
        let sheet = case_12_with_removal();
        for (start, end, cost) in [
            (0, 1, 140_000),
            (0, 2, 150_000),
            (0, 3, 310_000),
            (1, 4, 280_000),
            (2, 4, 120_000),
            (3, 4, 110_000),
        ] {
            assert_eq!(cost_on(&sheet, 2, start, end), Ok(cost));
        }
    }

    // 10,000 × 1.01 / 1.04 is 9,711.5, then 9,712 × 1.01 / 1.04 is 9,431.8, then 9,159.9; and
    // 20,000 × 0.99 / 1.04 is 19,038.5, then 18,123.9, then 17,252.7.
    #[test]
    fn removals_in_their_end_year_with_their_own_rates() {
        let sheet = three_removals();
        for (option, start, end, cost) in [
            (0, 0, 1, 0),
            (0, 0, 2, 0),
            (1, 0, 1, 9_712),
            (1, 0, 2, 9_432),
            (1, 1, 2, 9_432),
            (1, 1, 3, 9_160),
            (1, 2, 3, 9_160),
            (1, 2, 4, 0),
            (1, 3, 4, 0),
            (2, 0, 1, 19_039),
            (2, 1, 2, 18_124),
            (2, 1, 3, 17_253),
            (2, 2, 3, 17_253),
            (2, 2, 4, 0),
            (2, 3, 4, 0),
        ] {
            assert_eq!(cost_on(&sheet, option, start, end), Ok(cost));
        }
        assert_eq!(cost_on(&sheet, 0, 0, 0), Ok(0));
        for year in 0..=4 {
            assert_eq!(cost_on(&sheet, 1, year, year), Ok(0));
        }
    }

    // The records differ, and the lives of the next one stand where version 2 has a removal.
    #[test]
    fn version_1_pays_no_removal() {
        let sheet = paper_sheet();
        let zero = as_version_2(&sheet);
        for (option, start, end) in [(0, 0, 15), (1, 7, 30), (1, 10, 40), (2, 0, 60), (2, 7, 60)] {
            let cost = cost_on(&sheet, option, start, end);
            assert!(cost.is_ok());
            assert_eq!(cost_on(&zero, option, start, end), cost);
        }
        let mut sheet = with_head(4, 0);
        (0..OPTIONS).for_each(|option| lives(&mut sheet, option, 1, 2));
        for (option, start, end) in [(0, 0, 1), (1, 0, 1), (1, 1, 3), (2, 0, 1), (2, 1, 2)] {
            assert_eq!(cost_on(&sheet, option, start, end), Ok(0));
        }
    }

    #[test]
    fn length_0_costs_nothing_and_needs_no_lives() {
        let mut sheet = with_head(3, 40_000);
        for option in 0..OPTIONS {
            write_in(&mut sheet, option, INVESTMENT, 1);
        }
        assert_eq!(cost_on(&sheet, 0, 0, 0), Ok(0));
        for year in 0..=3 {
            assert_eq!(cost_on(&sheet, 1, year, year), Ok(0));
        }
        assert_refused(&sheet, &[(0, 3, 3)], Fault::MaintainNotFromZero);
        assert_refused(&sheet, &[(2, 0, 0), (2, 3, 3)], Fault::LengthNotOffered);
        assert_refused(
            &sheet,
            &[(0, 0, 1), (1, 0, 1), (2, 0, 1)],
            Fault::LengthNotOffered,
        );
        assert_eq!(answer(cost_on(&sheet, 0, 0, 0)).packed(), 3);
    }

    #[test]
    fn each_way_into_13() {
        let most = u64::MAX;
        let mut sheet = with_head(9, 0);
        for option in 0..OPTIONS {
            lives(&mut sheet, option, 2, 3);
        }
        for option in 0..3 {
            assert_eq!(cost_on(&sheet, option, 0, 2), Ok(0));
            assert_eq!(cost_on(&sheet, option, 0, 3), Ok(0));
            assert_refused(
                &sheet,
                &[(option, 0, 1), (option, 0, 4)],
                Fault::LengthNotOffered,
            );
        }
        assert_eq!(cost_on(&sheet, 2, 7, 9), Ok(0));
        assert_refused(&sheet, &[(3, 0, 2), (most, 0, 2)], Fault::OptionAboveTwo);
        assert_refused(
            &sheet,
            &[(2, 8, 10), (2, 0, most), (1, most, most)],
            Fault::EndAboveHorizon,
        );
        assert_refused(
            &sheet,
            &[(2, 3, 2), (1, 9, 0), (2, most, 1)],
            Fault::EndBeforeStart,
        );
        assert_refused(&sheet, &[(0, 1, 3), (0, 9, 9)], Fault::MaintainNotFromZero);
    }

    #[test]
    fn a_refused_sheet_comes_before_the_arc() {
        let sheet = with_head(301, 0);
        let outcome = cost_on(&sheet, u64::MAX, 1, 0);
        assert_eq!(outcome, Err(Refusal::OfSheet(Answer::refused(3))));
        assert_eq!(answer(outcome), Answer::refused(3));
    }
}
