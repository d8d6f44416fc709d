//! The rounded total of a plan's chain, and refusal 14, written from document 01 alone. All
//! faults of a plan are found, so that those with a single one can be counted.

use crate::answer::Answer;
use crate::check::checked;
use crate::cost::{arc_cost, Arc};
use crate::plan::{plan_bytes, read, Chain, Missing, MARK, VERSION};
use crate::sheet::Sheet;
use std::collections::BTreeSet;

const REPLACE: usize = 2;

/// The conditions of refusal 14.
#[derive(Clone, Copy, Debug, PartialEq, Eq, PartialOrd, Ord)]
pub enum Fault {
    /// Too few bytes; nothing else is looked at then.
    Lacks(Missing),
    /// More than 19 + 2m bytes.
    LongerThanItsEnds,
    /// The first wrong byte of the mark.
    Mark(usize),
    /// A wrong byte of the version.
    Version(usize),
    RenovateFalls,
    ReplacementFalls,
    ReplacementIsEmpty,
    YearPastHorizon,
    StopsBeforeHorizon,
    /// A length of 1 or more of an option whose lives are both 0.
    NotOffered(usize),
    BelowShortest(usize),
    AboveLongest(usize),
}

#[derive(Clone, Debug, PartialEq)]
pub enum Refusal {
    /// One of 1 to 9.
    OfSheet(Answer),
    /// 14, and every condition that holds.
    OfPlan(BTreeSet<Fault>),
}

/// The total of the plan's chain, or why there is none.
pub fn price(sheet: &[u8], plan: &[u8]) -> Result<u64, Refusal> {
    let sheet = checked(sheet).map_err(Refusal::OfSheet)?;
    let chain = feasible_chain(&sheet, plan).map_err(Refusal::OfPlan)?;
    Ok(total(&sheet, &chain))
}

pub fn answer(outcome: &Result<u64, Refusal>) -> Answer {
    match outcome {
        Ok(total) => Answer::accepted(*total),
        Err(Refusal::OfSheet(answer)) => *answer,
        Err(Refusal::OfPlan(_)) => Answer::refused(14),
    }
}

/// The plan's chain if nothing is wrong with the plan, else everything that is.
pub fn feasible_chain(sheet: &Sheet, plan: &[u8]) -> Result<Chain, BTreeSet<Fault>> {
    let chain = read(plan).map_err(|missing| BTreeSet::from([Fault::Lacks(missing)]))?;
    let mut faults = form_faults(plan, &chain);
    faults.extend(chain_faults(sheet, &chain));
    if faults.is_empty() {
        Ok(chain)
    } else {
        Err(faults)
    }
}

fn form_faults(plan: &[u8], chain: &Chain) -> BTreeSet<Fault> {
    let mut faults = BTreeSet::new();
    if plan.len() > plan_bytes(chain.ends.len()) {
        faults.insert(Fault::LongerThanItsEnds);
    }
    if let Some(at) = (0..MARK.len()).find(|&at| plan[at] != MARK[at]) {
        faults.insert(Fault::Mark(at));
    }
    if let Some(at) = (0..2).find(|&at| plan[VERSION.at + at] != [1, 0][at]) {
        faults.insert(Fault::Version(at));
    }
    faults
}

fn chain_faults(sheet: &Sheet, chain: &Chain) -> BTreeSet<Fault> {
    let mut faults = BTreeSet::new();
    for (option, start, end) in chain.activities() {
        faults.extend(length_fault(sheet, option, end - start));
        if end > sheet.horizon {
            faults.insert(Fault::YearPastHorizon);
        }
    }
    if chain.last_year() < sheet.horizon {
        faults.insert(Fault::StopsBeforeHorizon);
    }
    faults
}

/// Maintain starts in year 0, so it does not fall.
fn length_fault(sheet: &Sheet, option: usize, length: i64) -> Option<Fault> {
    let record = &sheet.records[option];
    if length < 0 && option == REPLACE {
        Some(Fault::ReplacementFalls)
    } else if length < 0 {
        Some(Fault::RenovateFalls)
    } else if length == 0 {
        (option == REPLACE).then_some(Fault::ReplacementIsEmpty)
    } else if record.longest == 0 {
        Some(Fault::NotOffered(option))
    } else if length < record.shortest {
        Some(Fault::BelowShortest(option))
    } else if length > record.longest {
        Some(Fault::AboveLongest(option))
    } else {
        None
    }
}

/// The chain is feasible, so its years are from 0 to 300.
fn total(sheet: &Sheet, chain: &Chain) -> u64 {
    let costs = chain.activities().into_iter().map(|(option, start, end)| {
        let [option, start, end] = [option as u64, start as u64, end as u64];
        u128::from(arc_cost(sheet, Arc { option, start, end }))
    });
    u64::try_from(costs.sum::<u128>()).expect("1,200 payments of about 10^13 at most")
}

#[cfg(test)]
mod tests {
    use super::*;
    use crate::cases::*;
    use crate::plan::written;
    use crate::sheet::*;

    fn plan(i: i64, j: i64, ends: &[i64]) -> Vec<u8> {
        let ends = ends.to_vec();
        written(&Chain { i, j, ends }, 12_345)
    }

    fn price_of(sheet: &[u8], i: i64, j: i64, ends: &[i64]) -> Result<u64, Refusal> {
        price(sheet, &plan(i, j, ends))
    }

    fn refused<const N: usize>(faults: [Fault; N]) -> Result<u64, Refusal> {
        Err(Refusal::OfPlan(faults.into()))
    }

    // Every year of service costs 1.
    #[test]
    fn case_11_chains() {
        let sheet = case_11();
        for ends in [&[2, 3][..], &[1, 3], &[1, 2, 3]] {
            assert_eq!(price_of(&sheet, 0, 0, ends), Ok(30_000));
        }
    }

    // One year costs 10 + 1, two 10 + 2, three 10 + 3 + 15.
    #[test]
    fn case_12_chains() {
        let sheet = case_12();
        assert_eq!(price_of(&sheet, 0, 0, &[2, 4]), Ok(240_000));
        assert_eq!(price_of(&sheet, 0, 0, &[1, 2, 3, 4]), Ok(440_000));
        assert_eq!(price_of(&sheet, 0, 0, &[1, 4]), Ok(390_000));
        assert_eq!(
            answer(&price_of(&sheet, 0, 0, &[2, 4])).packed(),
            61_440_003
        );
    }

    // 3 for each replacement that ends before year 4.
    #[test]
    fn case_12_chains_with_removal() {
        let sheet = case_12_with_removal();
        assert_eq!(price_of(&sheet, 0, 0, &[2, 4]), Ok(270_000));
        assert_eq!(price_of(&sheet, 0, 0, &[1, 2, 3, 4]), Ok(530_000));
        assert_eq!(price_of(&sheet, 0, 0, &[1, 4]), Ok(420_000));
    }

    // What each arc costs is in cost.rs.
    #[test]
    fn removals_of_renovations_and_replacements() {
        let sheet = three_removals();
        for (i, j, ends, total) in [
            (2, 4, &[][..], 0),
            (2, 2, &[4], 0),
            (1, 2, &[4], 9_432),
            (1, 2, &[3, 4], 9_432 + 17_253),
            (1, 1, &[2, 4], 18_124),
            (0, 1, &[2, 3, 4], 9_712 + 18_124 + 17_253),
        ] {
            assert_eq!(price_of(&sheet, i, j, ends), Ok(total));
        }
    }

    #[test]
    fn each_fault_of_a_chain() {
        let sheet = case_12();
        for (i, j, ends, fault) in [
            (0, 0, &[2, 3][..], Fault::StopsBeforeHorizon),
            (0, 0, &[], Fault::StopsBeforeHorizon),
            (0, 0, &[2, 5], Fault::YearPastHorizon),
            (0, 0, &[2, 2, 4], Fault::ReplacementIsEmpty),
            (0, 0, &[0, 2, 4], Fault::ReplacementIsEmpty),
            (0, 0, &[2, 1, 2, 4], Fault::ReplacementFalls),
            (0, 0, &[4], Fault::AboveLongest(2)),
            (1, 1, &[4], Fault::NotOffered(0)),
            (0, 1, &[4], Fault::NotOffered(1)),
        ] {
            assert_eq!(price_of(&sheet, i, j, ends), refused([fault]), "{ends:?}");
        }
        let falls = [Fault::RenovateFalls, Fault::NotOffered(0)];
        assert_eq!(price_of(&sheet, 1, 0, &[2, 4]), refused(falls));
        let late = [Fault::YearPastHorizon, Fault::ReplacementFalls];
        assert_eq!(price_of(&sheet, 0, 0, &[2, 5, 4]), refused(late));
    }

    // Lives of 2 to 3 years for all options: the lengths beside them.
    #[test]
    fn each_fault_of_a_length() {
        let mut sheet = with_head(6, 0);
        for option in 0..OPTIONS {
            write_all_in(&mut sheet, option, &[(SHORTEST, 2), (LONGEST, 3)]);
        }
        for (i, j, ends) in [(3, 6, &[][..]), (2, 4, &[6]), (0, 0, &[3, 6]), (0, 3, &[6])] {
            assert_eq!(price_of(&sheet, i, j, ends), Ok(0));
        }
        for (i, j, ends, fault) in [
            (1, 3, &[6][..], Fault::BelowShortest(0)),
            (4, 4, &[6], Fault::AboveLongest(0)),
            (2, 3, &[6], Fault::BelowShortest(1)),
            (0, 4, &[6], Fault::AboveLongest(1)),
            (2, 2, &[3, 6], Fault::BelowShortest(2)),
            (2, 2, &[6], Fault::AboveLongest(2)),
            (3, 0, &[3, 6], Fault::RenovateFalls),
        ] {
            assert_eq!(price_of(&sheet, i, j, ends), refused([fault]), "{i} {j}");
        }
    }

    #[test]
    fn each_fault_of_the_bytes() {
        let sheet = case_12();
        let right = plan(0, 0, &[2, 4]);
        let changed = |at: usize, byte: u8| {
            let mut plan = right.clone();
            plan[at] = byte;
            price(&sheet, &plan)
        };
        for (at, fault) in [
            (0, Fault::Mark(0)),
            (1, Fault::Mark(1)),
            (2, Fault::Mark(2)),
            (3, Fault::Version(0)),
            (4, Fault::Version(1)),
            (18, Fault::Lacks(Missing::Ends)),
        ] {
            assert_eq!(changed(at, 2), refused([fault]));
        }
        for at in TOTAL_BYTES {
            assert_eq!(changed(at, 255), Ok(240_000));
        }
        let long = [&right[..], &[0]].concat();
        assert_eq!(price(&sheet, &long), refused([Fault::LongerThanItsEnds]));
        assert_eq!(answer(&price(&sheet, &long)).packed(), 14 * 4 + 3);
        assert_eq!(price(&sheet, &[]), refused([Fault::Lacks(Missing::Head)]));
    }

    const TOTAL_BYTES: std::ops::Range<usize> = 5..13;

    // The digits of j 2, m 0: renovate for 2 years at 1, and nothing else.
    #[test]
    fn no_replacement() {
        let mut sheet = with_head(2, 0);
        write_all_in(
            &mut sheet,
            1,
            &[(SHORTEST, 2), (LONGEST, 2), (ELECTRICITY, 1)],
        );
        write_all_in(&mut sheet, 0, &[(INVESTMENT, 9)]);
        assert_eq!(price_of(&sheet, 0, 2, &[]), Ok(20_000));
    }

    #[test]
    fn a_refused_sheet_comes_before_the_plan() {
        let outcome = price(&with_head(301, 0), &[]);
        assert_eq!(outcome, Err(Refusal::OfSheet(Answer::refused(3))));
        assert_eq!(answer(&outcome), Answer::refused(3));
    }

    // The chain is that of the paper's Table 5; cost.rs has its arcs beside those of the table.
    #[test]
    fn the_case_study_of_the_paper() {
        let outcome = price_of(&paper_sheet(), 0, 0, &[60, 120, 180, 240, 300]);
        assert_eq!(outcome, Ok(38_979_215_559));
    }
}
