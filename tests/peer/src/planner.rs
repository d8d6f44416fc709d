//! The chain of least rounded total, written from document 01 alone. A dynamic program runs
//! forward from every year to the horizon; the chain is then followed along arcs that lie on a
//! way of least total.

use crate::arc_costs::ArcCosts;
use crate::plan::Chain;
use crate::sheet::Sheet;
use std::cmp::Reverse;

/// Where chains of the least total differ: a chain other than the one chosen has another i; or
/// the same i and another j; or the same i and j and other ends.
#[derive(Clone, Copy, Debug, PartialEq)]
pub struct Ties {
    pub of_i: bool,
    pub of_j: bool,
    pub of_ends: bool,
}

impl Ties {
    pub fn any(self) -> bool {
        self.of_i || self.of_j || self.of_ends
    }
}

#[derive(Clone, Debug, PartialEq)]
pub struct Choice {
    pub chain: Chain,
    pub total: u64,
    pub ties: Ties,
}

/// What there is to plan on a sheet that passes the check.
#[derive(Clone, Debug, PartialEq)]
pub struct Planned {
    /// The least total of replacements alone from each year, 0 to the horizon, to the horizon;
    /// none if no replacements lead there.
    pub tails: Vec<Option<u64>>,
    /// None if no chain is feasible.
    pub choice: Option<Choice>,
}

/// Ends and costs of the arcs from one year.
type Arcs = Vec<(usize, u64)>;

pub fn planned(sheet: &Sheet) -> Planned {
    let horizon = sheet.horizon as usize;
    let costs = ArcCosts::of(sheet, 2);
    let replacements: Vec<Arcs> = (0..=horizon).map(|year| costs.from(year)).collect();
    let tails: Vec<Option<u64>> = (0..=horizon)
        .map(|year| least_way(&replacements, year))
        .collect();
    let onward: Vec<Vec<usize>> = (0..=horizon)
        .map(|year| ends_on_a_least_way(&replacements, &tails, year))
        .collect();
    let beginnings = beginnings(sheet, &ArcCosts::of(sheet, 1), &tails);
    Planned {
        choice: choice(&beginnings, &onward),
        tails,
    }
}

/// i and j of the chain that would be planned if renovations had these costs.
pub fn beginning_with(
    sheet: &Sheet,
    renovations: &ArcCosts,
    tails: &[Option<u64>],
) -> Option<(i64, i64)> {
    let list = beginnings(sheet, renovations, tails);
    best(&list).map(|best| (best.i as i64, best.j as i64))
}

/// The least total of replacements from a year to the last one there is.
fn least_way(replacements: &[Arcs], from: usize) -> Option<u64> {
    let mut reached = vec![None; replacements.len()];
    reached[from] = Some(0);
    for year in from..replacements.len() {
        let Some(so_far) = reached[year] else {
            continue;
        };
        for &(end, cost) in &replacements[year] {
            let total = so_far + cost;
            if reached[end].is_none_or(|known| total < known) {
                reached[end] = Some(total);
            }
        }
    }
    reached[replacements.len() - 1]
}

/// Where a first replacement can end on a way of least total, in rising order.
fn ends_on_a_least_way(replacements: &[Arcs], tails: &[Option<u64>], from: usize) -> Vec<usize> {
    let arcs = replacements[from].iter();
    let lies_on = |&&(end, cost): &&(usize, u64)| {
        let total = tails[end].map(|rest| cost + rest);
        total.is_some() && total == tails[from]
    };
    arcs.filter(lies_on).map(|&(end, _)| end).collect()
}

/// A feasible i and j, with the least total of the chains that have them.
struct Beginning {
    i: usize,
    j: usize,
    total: u64,
}

fn beginnings(sheet: &Sheet, renovations: &ArcCosts, tails: &[Option<u64>]) -> Vec<Beginning> {
    let mut list = Vec::new();
    for (i, maintain) in with_length_0(0, ArcCosts::of(sheet, 0).from(0)) {
        for (j, renovate) in with_length_0(i, renovations.from(i)) {
            if let Some(replace) = tails[j] {
                let total = maintain + renovate + replace;
                list.push(Beginning { i, j, total });
            }
        }
    }
    list
}

fn with_length_0(start: usize, arcs: Arcs) -> Arcs {
    let mut list = vec![(start, 0)];
    list.extend(arcs);
    list
}

/// Of the least total, the one with the largest i, then the largest j.
fn best(beginnings: &[Beginning]) -> Option<&Beginning> {
    let order = |at: &&Beginning| (at.total, Reverse(at.i), Reverse(at.j));
    beginnings.iter().min_by_key(order)
}

fn choice(beginnings: &[Beginning], onward: &[Vec<usize>]) -> Option<Choice> {
    let best = best(beginnings)?;
    let least = || beginnings.iter().filter(|other| other.total == best.total);
    let mut ends = Vec::new();
    let mut of_ends = false;
    let mut year = best.j;
    while let Some(&end) = onward[year].last() {
        of_ends |= onward[year].len() > 1;
        ends.push(end as i64);
        year = end;
    }
    Some(Choice {
        chain: Chain {
            i: best.i as i64,
            j: best.j as i64,
            ends,
        },
        total: best.total,
        ties: Ties {
            of_i: least().any(|other| other.i != best.i),
            of_j: least().any(|other| other.i == best.i && other.j != best.j),
            of_ends,
        },
    })
}

#[cfg(test)]
mod tests {
    use super::*;
    use crate::cases::*;
    use crate::check::checked;
    use crate::old_motors::costs_with_new;
    use crate::sheet::*;

    fn planned_on(sheet: &[u8]) -> Planned {
        planned(&checked(sheet).expect("a sheet"))
    }

    fn assert_chain(sheet: &[u8], i: i64, j: i64, ends: &[i64], total: u64) -> Ties {
        let choice = planned_on(sheet).choice.expect("a chain");
        let ends = ends.to_vec();
        assert_eq!(choice.chain, Chain { i, j, ends });
        assert_eq!(choice.total, total);
        choice.ties
    }

    #[test]
    fn cases_9_to_12() {
        assert_eq!(planned_on(&case_9()).choice, None);
        let ties = assert_chain(&case_10(), 0, 0, &[4, 7], 0);
        assert!(ties.of_ends && !ties.of_i && !ties.of_j);
        assert_chain(&case_11(), 0, 0, &[2, 3], 30_000);
        let ties = assert_chain(&case_12(), 0, 0, &[2, 4], 240_000);
        assert!(!ties.any());
    }

    #[test]
    fn tails_of_cases_9_and_12() {
        let free = Some(0);
        let tails = [None, free, free, None, None, free];
        assert_eq!(planned_on(&case_9()).tails, tails);
        // One year costs 11, two 12, three 28.
        let tails = [240_000, 230_000, 120_000, 110_000, 0].map(Some);
        assert_eq!(planned_on(&case_12()).tails, tails);
    }

    // Two replacements of two years cost 15 and 12; one year costs 14, or 11 up to year 4.
    #[test]
    fn case_12_with_removal_of_3() {
        let sheet = case_12_with_removal();
        assert_chain(&sheet, 0, 0, &[2, 4], 270_000);
        let tails = [270_000, 260_000, 120_000, 110_000, 0].map(Some);
        assert_eq!(planned_on(&sheet).tails, tails);
    }

    // Two years cost an overhaul of 1, and a removal costs 2.
    #[test]
    fn a_removal_puts_a_replacement_off() {
        let mut sheet = lasting_sheet();
        let ties = assert_chain(&sheet, 0, 0, &[2, 4], 40_000);
        assert!(!ties.any());
        write_in(&mut sheet, 2, REMOVAL, 0);
        assert_chain(&sheet, 0, 0, &[1, 2, 3, 4], 0);
    }

    // Free: maintaining for two years and then renovating or replacing for two; the larger j.
    #[test]
    fn three_removals_that_are_not_paid() {
        let ties = assert_chain(&three_removals(), 2, 4, &[], 0);
        assert!(!ties.of_i && ties.of_j && !ties.of_ends);
        let tails = [18_124, 17_253, 0, 0, 0].map(Some);
        assert_eq!(planned_on(&three_removals()).tails, tails);
    }

    // The chain is that of the paper's Tables 5 and 6.
    #[test]
    fn the_case_study_of_the_paper() {
        assert_chain(
            &paper_sheet(),
            0,
            0,
            &[60, 120, 180, 240, 300],
            38_979_215_559,
        );
    }

    // A chain that renovates in year 1 costs 28,865; with new motors it would cost 28,490, and this
    // one 28,495.
    #[test]
    fn old_motors_put_a_renovation_off() {
        let ties = assert_chain(&postponed_sheet(), 2, 3, &[], 28_862);
        assert!(!ties.any());
        assert_eq!(beginning_with_new_motors(&postponed_sheet()), (1, 3));
    }

    // Renovating in year 1 costs 9,621; with new motors it would cost 9,432.
    #[test]
    fn old_motors_are_replaced() {
        let ties = assert_chain(&replaced_sheet(), 1, 1, &[2], 9_525);
        assert!(!ties.any());
        assert_eq!(beginning_with_new_motors(&replaced_sheet()), (1, 2));
    }

    fn beginning_with_new_motors(bytes: &[u8]) -> (i64, i64) {
        let sheet = checked(bytes).expect("a sheet");
        let tails = planned(&sheet).tails;
        beginning_with(&sheet, &costs_with_new(&sheet), &tails).expect("a chain")
    }

    /// T 7, all amounts 0: maintain for 1 to 3 years, renovate for 2, replace for 1 to 2.
    fn free_sheet() -> Vec<u8> {
        let mut sheet = with_head(7, 0);
        for (option, lives) in [[1, 3], [2, 2], [1, 2]].into_iter().enumerate() {
            write_in(&mut sheet, option, SHORTEST, lives[0]);
            write_in(&mut sheet, option, LONGEST, lives[1]);
        }
        sheet
    }

    #[test]
    fn of_equal_totals_the_largest_i_then_j_then_ends() {
        let mut sheet = free_sheet();
        let ties = assert_chain(&sheet, 3, 5, &[7], 0);
        assert!(ties.of_i && ties.of_j && ties.of_ends);
        write_in(&mut sheet, 0, LONGEST, 1);
        assert_chain(&sheet, 1, 3, &[5, 7], 0);
        write_in(&mut sheet, 1, INVESTMENT, 1);
        assert_chain(&sheet, 1, 1, &[3, 5, 7], 0);
        write_in(&mut sheet, 0, INVESTMENT, 1);
        let ties = assert_chain(&sheet, 0, 0, &[2, 4, 6, 7], 0);
        assert!(!ties.of_i && !ties.of_j && ties.of_ends);
    }

    #[test]
    fn without_replacements() {
        let mut sheet = free_sheet();
        write(&mut sheet, HORIZON, 5);
        let ties = assert_chain(&sheet, 3, 5, &[], 0);
        assert!(ties.of_i && ties.of_j && !ties.of_ends);
        write(&mut sheet, HORIZON, 3);
        assert_chain(&sheet, 3, 3, &[], 0);
    }
}
