//! The chain of least rounded total, by a list of all feasible chains. It takes long on a horizon
//! of more than some ten years.

use crate::cost::{arc_cost, fault, Arc};
use crate::plan::Chain;
use crate::planner::{Choice, Planned, Ties};
use crate::sheet::Sheet;
use std::collections::HashMap;

/// Cost of each arc without fault, by option, start and end.
struct Costs(HashMap<(usize, i64, i64), u64>);

impl Costs {
    fn on(sheet: &Sheet) -> Costs {
        let mut costs = HashMap::new();
        for option in 0..3 {
            for start in 0..=sheet.horizon {
                for end in start..=sheet.horizon {
                    let arc = Arc {
                        option: option as u64,
                        start: start as u64,
                        end: end as u64,
                    };
                    if fault(sheet, arc).is_none() {
                        costs.insert((option, start, end), arc_cost(sheet, arc));
                    }
                }
            }
        }
        Costs(costs)
    }

    fn offered(&self, option: usize, start: i64, end: i64) -> bool {
        self.0.contains_key(&(option, start, end))
    }

    fn total(&self, chain: &Chain) -> u64 {
        let activities = chain.activities().into_iter();
        activities.map(|activity| self.0[&activity]).sum()
    }
}

/// Every list of replacement ends from a year to the horizon; at the horizon, the empty list.
fn all_ends(costs: &Costs, horizon: i64, from: i64) -> Vec<Vec<i64>> {
    if from == horizon {
        return vec![Vec::new()];
    }
    let mut list = Vec::new();
    for end in (from + 1..=horizon).filter(|&end| costs.offered(2, from, end)) {
        for rest in all_ends(costs, horizon, end) {
            list.push([vec![end], rest].concat());
        }
    }
    list
}

fn all_chains(costs: &Costs, horizon: i64) -> Vec<Chain> {
    let mut list = Vec::new();
    for i in (0..=horizon).filter(|&i| costs.offered(0, 0, i)) {
        for j in (i..=horizon).filter(|&j| costs.offered(1, i, j)) {
            let ends = all_ends(costs, horizon, j).into_iter();
            list.extend(ends.map(|ends| Chain { i, j, ends }));
        }
    }
    list
}

/// Those of least total, with it; none of an empty list.
fn least(costs: &Costs, chains: Vec<Chain>) -> Option<(u64, Vec<Chain>)> {
    let least = chains.iter().map(|chain| costs.total(chain)).min()?;
    let of_least = |chain: &Chain| costs.total(chain) == least;
    Some((least, chains.into_iter().filter(of_least).collect()))
}

/// The years in which the activities end. Of two lists of one horizon neither begins with the
/// other, so the tie rule takes the larger one.
fn years(chain: &Chain) -> Vec<i64> {
    [&[chain.i, chain.j], &chain.ends[..]].concat()
}

fn choice(costs: &Costs, horizon: i64) -> Option<Choice> {
    let (total, chains) = least(costs, all_chains(costs, horizon))?;
    let chain = chains.iter().max_by_key(|chain| years(chain))?.clone();
    let same_i = |other: &&Chain| other.i == chain.i;
    let same_j = |other: &&Chain| other.i == chain.i && other.j == chain.j;
    let ties = Ties {
        of_i: chains.iter().any(|other| !same_i(&other)),
        of_j: chains.iter().filter(same_i).any(|other| !same_j(&other)),
        of_ends: chains.iter().filter(same_j).count() > 1,
    };
    Some(Choice { chain, total, ties })
}

fn tail(costs: &Costs, horizon: i64, from: i64) -> Option<u64> {
    let lists = all_ends(costs, horizon, from).into_iter();
    let totals = lists.map(|ends| replacements_total(costs, from, &ends));
    totals.min()
}

fn replacements_total(costs: &Costs, from: i64, ends: &[i64]) -> u64 {
    let starts = std::iter::once(&from).chain(ends);
    let arcs = starts.zip(ends).map(|(&start, &end)| (2, start, end));
    arcs.map(|arc| costs.0[&arc]).sum()
}

pub fn feasible_chains(sheet: &Sheet) -> Vec<Chain> {
    all_chains(&Costs::on(sheet), sheet.horizon)
}

pub fn listed(sheet: &Sheet) -> Planned {
    let costs = Costs::on(sheet);
    let horizon = sheet.horizon;
    Planned {
        tails: (0..=horizon)
            .map(|from| tail(&costs, horizon, from))
            .collect(),
        choice: choice(&costs, horizon),
    }
}

#[cfg(test)]
mod tests {
    use super::*;
    use crate::cases::*;
    use crate::check::checked;

    fn sheet(bytes: Vec<u8>) -> Sheet {
        checked(&bytes).expect("a sheet")
    }

    #[test]
    fn chains_of_case_12() {
        let costs = Costs::on(&sheet(case_12()));
        let mut totals: Vec<(Vec<i64>, u64)> = all_chains(&costs, 4)
            .into_iter()
            .map(|chain| (years(&chain), costs.total(&chain)))
            .collect();
        totals.sort();
        let expected = [
            (vec![0, 0, 1, 2, 3, 4], 440_000),
            (vec![0, 0, 1, 2, 4], 340_000),
            (vec![0, 0, 1, 3, 4], 340_000),
            (vec![0, 0, 1, 4], 390_000),
            (vec![0, 0, 2, 3, 4], 340_000),
            (vec![0, 0, 2, 4], 240_000),
            (vec![0, 0, 3, 4], 390_000),
        ];
        assert_eq!(totals, expected);
    }

    // 3 more for each replacement that ends before year 4.
    #[test]
    fn case_12_with_removal_of_3() {
        let choice = listed(&sheet(case_12_with_removal())).choice;
        let chosen = choice.map(|choice| (years(&choice.chain), choice.total));
        assert_eq!(chosen, Some((vec![0, 0, 2, 4], 270_000)));
    }

    #[test]
    fn cases_9_to_12() {
        let chosen = |bytes| {
            let choice = listed(&sheet(bytes)).choice;
            choice.map(|choice| (years(&choice.chain), choice.total))
        };
        assert_eq!(chosen(case_9()), None);
        assert_eq!(chosen(case_10()), Some((vec![0, 0, 4, 7], 0)));
        assert_eq!(chosen(case_11()), Some((vec![0, 0, 2, 3], 30_000)));
        assert_eq!(chosen(case_12()), Some((vec![0, 0, 2, 4], 240_000)));
    }
}
