//! Chains that are feasible under given lives, found by a walk of their own.

use crate::plan::Chain;
use crate::random::Random;
use crate::sheet::*;

/// The horizon, and of each option the shortest and longest life; both 0 if it is not offered.
#[derive(Clone)]
pub struct Lives {
    pub horizon: i64,
    pub of: [[i64; 2]; OPTIONS],
}

impl Lives {
    /// Those of a sheet that passes the check.
    pub fn on(sheet: &[u8]) -> Lives {
        let life = |option, inner| unsigned_in(sheet, option, inner);
        Lives {
            horizon: unsigned(sheet, HORIZON),
            of: [0, 1, 2].map(|option| [SHORTEST, LONGEST].map(|inner| life(option, inner))),
        }
    }

    /// One number is another one. A chain that is feasible under the result is feasible under
    /// the lives themselves, or breaks one rule.
    pub fn beside(&self, random: &mut Random) -> Lives {
        let mut lives = self.clone();
        let option = random.below(OPTIONS);
        let [shortest, longest] = &mut lives.of[option];
        match random.below(6) {
            _ if *longest == 0 => [*shortest, *longest] = [1, self.horizon],
            0 | 1 if *shortest > 1 => *shortest -= 1,
            0..=3 => *longest += 1,
            4 => lives.horizon = (self.horizon - 1 - random.below(3) as i64).max(1),
            _ => lives.horizon += 1 + random.below(3) as i64,
        }
        lives
    }

    /// The lengths of 1 or more that an option offers up to some number of years.
    fn lengths(&self, option: usize, most: i64) -> impl Iterator<Item = i64> {
        let [shortest, longest] = self.of[option];
        shortest.max(1)..=longest.min(most)
    }
}

/// For each year up to the horizon, whether replacements alone, or nothing, lead from it there.
fn leading(lives: &Lives) -> Vec<bool> {
    let horizon = lives.horizon;
    let mut leads = vec![false; horizon as usize + 1];
    leads[horizon as usize] = true;
    for year in (0..horizon).rev() {
        let mut lengths = lives.lengths(2, horizon - year);
        leads[year as usize] = lengths.any(|length| leads[(year + length) as usize]);
    }
    leads
}

/// Every i and j from which the horizon can be reached.
fn beginnings(lives: &Lives, leads: &[bool]) -> Vec<(i64, i64)> {
    let mut list = Vec::new();
    for i in std::iter::once(0).chain(lives.lengths(0, lives.horizon)) {
        let ends = lives.lengths(1, lives.horizon - i).map(|length| i + length);
        for j in std::iter::once(i).chain(ends) {
            if leads[j as usize] {
                list.push((i, j));
            }
        }
    }
    list
}

/// Those with the wished activities, if there are such, else all: the wish is drawn, so that
/// rare combinations are met often.
fn wished(random: &mut Random, list: Vec<(i64, i64)>, horizon: i64) -> Vec<(i64, i64)> {
    let [maintained, renovated, replaced] = [0; 3].map(|_| random.below(2) == 0);
    let as_wished = |&&(i, j): &&(i64, i64)| {
        (i > 0) == maintained && (j > i) == renovated && (j < horizon) == replaced
    };
    let some: Vec<(i64, i64)> = list.iter().filter(as_wished).copied().collect();
    if some.is_empty() {
        list
    } else {
        some
    }
}

/// One of a list, half of the time its first or last.
fn one_of<T: Copy>(random: &mut Random, list: &[T]) -> Option<T> {
    let last = list.len().checked_sub(1)?;
    let at = match random.below(4) {
        0 => 0,
        1 => last,
        _ => random.below(list.len()),
    };
    Some(list[at])
}

/// A feasible chain, with lengths often at the ends of what is possible; none if there is none.
pub fn some_chain(random: &mut Random, lives: &Lives) -> Option<Chain> {
    let leads = leading(lives);
    let list = wished(random, beginnings(lives, &leads), lives.horizon);
    let (i, j) = one_of(random, &list)?;
    let mut ends = Vec::new();
    let mut year = j;
    while year < lives.horizon {
        let next: Vec<i64> = lives
            .lengths(2, lives.horizon - year)
            .map(|length| year + length)
            .filter(|&end| leads[end as usize])
            .collect();
        year = one_of(random, &next)?;
        ends.push(year);
    }
    Some(Chain { i, j, ends })
}

#[cfg(test)]
mod tests {
    use super::*;
    use crate::check::checked;
    use crate::plan::written;
    use crate::price::feasible_chain;
    use crate::sheets::{chained_sheet, corner_sheet, small_sheet};

    /// How many faults the chains have, at most and in all, of as many sheets as have one.
    fn faults(make: fn(&mut Random) -> Vec<u8>, beside: bool) -> (usize, usize) {
        let mut random = Random(14);
        let mut counts = Vec::new();
        for _ in 0..500 {
            let sheet = make(&mut random);
            let mut lives = Lives::on(&sheet);
            if beside {
                lives = lives.beside(&mut random);
            }
            if let Some(chain) = some_chain(&mut random, &lives) {
                let read = checked(&sheet).expect("a valid sheet");
                let judged = feasible_chain(&read, &written(&chain, 0));
                counts.push(judged.err().map_or(0, |faults| faults.len()));
            }
        }
        assert!(counts.len() > 100);
        (
            counts.iter().copied().max().unwrap_or(0),
            counts.iter().sum(),
        )
    }

    #[test]
    fn chains_are_feasible() {
        for make in [small_sheet, chained_sheet, corner_sheet] {
            assert_eq!(faults(make, false), (0, 0));
        }
    }

    #[test]
    fn chains_beside_break_one_rule() {
        let (most, all) = faults(chained_sheet, true);
        assert_eq!(most, 1);
        assert!(all > 100);
    }

    // Lives 3 to 4: 5 years cannot be filled, 7 can, by 3 and 4 or by 4 and 3.
    #[test]
    fn chains_by_hand() {
        let mut random = Random(15);
        let mut lives = Lives {
            horizon: 5,
            of: [[0, 0], [0, 0], [3, 4]],
        };
        assert_eq!(some_chain(&mut random, &lives), None);
        lives.horizon = 7;
        for _ in 0..20 {
            let chain = some_chain(&mut random, &lives).expect("a chain");
            assert_eq!((chain.i, chain.j), (0, 0));
            assert!(chain.ends == [3, 7] || chain.ends == [4, 7]);
        }
    }
}
