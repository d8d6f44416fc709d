//! The lists that budgeting may write to, amid noise.

use crate::budget::{Budget, Call};
use crate::library;
use crate::noisy::Noisy;
use crate::random::Random;

#[derive(Clone)]
pub struct Lists {
    units: Noisy<u64>,
    cents: Noisy<u64>,
}

impl Lists {
    pub fn new(random: &mut Random, call: Call) -> Lists {
        Lists {
            units: Noisy::new(random, call.units_count, Random::next),
            cents: Noisy::new(random, call.cents_count, Random::next),
        }
    }

    /// What the library answers; it may write to both.
    pub fn call(&mut self, sheet: &[u8], plan: &[u8], general: u64) -> u64 {
        let [units, cents] = [&mut self.units, &mut self.cents].map(Noisy::lent);
        library::budget(sheet, plan, general, units, cents)
    }

    pub fn write(&mut self, budget: &Budget) {
        let lists = [
            (&mut self.units, &budget.units),
            (&mut self.cents, &budget.cents),
        ];
        for (list, words) in lists {
            list.lent()[..words.len()].copy_from_slice(words);
        }
    }

    /// What the first words of units add up to.
    pub fn sum(&mut self, words: usize) -> u128 {
        let units = self.units.lent()[..words].iter();
        units.map(|&word| u128::from(word)).sum()
    }

    /// Where these lists are not as expected.
    pub fn difference(&self, expected: &Lists) -> Option<String> {
        let of_units = self.units.difference(&expected.units, "word of units");
        of_units.or_else(|| self.cents.difference(&expected.cents, "word of cents"))
    }
}

#[cfg(test)]
mod tests {
    use super::*;

    #[test]
    fn lists_by_hand() {
        let call = Call {
            general: 0,
            units_count: 5,
            cents_count: 4,
        };
        let mut lists = Lists::new(&mut Random(22), call);
        let mut before = lists.clone();
        assert_eq!(lists.difference(&before), None);
        lists.write(&Budget {
            total: 0,
            units: vec![u64::MAX, 2, 3],
            cents: vec![7],
        });
        assert_eq!(lists.units.lent()[..3], [u64::MAX, 2, 3]);
        assert_eq!(lists.units.lent()[3..], before.units.lent()[3..]);
        assert_eq!(lists.cents.lent()[0], 7);
        assert_eq!(lists.cents.lent()[1..], before.cents.lent()[1..]);
        assert_eq!(lists.sum(3), (1 << 64) + 4);
    }

    #[test]
    fn a_change_of_either_is_seen() {
        let call = Call {
            general: 0,
            units_count: 3,
            cents_count: 3,
        };
        let lists = Lists::new(&mut Random(23), call);
        let mut other = lists.clone();
        other.units.lent()[2] ^= 1;
        assert!(other.difference(&lists).is_some());
        let mut other = lists.clone();
        other.cents.lent()[2] ^= 1;
        assert!(other.difference(&lists).is_some());
    }
}
