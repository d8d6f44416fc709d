//! The buffers that planning may write to, amid noise.

use crate::library;
use crate::noisy::Noisy;
use crate::random::Random;

#[derive(Clone)]
pub struct Lent {
    plan: Noisy<u8>,
    words: Noisy<u64>,
}

impl Lent {
    pub fn new(random: &mut Random, plan_length: usize, words_count: usize) -> Lent {
        Lent {
            plan: Noisy::new(random, plan_length, Random::byte),
            words: Noisy::new(random, words_count, Random::next),
        }
    }

    pub fn plan_length(&self) -> usize {
        self.plan.count()
    }

    pub fn words_count(&self) -> usize {
        self.words.count()
    }

    pub fn plan(&mut self) -> &mut [u8] {
        self.plan.lent()
    }

    /// What the library answers; it may write to both.
    pub fn call(&mut self, sheet: &[u8]) -> u64 {
        library::plan(sheet, self.plan.lent(), self.words.lent())
    }

    pub fn write_plan(&mut self, plan: &[u8]) {
        self.plan()[..plan.len()].copy_from_slice(plan);
    }

    /// The words of the years that have a tail; those behind them are left.
    pub fn write_words(&mut self, tails: &[Option<u64>]) {
        let words = &mut self.words.lent()[..tails.len()];
        for (word, tail) in words.iter_mut().zip(tails) {
            *word = tail.unwrap_or(u64::MAX);
        }
    }

    /// Where these buffers are not as expected.
    pub fn difference(&self, expected: &Lent) -> Option<String> {
        let of_plan = self.plan.difference(&expected.plan, "plan byte");
        of_plan.or_else(|| self.words.difference(&expected.words, "word"))
    }
}

#[cfg(test)]
mod tests {
    use super::*;

    #[test]
    fn words_by_hand() {
        let mut lent = Lent::new(&mut Random(19), 30, 602);
        let mut before = lent.clone();
        assert_eq!(lent.difference(&before), None);
        lent.write_words(&[Some(7), None, Some(0)]);
        assert_eq!(lent.words.lent()[..3], [7, u64::MAX, 0]);
        assert_eq!(lent.words.lent()[3..], before.words.lent()[3..]);
        assert_eq!(lent.plan(), before.plan());
    }

    #[test]
    fn a_change_of_either_is_seen() {
        let lent = Lent::new(&mut Random(20), 5, 3);
        let mut other = lent.clone();
        other.plan()[4] ^= 1;
        assert!(other.difference(&lent).is_some());
        let mut other = lent.clone();
        other.words.lent()[2] ^= 1;
        assert!(other.difference(&lent).is_some());
    }
}
