//! A buffer that a call may write to. It lies inside a larger one, and both are filled with noise,
//! so that everything that the call writes can be seen.

use crate::random::Random;
use std::fmt::Display;
use std::ops::Range;

/// There are up to this many bytes or words of noise on each side.
const MOST_AROUND: usize = 40;

#[derive(Clone)]
pub struct Noisy<T> {
    all: Vec<T>,
    lent: Range<usize>,
}

impl<T: Copy + PartialEq + Display> Noisy<T> {
    pub fn new(random: &mut Random, count: usize, mut noise: impl FnMut(&mut Random) -> T) -> Self {
        let [before, after] = [0; 2].map(|_| 1 + random.below(MOST_AROUND));
        let all = (0..before + count + after).map(|_| noise(random)).collect();
        Noisy {
            all,
            lent: before..before + count,
        }
    }

    pub fn count(&self) -> usize {
        self.lent.len()
    }

    pub fn lent(&mut self) -> &mut [T] {
        &mut self.all[self.lent.clone()]
    }

    /// The first place where the content is not as expected, counted from the beginning of the
    /// buffer, with what the places are called.
    pub fn difference(&self, expected: &Self, called: &str) -> Option<String> {
        let mut pairs = self.all.iter().zip(&expected.all);
        let place = pairs.position(|(given, expected)| given != expected)?;
        let at = place as isize - self.lent.start as isize;
        let [given, expected] = [self, expected].map(|noisy| noisy.all[place]);
        Some(format!("{called} {at} is {given}, expected {expected}"))
    }
}

#[cfg(test)]
mod tests {
    use super::*;

    #[test]
    fn every_change_is_seen() {
        let noisy = Noisy::new(&mut Random(20), 5, Random::next);
        assert_eq!(noisy.difference(&noisy, "word"), None);
        for at in 0..noisy.all.len() {
            let mut other = noisy.clone();
            other.all[at] ^= 1 << 63;
            assert!(other.difference(&noisy, "word").is_some());
        }
    }

    #[test]
    fn places_are_counted_from_the_beginning_of_the_buffer() {
        let noisy = Noisy::new(&mut Random(21), 5, |_| 7);
        let mut other = noisy.clone();
        other.lent()[3] = 8;
        let line = "word 3 is 8, expected 7";
        assert_eq!(other.difference(&noisy, "word"), Some(line.into()));
        other.all[noisy.lent.start - 1] = 9;
        let line = "word -1 is 9, expected 7";
        assert_eq!(other.difference(&noisy, "word"), Some(line.into()));
    }
}
