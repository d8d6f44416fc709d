//! Natural numbers of any size, with what exact values need: products with a word, sums and
//! comparisons.

use std::cmp::Ordering;
use std::iter::repeat;

/// The digits to the base 2^64, the lowest first; the last one is not 0.
#[derive(Clone, Debug, PartialEq, Eq)]
pub struct Natural(Vec<u64>);

impl Natural {
    pub fn zero() -> Natural {
        Natural(Vec::new())
    }

    pub fn one() -> Natural {
        Natural(vec![1])
    }

    pub fn multiply(&mut self, factor: u64) {
        let mut carry = 0;
        for digit in &mut self.0 {
            let sum = u128::from(*digit) * u128::from(factor) + carry;
            *digit = sum as u64;
            carry = sum >> 64;
        }
        self.0.push(carry as u64);
        self.trim();
    }

    pub fn times(&self, factor: u64) -> Natural {
        let mut product = self.clone();
        product.multiply(factor);
        product
    }

    pub fn add(&mut self, other: &Natural) {
        self.add_times(other, 1);
    }

    /// Adds the product of another number and a word. A digit, the product of two and a carry
    /// below 2^64 are below 2^128 together.
    pub fn add_times(&mut self, other: &Natural, factor: u64) {
        let digits = self.0.len().max(other.0.len() + 1) + 1;
        self.0.resize(digits, 0);
        let others = other.0.iter().chain(repeat(&0));
        let mut carry = 0;
        for (digit, &other) in self.0.iter_mut().zip(others) {
            let sum = u128::from(*digit) + u128::from(other) * u128::from(factor) + carry;
            *digit = sum as u64;
            carry = sum >> 64;
        }
        self.trim();
    }

    fn trim(&mut self) {
        while self.0.last() == Some(&0) {
            self.0.pop();
        }
    }
}

impl Ord for Natural {
    fn cmp(&self, other: &Natural) -> Ordering {
        let by_length = self.0.len().cmp(&other.0.len());
        by_length.then_with(|| self.0.iter().rev().cmp(other.0.iter().rev()))
    }
}

impl PartialOrd for Natural {
    fn partial_cmp(&self, other: &Natural) -> Option<Ordering> {
        Some(self.cmp(other))
    }
}

#[cfg(test)]
impl From<u128> for Natural {
    fn from(value: u128) -> Natural {
        let mut number = Natural(vec![value as u64, (value >> 64) as u64]);
        number.trim();
        number
    }
}

#[cfg(test)]
mod tests {
    use super::*;
    use crate::random::Random;

    fn natural(value: u128) -> Natural {
        value.into()
    }

    /// A number of up to so many bits.
    fn drawn(random: &mut Random, bits: u32) -> u128 {
        let both = u128::from(random.next()) << 64 | u128::from(random.next());
        both >> (128 - bits) >> random.below(bits as usize)
    }

    #[test]
    fn as_in_two_words() {
        let mut random = Random(19);
        for _ in 0..10_000 {
            let [a, b] = [0; 2].map(|_| drawn(&mut random, 63));
            let [c, d] = [0; 2].map(|_| drawn(&mut random, 126));
            assert_eq!(natural(a).times(b as u64), natural(a * b));
            let mut sum = natural(c);
            sum.add(&natural(d));
            assert_eq!(sum, natural(c + d));
            let mut sum = natural(c);
            sum.add_times(&natural(a), b as u64);
            assert_eq!(sum, natural(c + a * b));
            assert_eq!(natural(c).cmp(&natural(d)), c.cmp(&d));
            assert_eq!(natural(c).cmp(&natural(c)), Ordering::Equal);
        }
    }

    #[test]
    fn nothing_is_left_of_a_product_with_0() {
        let mut number = natural(u128::MAX);
        number.add_times(&natural(u128::MAX), 0);
        assert_eq!(number, natural(u128::MAX));
        number.multiply(0);
        assert_eq!(number, Natural::zero());
        number.multiply(7);
        assert_eq!(number, Natural::zero());
        number.add_times(&Natural::zero(), 7);
        assert_eq!(number, Natural::zero());
    }

    // (2^64 − 1)² is 2^128 − 2^65 + 1; with 2^65 more, less 1, all digits carry.
    #[test]
    fn carries() {
        let most = natural(u64::MAX.into());
        let mut number = most.times(u64::MAX);
        assert_eq!(number.0, [1, u64::MAX - 1]);
        number.add_times(&most, 2);
        assert_eq!(number.0, [u64::MAX, u64::MAX]);
        number.add(&Natural::one());
        assert_eq!(number.0, [0, 0, 1]);
    }

    // 3 × 2^200 is below 2^202 and above 2^201, and a longer number is the larger one.
    #[test]
    fn order_of_long_numbers() {
        let power = |of: u64, steps| {
            let mut number = Natural::one();
            (0..steps).for_each(|_| number.multiply(of));
            number
        };
        let three = power(2, 200).times(3);
        assert!(three < power(2, 202));
        assert!(three > power(2, 201));
        assert_eq!(power(4, 300), power(2, 600));
        assert!(power(10, 300) < power(2, 1_000));
        assert!(power(10, 301) < power(2, 1_000));
        assert!(power(10, 302) > power(2, 1_000));
    }
}
