//! The exact value of a factor as a fraction, how far from it a factor may lie, and what wrong
//! rules would give in its place. In year y the fraction is 10^12 × 10^(6y) / (10^6 + rate)^y.

use crate::factor::{step, Rounding, AT_ONCE, MILLION};
use crate::natural::Natural;

/// Rules that a factor must not follow.
#[derive(Clone, Copy, Debug, PartialEq, Eq, PartialOrd, Ord)]
pub enum WrongRule {
    EachStepToTheNearest,
    EachStepDown,
    /// The power is rounded up, and the steps are not.
    UpAtTheEnd,
}

pub const WRONG_RULES: [WrongRule; 3] = [
    WrongRule::EachStepToTheNearest,
    WrongRule::EachStepDown,
    WrongRule::UpAtTheEnd,
];

/// The factors of a rate, a year at a time.
pub struct Walk {
    rate: u64,
    pub year: u64,
    /// By the rule.
    pub factor: u64,
    to_the_nearest: u64,
    down: u64,
    numerator: Natural,
    denominator: Natural,
}

impl Walk {
    /// In year 0.
    pub fn at(rate: u64) -> Walk {
        Walk {
            rate,
            year: 0,
            factor: AT_ONCE,
            to_the_nearest: AT_ONCE,
            down: AT_ONCE,
            numerator: Natural::one().times(AT_ONCE),
            denominator: Natural::one(),
        }
    }

    pub fn next_year(&mut self) {
        self.year += 1;
        self.factor = step(self.factor, self.rate, Rounding::Up);
        self.to_the_nearest = step(self.to_the_nearest, self.rate, Rounding::Nearest);
        self.down = step(self.down, self.rate, Rounding::Down);
        self.numerator.multiply(MILLION);
        self.denominator.multiply(MILLION + self.rate);
    }

    fn is_below_exact(&self, factor: u64) -> bool {
        self.denominator.times(factor) < self.numerator
    }

    fn is_far_above_exact(&self, factor: u64) -> bool {
        let mut most = self.numerator.clone();
        most.add_times(&self.denominator, self.year);
        self.denominator.times(factor) > most
    }

    /// What is wrong with a factor: each step rounds up by less than 1, and later steps make no
    /// more of that.
    pub fn fault(&self, factor: u64) -> Option<&'static str> {
        if self.is_below_exact(factor) {
            Some("is below the exact value")
        } else if self.is_far_above_exact(factor) {
            Some("is above the exact value by more than its year")
        } else {
            None
        }
    }

    /// Whether the rule gives another factor than a wrong one. It never gives less than the power
    /// rounded up, so it gives more if 1 less is still not below the exact value.
    pub fn tells_from(&self, wrong: WrongRule) -> bool {
        match wrong {
            WrongRule::EachStepToTheNearest => self.factor != self.to_the_nearest,
            WrongRule::EachStepDown => self.factor != self.down,
            WrongRule::UpAtTheEnd => !self.is_below_exact(self.factor - 1),
        }
    }
}

#[cfg(test)]
mod tests {
    use super::*;

    fn walked(rate: u64, year: u64) -> Walk {
        let mut walk = Walk::at(rate);
        (0..year).for_each(|_| walk.next_year());
        walk
    }

    // At 20 per cent, year 3: 10^12 / 1.728 is 578,703,703,703.70.
    #[test]
    fn the_limits_of_a_factor() {
        let walk = walked(200_000, 3);
        assert_eq!(walk.factor, 578_703_703_705);
        let below = Some("is below the exact value");
        assert_eq!(walk.fault(578_703_703_703), below);
        assert_eq!(walk.fault(578_703_703_704), None);
        assert_eq!(walk.fault(578_703_703_706), None);
        let above = Some("is above the exact value by more than its year");
        assert_eq!(walk.fault(578_703_703_707), above);
    }

    // The value is whole, so that both limits are reached.
    #[test]
    fn the_limits_at_rate_0() {
        let walk = walked(0, 300);
        for (factor, holds) in [
            (AT_ONCE - 1, false),
            (AT_ONCE, true),
            (AT_ONCE + 300, true),
            (AT_ONCE + 301, false),
        ] {
            assert_eq!(walk.fault(factor).is_none(), holds);
        }
    }

    #[test]
    fn the_fraction_of_two_years() {
        let walk = walked(40_000, 2);
        assert_eq!(walk.numerator, 10_u128.pow(24).into());
        assert_eq!(walk.denominator, (1_040_000_u128 * 1_040_000).into());
    }

    // At 20 per cent the powers are 833,333,333,333.33, 694,444,444,444.44 and 578,703,703,703.70.
    // The steps end in ..334, ..445 and ..705 if they are rounded up, and in ..333, ..444 and ..703
    // if they are rounded down or to the nearest. At 5 per cent the first is 952,380,952,380.95.
    #[test]
    fn wrong_rules_by_hand() {
        use WrongRule::*;
        for (rate, year, told) in [
            (200_000, 0, &[][..]),
            (200_000, 1, &[EachStepToTheNearest, EachStepDown]),
            (200_000, 2, &[EachStepToTheNearest, EachStepDown]),
            (200_000, 3, &WRONG_RULES),
            (50_000, 1, &[EachStepDown]),
            (0, 300, &[]),
        ] {
            let walk = walked(rate, year);
            for wrong in WRONG_RULES {
                assert_eq!(walk.tells_from(wrong), told.contains(&wrong));
            }
        }
    }
}
