//! Sheets of either version that pass every check, many of their fields at a limit.

use crate::random::Random;
use crate::sheet::*;

/// The fields of the payments that have an ageing: amount, inflation, ageing.
pub const FLOWS: [[Field; 3]; 2] = [
    [MAINTENANCE, MAINTENANCE_INFLATION, MAINTENANCE_AGEING],
    [ELECTRICITY, ELECTRICITY_INFLATION, ELECTRICITY_AGEING],
];

/// From which ranges the fields are drawn, and how.
pub struct Shape {
    /// Draws from a lowest to a highest value.
    pub draw: fn(&mut Random, i64, i64) -> i64,
    pub longest_life: i64,
    /// The highest age of an overhaul.
    pub oldest: i64,
    pub fewest_overhauls: usize,
}

/// Of version 1 or 2, each half of the time.
pub fn some_layout(random: &mut Random) -> Layout {
    LAYOUTS[random.below(LAYOUTS.len())]
}

pub fn valid_sheet(random: &mut Random) -> Vec<u8> {
    let shape = Shape {
        draw: Random::near_an_end,
        longest_life: 120,
        oldest: 119,
        fewest_overhauls: 0,
    };
    shaped_sheet(random, &shape)
}

pub fn shaped_sheet(random: &mut Random, shape: &Shape) -> Vec<u8> {
    let rate = (shape.draw)(random, 0, 200_000);
    let horizon = (shape.draw)(random, 1, 300);
    let layout = some_layout(random);
    let mut drawing = Drawing {
        random,
        shape,
        rate,
        sheet: layout.with_head(horizon, rate),
    };
    for option in 0..OPTIONS {
        drawing.lives(option);
        drawing.investment(option);
        drawing.flows(option);
        drawing.overhauls(option);
        if layout.has(REMOVAL) {
            drawing.removal(option);
        }
    }
    drawing.sheet
}

struct Drawing<'a> {
    random: &'a mut Random,
    shape: &'a Shape,
    rate: i64,
    sheet: Vec<u8>,
}

impl Drawing<'_> {
    fn draw(&mut self, low: i64, high: i64) -> i64 {
        (self.shape.draw)(self.random, low, high)
    }

    fn amount(&mut self) -> i64 {
        self.draw(0, 1_000_000_000)
    }

    fn inflation(&mut self) -> i64 {
        self.draw(-100_000, self.rate)
    }

    fn write(&mut self, option: usize, inner: Field, value: i64) {
        write_in(&mut self.sheet, option, inner, value);
    }

    fn lives(&mut self, option: usize) {
        if self.random.below(4) > 0 {
            let shortest = self.draw(1, self.shape.longest_life);
            let longest = self.draw(shortest, self.shape.longest_life);
            self.write(option, SHORTEST, shortest);
            self.write(option, LONGEST, longest);
        }
    }

    fn investment(&mut self, option: usize) {
        let inflation = self.inflation();
        let amount = self.amount();
        self.write(option, INVESTMENT, amount);
        self.write(option, INVESTMENT_INFLATION, inflation);
    }

    fn flows(&mut self, option: usize) {
        for [amount_field, inflation_field, ageing_field] in FLOWS {
            let inflation = self.inflation();
            let most = largest_partner(self.rate, inflation).min(300_000);
            let amount = self.amount();
            let ageing = self.draw(0, most);
            self.write(option, amount_field, amount);
            self.write(option, inflation_field, inflation);
            self.write(option, ageing_field, ageing);
        }
    }

    /// The ages rise and leave room for those that follow.
    fn overhauls(&mut self, option: usize) {
        let fewest = self.shape.fewest_overhauls;
        let count = fewest + self.random.below(OVERHAULS + 1 - fewest);
        let inflation = self.inflation();
        let mut age = 0;
        self.write(option, OVERHAUL_INFLATION, inflation);
        self.write(option, OVERHAUL_COUNT, count as i64);
        for entry in 0..count {
            let following = (count - entry - 1) as i64;
            age = self.draw(age + 1, self.shape.oldest - following);
            let amount = self.amount();
            self.write(option, overhaul_age(entry), age);
            self.write(option, overhaul_amount(entry), amount);
        }
    }

    fn removal(&mut self, option: usize) {
        let inflation = self.inflation();
        let amount = self.amount();
        self.write(option, REMOVAL, amount);
        self.write(option, REMOVAL_INFLATION, inflation);
    }
}

/// For an inflation f, the largest ageing g with (10^6 + f)(10^6 + g) ≤ 10^6 (10^6 + r);
/// for an ageing, the largest inflation. Any number will do where the factor is not positive.
pub fn largest_partner(rate: i64, other: i64) -> i64 {
    let million = 1_000_000;
    million * (million + rate) / (million + other).max(1) - million
}

#[cfg(test)]
mod tests {
    use super::*;
    use crate::check::check;

    #[test]
    fn valid_sheets_pass() {
        let mut random = Random(7);
        for _ in 0..10_000 {
            assert_eq!(check(&valid_sheet(&mut random)).number, 0);
        }
    }

    // 1,000,000 × 1,040,000 is the limit itself; 900,000 × 1,155,556 is above it.
    #[test]
    fn largest_partner_by_hand() {
        assert_eq!(largest_partner(40_000, 0), 40_000);
        assert_eq!(largest_partner(40_000, 40_000), 0);
        assert_eq!(largest_partner(40_000, -100_000), 155_555);
        assert_eq!(largest_partner(200_000, -100_000), 333_333);
    }
}
