//! Sheets of one arc in which one division leaves no rest, the least that it can leave, or the
//! most: its quotient is whole, or just above or just below a whole number.

use crate::cost::Arc;
use crate::random::Random;
use crate::sheet::*;
use crate::valid::{largest_partner, some_layout, FLOWS};

const UNITS: i64 = 10_000;
const MILLION: i64 = 1_000_000;
const LARGEST_AMOUNT: i64 = 1_000_000_000;

#[derive(Clone, Copy, Debug, PartialEq, Eq, PartialOrd, Ord)]
pub enum Division {
    /// That of a plain step, of an investment.
    Plain,
    /// The same of a removal.
    Removal,
    /// The first one in service, from the amount itself.
    Ageing,
    /// The same after a plain step that leaves no rest, so that the amount need not be a multiple
    /// of 10,000 units.
    LaterAgeing,
    /// The second one in service, where the first leaves no rest.
    Discount,
}

pub const DIVISIONS: [Division; 5] = [
    Division::Plain,
    Division::Removal,
    Division::Ageing,
    Division::LaterAgeing,
    Division::Discount,
];

#[derive(Clone, Copy, Debug, PartialEq, Eq, PartialOrd, Ord)]
pub enum Rest {
    None,
    Least,
    Most,
}

pub const RESTS: [Rest; 3] = [Rest::None, Rest::Least, Rest::Most];

/// The factors of a payment, in millionths. Growth and ageing have no divisor in common with the
/// discount or with 10, so that rests can be small.
struct Factors {
    growth: i64,
    ageing: i64,
    discount: i64,
}

impl Factors {
    fn draw(random: &mut Random, rate: i64) -> Factors {
        let discount = MILLION + rate;
        let fits = |factor| greatest_divisor(factor, 10 * discount).0 == 1;
        loop {
            let inflation = random.near_an_end(-100_000, rate);
            let most = largest_partner(rate, inflation).min(300_000);
            let growth = MILLION + inflation;
            let ageing = MILLION + random.near_an_end(0, most);
            if fits(growth) && fits(ageing) {
                return Factors {
                    growth,
                    ageing,
                    discount,
                };
            }
        }
    }

    /// An amount that is n times the first number makes a dividend of n times the second; the
    /// third is the divisor.
    fn of(&self, division: Division) -> [i64; 3] {
        let shared = greatest_divisor(UNITS, self.discount).0;
        match division {
            Division::Plain | Division::Removal => [1, UNITS * self.growth, self.discount],
            Division::Ageing => [1, UNITS * self.ageing, MILLION],
            Division::LaterAgeing => [
                self.discount / shared,
                UNITS / shared * self.growth * self.ageing,
                MILLION,
            ],
            Division::Discount => [100, self.ageing * self.growth, self.discount],
        }
    }

    /// An amount whose division leaves the rest.
    fn amount(&self, random: &mut Random, division: Division, rest: Rest) -> i64 {
        let [one, factor, divisor] = self.of(division);
        let (least, times) = greatest_divisor(factor, divisor);
        let period = divisor / least;
        let first = match rest {
            Rest::None => period,
            Rest::Least => times.rem_euclid(period),
            Rest::Most => (-times).rem_euclid(period),
        };
        let last = LARGEST_AMOUNT / one;
        one * (first + period * random.near_an_end(0, (last - first) / period))
    }

    /// The fields of a payment whose division leaves the rest.
    fn payment(&self, random: &mut Random, division: Division, rest: Rest) -> Vec<(Field, i64)> {
        let amount = self.amount(random, division, rest);
        let inflation = self.growth - MILLION;
        match division {
            Division::Plain => vec![(INVESTMENT, amount), (INVESTMENT_INFLATION, inflation)],
            Division::Removal => vec![(REMOVAL, amount), (REMOVAL_INFLATION, inflation)],
            _ => {
                let [paid, grows, ages] = FLOWS[random.below(FLOWS.len())];
                let ageing = self.ageing - MILLION;
                vec![(paid, amount), (grows, inflation), (ages, ageing)]
            }
        }
    }
}

/// The greatest common divisor of two numbers, and how many times the first must be taken to leave
/// it as the rest modulo the second.
pub fn greatest_divisor(first: i64, second: i64) -> (i64, i64) {
    let (mut last, mut next) = ((first, 1), (second, 0));
    while next.0 != 0 {
        let whole = last.0 / next.0;
        let rest = (last.0 - whole * next.0, last.1 - whole * next.1);
        (last, next) = (next, rest);
    }
    last
}

/// A sheet with one arc, whose cost is the result of one step, or of a plain one and one in
/// service.
pub struct Quotient {
    pub division: Division,
    pub rest: Rest,
    pub sheet: Vec<u8>,
    pub arc: Arc,
}

impl Quotient {
    fn draw(random: &mut Random, factors: &Factors, division: Division, rest: Rest) -> Quotient {
        let layout = match division {
            Division::Removal => VERSION_2,
            _ => some_layout(random),
        };
        let mut sheet = layout.with_head(2, factors.discount - MILLION);
        write_all_in(&mut sheet, 2, &[(SHORTEST, 1), (LONGEST, 1)]);
        write_all_in(&mut sheet, 2, &factors.payment(random, division, rest));
        let start = u64::from([Division::Plain, Division::LaterAgeing].contains(&division));
        let arc = Arc {
            option: 2,
            start,
            end: start + 1,
        };
        Quotient {
            division,
            rest,
            sheet,
            arc,
        }
    }
}

/// One sheet for each division and rest at a discount rate; the plain division is that of an
/// investment or of a removal.
pub fn quotients(random: &mut Random, rate: i64) -> Vec<Quotient> {
    let factors = Factors::draw(random, rate);
    let not_drawn = [Division::Plain, Division::Removal][random.below(2)];
    DIVISIONS
        .iter()
        .filter(|&&division| division != not_drawn)
        .flat_map(|&division| RESTS.map(|rest| (division, rest)))
        .map(|(division, rest)| Quotient::draw(random, &factors, division, rest))
        .collect()
}

#[cfg(test)]
mod tests {
    use super::*;
    use crate::check::checked;
    use crate::cost::{answer, cost};
    use crate::library;

    const RATES: [i64; 9] = [0, 1, 7, 8_000, 40_000, 99_999, 123_456, 199_999, 200_000];

    fn drawn() -> impl Iterator<Item = (i64, Quotient)> {
        let mut random = Random(20);
        RATES.into_iter().flat_map(move |rate| {
            let drawn: Vec<Quotient> = (0..100)
                .flat_map(|_| quotients(&mut random, rate))
                .collect();
            drawn.into_iter().map(move |quotient| (rate, quotient))
        })
    }

    /// Quotient and rest of the division that the sheet is about, and its divisor; those before
    /// it must leave no rest.
    fn divided(rate: i64, of: &Quotient) -> [u128; 3] {
        let fields = match of.division {
            Division::Plain => [INVESTMENT, INVESTMENT_INFLATION, INVESTMENT_INFLATION],
            Division::Removal => [REMOVAL, REMOVAL_INFLATION, REMOVAL_INFLATION],
            _ => FLOWS[usize::from(unsigned_in(&of.sheet, 2, ELECTRICITY) > 0)],
        };
        let [amount, inflation, ageing] = fields.map(|inner| signed_in(&of.sheet, 2, inner));
        let units = amount as u128 * 10_000;
        let factor = |rate: i64| (1_000_000 + rate) as u128;
        let [growth, ageing] = [inflation, ageing].map(factor);
        let (discount, million) = (factor(rate), factor(0));
        let whole = |dividend: u128, divisor| {
            assert_eq!(dividend % divisor, 0);
            dividend / divisor
        };
        let (dividend, divisor) = match of.division {
            Division::Plain | Division::Removal => (units * growth, discount),
            Division::Ageing => (units * ageing, million),
            Division::LaterAgeing => (whole(units * growth, discount) * ageing, million),
            Division::Discount => (whole(units * ageing, million) * growth, discount),
        };
        [dividend / divisor, dividend % divisor, divisor]
    }

    /// The least rest above 0 that a division can leave. An amount is a multiple of 10,000 units;
    /// a plain step without a rest takes out of them what they share with the discount.
    fn least(rate: i64, division: Division) -> u128 {
        let shared = (1..=10_000)
            .rev()
            .find(|n| 10_000 % n == 0 && (MILLION + rate) % n == 0);
        let shared = shared.expect("1 is one") as u128;
        match division {
            Division::Plain | Division::Removal => shared,
            Division::Ageing => 10_000,
            Division::LaterAgeing => 10_000 / shared,
            Division::Discount => 1,
        }
    }

    #[test]
    fn rests_are_those_named() {
        for (rate, quotient) in drawn() {
            let [_, rest, divisor] = divided(rate, &quotient);
            let least = least(rate, quotient.division);
            let expected = match quotient.rest {
                Rest::None => 0,
                Rest::Least => least,
                Rest::Most => divisor - least,
            };
            assert_eq!(rest, expected, "{rate} {:?}", quotient.division);
        }
        assert_eq!(least(1, Division::Plain), 1);
        assert_eq!(least(40_000, Division::LaterAgeing), 1);
    }

    #[test]
    fn the_library_costs_them_as_defined() {
        for (rate, quotient) in drawn() {
            let given = library::cost(&quotient.sheet, quotient.arc);
            let defined = cost(&checked(&quotient.sheet), quotient.arc);
            assert!(defined.is_ok());
            assert_eq!(given, answer(defined).packed());
            if ![Division::Ageing, Division::LaterAgeing].contains(&quotient.division) {
                let [whole, _, _] = divided(rate, &quotient);
                let more = u128::from(quotient.rest != Rest::None);
                assert_eq!(u128::from(given / 256), whole + more);
            }
        }
    }

    // 7 times 3 is 21, which leaves 1 modulo 10; 6 leaves 2 modulo 4, once.
    #[test]
    fn greatest_divisors_by_hand() {
        assert_eq!(greatest_divisor(7, 10).0, 1);
        assert_eq!(greatest_divisor(7, 10).1.rem_euclid(10), 3);
        assert_eq!(greatest_divisor(6, 4).0, 2);
        assert_eq!(greatest_divisor(6, 4).1.rem_euclid(2), 1);
    }
}
