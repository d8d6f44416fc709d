//! Refusals 1 to 9, written from document 01's refusal table and document 02's request 6 alone.

use crate::answer::Answer;
use crate::sheet::{read, Flow, Overhaul, Record, Sheet, MARK};

const LARGEST_AMOUNT: i64 = 1_000_000_000;
const MILLION: i128 = 1_000_000;

pub fn check(bytes: &[u8]) -> Answer {
    checked(bytes).err().unwrap_or(Answer::accepted(0))
}

/// The sheet that passes, or else the first refusal.
pub fn checked(bytes: &[u8]) -> Result<Sheet, Answer> {
    let sheet = read(bytes).ok_or(Answer::refused(1))?;
    if let Some(number) = head_fault(&sheet) {
        return Err(Answer::refused(number));
    }
    for (option, record) in (0..).zip(&sheet.records) {
        if let Some(number) = record_fault(record, sheet.rate) {
            return Err(Answer::refused_in(option, number));
        }
    }
    Ok(sheet)
}

fn head_fault(sheet: &Sheet) -> Option<u64> {
    if sheet.mark != MARK || sheet.version != sheet.layout.version {
        Some(2)
    } else if !(1..=300).contains(&sheet.horizon) {
        Some(3)
    } else if sheet.rate > 200_000 {
        Some(4)
    } else {
        None
    }
}

fn record_fault(record: &Record, rate: i64) -> Option<u64> {
    if !lives_fit(record) {
        Some(5)
    } else if !amounts_fit(record) {
        Some(6)
    } else if !inflations_fit(record, rate) {
        Some(7)
    } else if !ageing_fits(&record.maintenance, rate) || !ageing_fits(&record.electricity, rate) {
        Some(8)
    } else if !overhauls_fit(record) {
        Some(9)
    } else {
        None
    }
}

fn lives_fit(record: &Record) -> bool {
    let not_offered = record.shortest == 0 && record.longest == 0;
    let offered =
        1 <= record.shortest && record.shortest <= record.longest && record.longest <= 120;
    not_offered || offered
}

fn amounts_fit(record: &Record) -> bool {
    [
        record.investment,
        record.maintenance.amount,
        record.electricity.amount,
        record.removal,
    ]
    .iter()
    .all(|&amount| amount <= LARGEST_AMOUNT)
}

fn inflations_fit(record: &Record, rate: i64) -> bool {
    [
        record.investment_inflation,
        record.maintenance.inflation,
        record.electricity.inflation,
        record.overhaul_inflation,
        record.removal_inflation,
    ]
    .iter()
    .all(|inflation| (-100_000..=rate).contains(inflation))
}

fn ageing_fits(flow: &Flow, rate: i64) -> bool {
    let growth = (MILLION + i128::from(flow.inflation)) * (MILLION + i128::from(flow.ageing));
    flow.ageing <= 300_000 && growth <= MILLION * (MILLION + i128::from(rate))
}

fn overhauls_fit(record: &Record) -> bool {
    let count = record.overhaul_count as usize;
    if count > record.overhauls.len() {
        return false;
    }
    let (used, unused) = record.overhauls.split_at(count);
    used.iter().all(used_fits) && ages_rise(used) && unused.iter().all(is_zero)
}

fn used_fits(overhaul: &Overhaul) -> bool {
    (1..=119).contains(&overhaul.age) && overhaul.amount <= LARGEST_AMOUNT
}

fn ages_rise(used: &[Overhaul]) -> bool {
    used.windows(2).all(|pair| pair[0].age < pair[1].age)
}

fn is_zero(overhaul: &Overhaul) -> bool {
    overhaul.age == 0 && overhaul.amount == 0
}

/// Cases worked by hand, on both layouts; the first three are the run-only cases of document 01.
#[cfg(test)]
mod tests {
    use super::*;
    use crate::sheet::*;

    impl Layout {
        /// The answer after some fields got other values: T 30, r 40,000, every record zero.
        fn answer(self, changes: &[(Field, i64)]) -> (u64, u64) {
            let mut sheet = self.with_head(30, 40_000);
            for &(field, value) in changes {
                write(&mut sheet, field, value);
            }
            let Answer { number, option, .. } = check(&sheet);
            (number, option)
        }

        /// The fields of an option's record that there are of these.
        fn those(self, option: usize, inner: &[Field]) -> Vec<Field> {
            let there_are = inner.iter().filter(|&&inner| self.has(inner));
            there_are
                .map(|&inner| self.of_option(option, inner))
                .collect()
        }
    }

    /// Each layout with each option.
    fn records() -> impl Iterator<Item = (Layout, usize)> {
        LAYOUTS
            .into_iter()
            .flat_map(|layout| [0, 1, 2].map(|option| (layout, option)))
    }

    #[test]
    fn inflation_up_to_the_discount_rate() {
        let all = [
            INVESTMENT_INFLATION,
            MAINTENANCE_INFLATION,
            ELECTRICITY_INFLATION,
            OVERHAUL_INFLATION,
            REMOVAL_INFLATION,
        ];
        for (layout, option) in records() {
            for inflation in layout.those(option, &all) {
                assert_eq!(layout.answer(&[(inflation, 40_000)]), (0, 3));
                assert_eq!(layout.answer(&[(inflation, 40_001)]), (7, option as u64));
                assert_eq!(layout.answer(&[(inflation, -100_000)]), (0, 3));
                assert_eq!(layout.answer(&[(inflation, -100_001)]), (7, option as u64));
            }
        }
    }

    #[test]
    fn ageing_up_to_the_discount_rate() {
        for (layout, option) in records() {
            for ageing in layout.those(option, &[MAINTENANCE_AGEING, ELECTRICITY_AGEING]) {
                assert_eq!(layout.answer(&[(ageing, 40_000)]), (0, 3));
                assert_eq!(layout.answer(&[(ageing, 40_001)]), (8, option as u64));
            }
        }
    }

    #[test]
    fn horizon_from_1_to_300() {
        for layout in LAYOUTS {
            assert_eq!(layout.answer(&[(HORIZON, 300)]), (0, 3));
            assert_eq!(layout.answer(&[(HORIZON, 301)]), (3, 3));
            assert_eq!(layout.answer(&[(HORIZON, 0)]), (3, 3));
            assert_eq!(layout.answer(&[(HORIZON, 1)]), (0, 3));
        }
    }

    // 900,000 × 1,155,555 is below 10^6 × 1,040,000 by 500,000, and one more ageing is too much.
    #[test]
    fn ageing_beside_a_falling_price() {
        for layout in LAYOUTS {
            let inflation = (layout.of_option(2, ELECTRICITY_INFLATION), -100_000);
            let ageing = layout.of_option(2, ELECTRICITY_AGEING);
            assert_eq!(layout.answer(&[inflation, (ageing, 155_555)]), (0, 3));
            assert_eq!(layout.answer(&[inflation, (ageing, 155_556)]), (8, 2));
        }
    }

    #[test]
    fn lengths_and_the_versions_that_go_with_them() {
        for layout in LAYOUTS {
            let sheet = layout.with_head(30, 40_000);
            assert_eq!(check(&sheet[..sheet.len() - 1]), Answer::refused(1));
            assert_eq!(check(&[&sheet[..], &[0]].concat()), Answer::refused(1));
            for version in [0, 1, 2, 3, 257, 258, 512, 65_535] {
                let number = if version == layout.version { 0 } else { 2 };
                assert_eq!(layout.answer(&[(VERSION, version)]), (number, 3));
            }
        }
        for length in [0, 277, 279, 301, 303] {
            let mut sheet = VERSION_2.with_head(30, 40_000);
            sheet.resize(length, 0);
            assert_eq!(check(&sheet), Answer::refused(1));
        }
    }

    #[test]
    fn mark_and_rate() {
        for layout in LAYOUTS {
            for at in 0..3 {
                assert_eq!(layout.answer(&[(field(at, 1), 0)]), (2, 3));
            }
            assert_eq!(layout.answer(&[(RATE, 200_000)]), (0, 3));
            assert_eq!(layout.answer(&[(RATE, 200_001)]), (4, 3));
        }
    }

    #[test]
    fn amounts_up_to_a_thousand_million() {
        let all = [INVESTMENT, MAINTENANCE, ELECTRICITY, REMOVAL];
        for (layout, option) in records() {
            for amount in layout.those(option, &all) {
                assert_eq!(layout.answer(&[(amount, 1_000_000_000)]), (0, 3));
                assert_eq!(
                    layout.answer(&[(amount, 1_000_000_001)]),
                    (6, option as u64)
                );
                assert_eq!(
                    layout.answer(&[(amount, u32::MAX.into())]),
                    (6, option as u64)
                );
            }
        }
    }

    // Bytes 100 to 107 are the first ones of renovate; there, as a removal of maintain, they would
    // be refused.
    #[test]
    fn the_next_record_of_version_1_is_no_removal() {
        let lives = [SHORTEST, LONGEST].map(|inner| (VERSION_1.of_option(1, inner), 120));
        let investment = (VERSION_1.of_option(1, INVESTMENT), 1_000_000_000);
        let [shortest, longest] = lives;
        assert_eq!(VERSION_1.answer(&[shortest, longest, investment]), (0, 3));
    }

    // Nor is a removal an overhaul that is past the count.
    #[test]
    fn a_removal_beside_any_count_of_overhauls() {
        for option in 0..OPTIONS {
            let of = |inner| VERSION_2.of_option(option, inner);
            let mut changes = vec![(of(REMOVAL), 1_000_000_000), (of(REMOVAL_INFLATION), -1)];
            assert_eq!(VERSION_2.answer(&changes), (0, 3));
            for entry in 0..OVERHAULS {
                changes.push((of(overhaul_age(entry)), entry as i64 + 1));
                changes.push((of(OVERHAUL_COUNT), entry as i64 + 1));
                assert_eq!(VERSION_2.answer(&changes), (0, 3));
            }
            changes.push((of(OVERHAUL_COUNT), 9));
            assert_eq!(VERSION_2.answer(&changes), (9, option as u64));
        }
    }

    #[test]
    fn lives_both_zero_or_in_order() {
        for layout in LAYOUTS {
            let [shortest, longest] = [SHORTEST, LONGEST].map(|inner| layout.of_option(1, inner));
            let with_lives = |low, high| layout.answer(&[(shortest, low), (longest, high)]);
            for (low, high) in [(0, 0), (1, 120), (7, 7)] {
                assert_eq!(with_lives(low, high), (0, 3));
            }
            for (low, high) in [(0, 7), (7, 0), (8, 7), (1, 121)] {
                assert_eq!(with_lives(low, high), (5, 1));
            }
        }
    }

    #[test]
    fn overhauls_used_and_unused() {
        for layout in LAYOUTS {
            let answer = |changes: &[(Field, i64)]| layout.answer(changes);
            let count = layout.of_option(0, OVERHAUL_COUNT);
            let age = |entry| layout.of_option(0, overhaul_age(entry));
            let amount = |entry| layout.of_option(0, overhaul_amount(entry));
            assert_eq!(answer(&[(count, 1), (age(0), 119)]), (0, 3));
            assert_eq!(answer(&[(count, 1), (age(0), 120)]), (9, 0));
            assert_eq!(answer(&[(count, 1)]), (9, 0));
            assert_eq!(answer(&[(count, 9)]), (9, 0));
            assert_eq!(answer(&[(count, 2), (age(0), 4), (age(1), 5)]), (0, 3));
            assert_eq!(answer(&[(count, 2), (age(0), 5), (age(1), 5)]), (9, 0));
            assert_eq!(answer(&[(age(7), 1)]), (9, 0));
            assert_eq!(answer(&[(amount(0), 1)]), (9, 0));
            let with_amount = |value| answer(&[(count, 1), (age(0), 1), (amount(0), value)]);
            assert_eq!(with_amount(1_000_000_000), (0, 3));
            assert_eq!(with_amount(1_000_000_001), (9, 0));
        }
    }

    #[test]
    fn the_first_fault_is_the_answer() {
        for layout in LAYOUTS {
            let late_ageing = (layout.of_option(2, MAINTENANCE_AGEING), 300_001);
            let early_count = (layout.of_option(1, OVERHAUL_COUNT), 255);
            let early_amount = (layout.of_option(1, INVESTMENT), 1_000_000_001);
            let answer = |changes: &[(Field, i64)]| layout.answer(changes);
            assert_eq!(answer(&[late_ageing]), (8, 2));
            assert_eq!(answer(&[late_ageing, early_count]), (9, 1));
            assert_eq!(answer(&[late_ageing, early_count, early_amount]), (6, 1));
            assert_eq!(answer(&[early_count, (RATE, 200_001)]), (4, 3));
        }
    }

    #[test]
    fn removals_in_their_place_of_the_order() {
        let of = |inner| VERSION_2.of_option(1, inner);
        let mut changes = vec![(VERSION_2.of_option(2, SHORTEST), 1)];
        for (inner, value, number) in [
            (OVERHAUL_COUNT, 9, 9),
            (MAINTENANCE_AGEING, 300_001, 8),
            (REMOVAL_INFLATION, 40_001, 7),
            (REMOVAL, 1_000_000_001, 6),
            (LONGEST, 7, 5),
        ] {
            changes.push((of(inner), value));
            assert_eq!(VERSION_2.answer(&changes), (number, 1));
        }
        changes.push((VERSION_2.of_option(0, REMOVAL), 1_000_000_001));
        assert_eq!(VERSION_2.answer(&changes), (6, 0));
        changes.push((VERSION, 1));
        assert_eq!(VERSION_2.answer(&changes), (2, 3));
    }
}
