//! Valid sheets whose arcs are costed, whose chains are priced and budgeted, and on which chains
//! are planned.

use crate::random::Random;
use crate::sheet::*;
use crate::valid::{largest_partner, shaped_sheet, valid_sheet, Shape, FLOWS};

/// A horizon of up to 40 years, with lives and ages up to about that many.
pub fn small_sheet(random: &mut Random) -> Vec<u8> {
    let horizon = random.within(1, 40);
    sheet_up_to(random, horizon)
}

fn sheet_up_to(random: &mut Random, horizon: i64) -> Vec<u8> {
    let shape = Shape {
        draw: Random::near_an_end,
        longest_life: horizon + 1,
        oldest: horizon.max(OVERHAULS as i64),
        fewest_overhauls: 0,
    };
    let mut sheet = shaped_sheet(random, &shape);
    write(&mut sheet, HORIZON, horizon);
    sheet
}

/// A small sheet with short lives, so that it has chains of many shapes.
pub fn chained_sheet(random: &mut Random) -> Vec<u8> {
    let mut sheet = small_sheet(random);
    shorten_lives(random, &mut sheet);
    sheet
}

/// A horizon of up to 8 years: all its chains can be listed.
pub fn brief_sheet(random: &mut Random) -> Vec<u8> {
    let horizon = random.within(1, 8);
    let mut sheet = sheet_up_to(random, horizon);
    if random.below(2) == 0 {
        shorten_lives(random, &mut sheet);
    }
    sheet
}

fn shorten_lives(random: &mut Random, sheet: &mut [u8]) {
    for option in 0..OPTIONS {
        shorten_life(random, sheet, option);
    }
}

fn shorten_life(random: &mut Random, sheet: &mut [u8], option: usize) {
    let shortest = random.within(1, 4);
    let longest = shortest + random.within(0, 6);
    let offered = i64::from(random.below(4) > 0);
    write_in(sheet, option, SHORTEST, offered * shortest);
    write_in(sheet, option, LONGEST, offered * longest);
}

/// A horizon of 120 to 300 years.
pub fn long_sheet(random: &mut Random) -> Vec<u8> {
    let mut sheet = valid_sheet(random);
    write(&mut sheet, HORIZON, random.within(120, 300));
    sheet
}

/// Amounts, rates and ages at their limits, eight overhauls, every length to 120, T 300.
pub fn corner_sheet(random: &mut Random) -> Vec<u8> {
    let shape = Shape {
        draw: Random::at_an_end,
        longest_life: 120,
        oldest: 119,
        fewest_overhauls: OVERHAULS,
    };
    let mut sheet = shaped_sheet(random, &shape);
    write(&mut sheet, HORIZON, 300);
    for option in 0..OPTIONS {
        write_in(&mut sheet, option, SHORTEST, 1);
        write_in(&mut sheet, option, LONGEST, 120);
    }
    sheet
}

/// Short lives up to year 300: hundreds of replacements.
pub fn frequent_sheet(random: &mut Random) -> Vec<u8> {
    let mut sheet = corner_sheet(random);
    shorten_lives(random, &mut sheet);
    sheet
}

/// A small sheet with all amounts 10^9, which grow as fast as the checks allow.
pub fn steep_sheet(random: &mut Random) -> Vec<u8> {
    let mut sheet = [small_sheet, chained_sheet][random.below(2)](random);
    let rate = random.near_an_end(190_000, 200_000);
    write(&mut sheet, RATE, rate);
    set_amounts(&mut sheet, || 1_000_000_000);
    for option in 0..OPTIONS {
        write_in(&mut sheet, option, INVESTMENT_INFLATION, rate);
        write_in(&mut sheet, option, OVERHAUL_INFLATION, rate);
        if Layout::of(&sheet).has(REMOVAL) {
            write_in(&mut sheet, option, REMOVAL_INFLATION, rate);
        }
        for [_, inflation, ageing] in FLOWS {
            let grows = random.near_an_end(-100_000, rate);
            let ages = largest_partner(rate, grows).min(300_000);
            write_in(&mut sheet, option, inflation, grows);
            write_in(&mut sheet, option, ageing, ages);
        }
    }
    sheet
}

/// A sheet of up to 40 years, whose renovations keep motors that age fast.
pub fn motors_sheet(random: &mut Random) -> Vec<u8> {
    let mut sheet = [small_sheet, chained_sheet][random.below(2)](random);
    age_motors(random, &mut sheet);
    sheet
}

/// The same with a horizon of up to 8 years.
pub fn brief_motors_sheet(random: &mut Random) -> Vec<u8> {
    let mut sheet = brief_sheet(random);
    age_motors(random, &mut sheet);
    sheet
}

/// The same with every length to 120, T 300.
pub fn corner_motors_sheet(random: &mut Random) -> Vec<u8> {
    let mut sheet = corner_sheet(random);
    age_motors(random, &mut sheet);
    sheet
}

/// The same, but with short lives of replacements.
pub fn frequent_motors_sheet(random: &mut Random) -> Vec<u8> {
    let mut sheet = corner_motors_sheet(random);
    shorten_life(random, &mut sheet, 2);
    sheet
}

/// A sheet of version 2 of up to 40 years, on which removals weigh.
pub fn removal_sheet(random: &mut Random) -> Vec<u8> {
    let sheet = [small_sheet, chained_sheet][random.below(2)](random);
    with_removals(random, sheet)
}

/// The same with a horizon of up to 8 years.
pub fn brief_removal_sheet(random: &mut Random) -> Vec<u8> {
    let sheet = brief_sheet(random);
    with_removals(random, sheet)
}

/// The same with every length to 120, T 300.
pub fn corner_removal_sheet(random: &mut Random) -> Vec<u8> {
    let sheet = corner_sheet(random);
    with_removals(random, sheet)
}

/// The same with short lives.
pub fn frequent_removal_sheet(random: &mut Random) -> Vec<u8> {
    let sheet = frequent_sheet(random);
    with_removals(random, sheet)
}

/// As version 2. No removal is 0, other amounts are small, and replacements last a year or longer.
fn with_removals(random: &mut Random, sheet: Vec<u8>) -> Vec<u8> {
    let mut sheet = match Layout::of(&sheet).has(REMOVAL) {
        true => sheet,
        false => as_version_2(&sheet),
    };
    let rate = unsigned(&sheet, RATE);
    let longest = unsigned_in(&sheet, 2, LONGEST).max(random.within(2, 6));
    write_all_in(&mut sheet, 2, &[(SHORTEST, 1), (LONGEST, longest)]);
    set_amounts(&mut sheet, || random.within(0, 10_000));
    for option in 0..OPTIONS {
        let amount = random.near_an_end(1, 1_000_000_000);
        let inflation = random.near_an_end(-100_000, rate);
        let fields = [(REMOVAL, amount), (REMOVAL_INFLATION, inflation)];
        write_all_in(&mut sheet, option, &fields);
    }
    sheet
}

/// Electricity of renovate ages as fast as check 8 allows, or a millionth less. An inflation of 0
/// leaves an ageing of r, with which the limit is met; r − 2 is the highest that leaves one.
fn age_motors(random: &mut Random, sheet: &mut [u8]) {
    let rate = unsigned(sheet, RATE);
    let grows = match random.below(4) {
        0 => 0,
        _ => random.near_an_end(-100_000, rate),
    };
    let grows = grows.min(rate - 2);
    let most = largest_partner(rate, grows).min(300_000);
    let ages = random.within(most - 1, most).max(1);
    let amount = random.near_an_end(1, 1_000_000_000);
    for (inner, value) in [
        (ELECTRICITY, amount),
        (ELECTRICITY_INFLATION, grows),
        (ELECTRICITY_AGEING, ages),
    ] {
        write_in(sheet, 1, inner, value);
    }
}

/// Every rate of an option.
const RATES: [Field; 7] = [
    INVESTMENT_INFLATION,
    MAINTENANCE_INFLATION,
    MAINTENANCE_AGEING,
    ELECTRICITY_INFLATION,
    ELECTRICITY_AGEING,
    OVERHAUL_INFLATION,
    REMOVAL_INFLATION,
];

/// Gives the sheet other payments, so that many of its chains have equal totals. Horizon, lives
/// and ages stay.
pub fn make_ties(random: &mut Random, sheet: &mut [u8]) {
    match random.below(5) {
        0 => set_amounts(sheet, || 0),
        1 => {
            clear_rates(sheet);
            set_amounts(sheet, || random.within(0, 2));
        }
        2 => {
            clear_rates(sheet);
            set_amounts(sheet, || 0);
            charge_every_year(sheet, random.within(1, 1_000_000_000));
        }
        3 => share_payments(sheet),
        _ => {
            clear_rates(sheet);
            share_payments(sheet);
        }
    }
}

/// Those of some fields that the records of the sheet have.
fn those<const N: usize>(sheet: &[u8], fields: [Field; N]) -> impl Iterator<Item = Field> {
    let layout = Layout::of(sheet);
    fields.into_iter().filter(move |&inner| layout.has(inner))
}

fn clear_rates(sheet: &mut [u8]) {
    write(sheet, RATE, 0);
    for option in 0..OPTIONS {
        for inner in those(sheet, RATES) {
            write_in(sheet, option, inner, 0);
        }
    }
}

fn set_amounts(sheet: &mut [u8], mut amount: impl FnMut() -> i64) {
    for option in 0..OPTIONS {
        let used = unsigned_in(sheet, option, OVERHAUL_COUNT) as usize;
        let overhauls = (0..used).map(overhaul_amount);
        let others = those(sheet, [INVESTMENT, MAINTENANCE, ELECTRICITY, REMOVAL]);
        for inner in others.chain(overhauls) {
            write_in(sheet, option, inner, amount());
        }
    }
}

fn charge_every_year(sheet: &mut [u8], amount: i64) {
    for option in 0..OPTIONS {
        write_in(sheet, option, MAINTENANCE, amount);
    }
}

/// Maintain and renovate get all of replace but its lives.
fn share_payments(sheet: &mut [u8]) {
    let from = of_option(sheet, 2, INVESTMENT).at;
    let payments = sheet[from..].to_vec();
    for option in 0..2 {
        let at = of_option(sheet, option, INVESTMENT).at;
        sheet[at..at + payments.len()].copy_from_slice(&payments);
    }
}

#[cfg(test)]
mod tests {
    use super::*;
    use crate::check::{check, checked};
    use crate::planner::planned;
    use crate::removals::change_the_chain;
    use std::collections::BTreeSet;

    type Make = fn(&mut Random) -> Vec<u8>;

    /// Kinds of which half are of version 2.
    const HALF_AND_HALF: [Make; 8] = [
        small_sheet,
        chained_sheet,
        brief_sheet,
        long_sheet,
        corner_sheet,
        frequent_sheet,
        steep_sheet,
        motors_sheet,
    ];

    #[test]
    fn sheets_pass() {
        let mut random = Random(8);
        let further: [Make; 7] = [
            brief_motors_sheet,
            corner_motors_sheet,
            frequent_motors_sheet,
            removal_sheet,
            brief_removal_sheet,
            corner_removal_sheet,
            frequent_removal_sheet,
        ];
        for make in HALF_AND_HALF.into_iter().chain(further) {
            for _ in 0..1_000 {
                let mut sheet = make(&mut random);
                assert_eq!(check(&sheet).number, 0);
                make_ties(&mut random, &mut sheet);
                assert_eq!(check(&sheet).number, 0);
            }
        }
    }

    /// How many sheets of a kind are of version 2, in hundredths.
    fn of_version_2(make: Make) -> usize {
        let mut random = Random(11);
        let sheets = (0..1_000).map(|_| make(&mut random));
        sheets
            .filter(|sheet| Layout::of(sheet) == VERSION_2)
            .count()
            / 10
    }

    #[test]
    fn both_versions_half_and_half() {
        for make in HALF_AND_HALF.into_iter().chain([valid_sheet as Make]) {
            assert!((45..=55).contains(&of_version_2(make)));
        }
        assert_eq!(of_version_2(removal_sheet), 100);
    }

    /// How many chains removals change, of a hundred sheets of a kind.
    fn changed_chains(make: Make) -> usize {
        let mut random = Random(12);
        let sheets = (0..100).map(|_| checked(&make(&mut random)).expect("a sheet"));
        let changed = sheets.filter(|sheet| change_the_chain(sheet, &planned(sheet)));
        changed.count()
    }

    #[test]
    fn removals_change_the_plan() {
        for make in [
            brief_removal_sheet,
            removal_sheet,
            frequent_removal_sheet,
            corner_removal_sheet,
        ] {
            assert!(changed_chains(make) > 20);
        }
    }

    #[test]
    fn motors_age_as_fast_as_the_checks_allow() {
        let mut random = Random(10);
        let mut met = 0;
        for _ in 0..1_000 {
            let mut sheet = corner_motors_sheet(&mut random);
            let [grows, ages] = [ELECTRICITY_INFLATION, ELECTRICITY_AGEING]
                .map(|inner| signed_in(&sheet, 1, inner));
            assert!(ages > 0);
            let product = (1_000_000 + grows) * (1_000_000 + ages);
            met += usize::from(product == 1_000_000 * (1_000_000 + unsigned(&sheet, RATE)));
            write_in(&mut sheet, 1, ELECTRICITY_AGEING, ages + 2);
            assert_eq!(check(&sheet).packed(), 8 * 4 + 1);
        }
        assert!(met > 30);
    }

    /// The values that a field gets in many corner sheets.
    fn corners(value: impl Fn(&[u8]) -> i64) -> Vec<i64> {
        let mut random = Random(9);
        let values: BTreeSet<i64> = (0..1_000)
            .map(|_| value(&corner_sheet(&mut random)))
            .collect();
        values.into_iter().collect()
    }

    #[test]
    fn corner_sheets_have_the_limits() {
        let natural = |inner| corners(move |sheet| unsigned_in(sheet, 2, inner));
        assert_eq!(corners(|sheet| unsigned(sheet, RATE)), [0, 200_000]);
        assert_eq!(natural(overhaul_age(7)), [8, 119]);
        assert_eq!(natural(overhaul_amount(7)), [0, 1_000_000_000]);
        let removals = corners(|sheet| match Layout::of(sheet).has(REMOVAL) {
            true => unsigned_in(sheet, 2, REMOVAL),
            false => -1,
        });
        assert_eq!(removals, [-1, 0, 1_000_000_000]);
        for [amount, inflation, ageing] in FLOWS {
            let most = largest_partner(0, -100_000);
            assert_eq!(natural(amount), [0, 1_000_000_000]);
            assert_eq!(natural(ageing), [0, most, 300_000]);
            let inflations = corners(|sheet| signed_in(sheet, 2, inflation));
            assert_eq!(inflations, [-100_000, 0, 200_000]);
        }
    }
}
