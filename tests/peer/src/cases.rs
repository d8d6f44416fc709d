//! The sheets of document 01's plan cases, that of the paper's case study, two for budgets, and
//! those on which requests 4 and 6 show.

use crate::sheet::*;

/// Only replace is offered, r is 0, and all other fields are 0 but those given.
fn only_replace(horizon: i64, shortest: i64, longest: i64, fields: &[(Field, i64)]) -> Vec<u8> {
    let mut sheet = with_head(horizon, 0);
    write_all_in(&mut sheet, 2, &[(SHORTEST, shortest), (LONGEST, longest)]);
    write_all_in(&mut sheet, 2, fields);
    sheet
}

pub fn case_9() -> Vec<u8> {
    only_replace(5, 3, 4, &[])
}

pub fn case_10() -> Vec<u8> {
    only_replace(7, 3, 4, &[])
}

pub fn case_11() -> Vec<u8> {
    only_replace(3, 1, 2, &[(MAINTENANCE, 1)])
}

pub fn case_12() -> Vec<u8> {
    let fields = [
        (INVESTMENT, 10),
        (MAINTENANCE, 1),
        (OVERHAUL_COUNT, 1),
        (overhaul_age(0), 2),
        (overhaul_amount(0), 15),
    ];
    only_replace(4, 1, 3, &fields)
}

/// What differs from option to option in the paper's Table 1.
struct Figures {
    longest: i64,
    investment: i64,
    maintenance: i64,
    ageing: i64,
    electricity: i64,
    overhauls: i64,
    years_between: i64,
}

const fn figures(row: [i64; 7]) -> Figures {
    let [longest, investment, maintenance, ageing, electricity, overhauls, years_between] = row;
    Figures {
        longest,
        investment,
        maintenance,
        ageing,
        electricity,
        overhauls,
        years_between,
    }
}

const TABLE_1: [Figures; OPTIONS] = [
    figures([15, 150_000, 70_000, 15_000, 15_000, 2, 5]),
    figures([30, 1_125_000, 35_000, 10_000, 15_000, 2, 10]),
    figures([60, 2_500_000, 10_000, 5_000, 10_000, 3, 15]),
];

pub fn paper_sheet() -> Vec<u8> {
    let mut sheet = with_head(300, 40_000);
    for (option, of) in TABLE_1.iter().enumerate() {
        let fields = [
            (SHORTEST, 1),
            (LONGEST, of.longest),
            (INVESTMENT, of.investment),
            (INVESTMENT_INFLATION, 10_300),
            (MAINTENANCE, of.maintenance),
            (MAINTENANCE_INFLATION, 8_500),
            (MAINTENANCE_AGEING, of.ageing),
            (ELECTRICITY, of.electricity),
            (ELECTRICITY_INFLATION, 2_000),
            (OVERHAUL_INFLATION, 10_300),
            (OVERHAUL_COUNT, of.overhauls),
        ];
        write_all_in(&mut sheet, option, &fields);
        for entry in 0..of.overhauls {
            let age = (overhaul_age(entry as usize), of.years_between * (entry + 1));
            let amount = (overhaul_amount(entry as usize), 150_000);
            write_all_in(&mut sheet, option, &[age, amount]);
        }
    }
    sheet
}

/// Only replace is offered, for one year; of its three payments one is 0.
pub fn two_year_sheet() -> Vec<u8> {
    let mut sheet = with_head(2, 40_000);
    let fields = [
        (SHORTEST, 1),
        (LONGEST, 1),
        (INVESTMENT, 1),
        (INVESTMENT_INFLATION, 10_000),
        (MAINTENANCE, 7),
        (MAINTENANCE_INFLATION, 10_000),
        (MAINTENANCE_AGEING, 7_000),
    ];
    write_all_in(&mut sheet, 2, &fields);
    sheet
}

/// Only replace is offered, for up to 15 years. Its one payment is 10^9 and grows by its ageing as
/// fast as the discount.
pub fn fifteen_year_sheet() -> Vec<u8> {
    let mut sheet = with_head(15, 200_000);
    let fields = [
        (SHORTEST, 1),
        (LONGEST, 15),
        (MAINTENANCE, 1_000_000_000),
        (MAINTENANCE_INFLATION, -40_000),
        (MAINTENANCE_AGEING, 250_000),
    ];
    write_all_in(&mut sheet, 2, &fields);
    sheet
}

/// An option whose one payment is electricity of 1 a year.
fn set_motors(sheet: &mut [u8], option: usize, longest: i64, ageing: i64) {
    let fields = [
        (SHORTEST, 1),
        (LONGEST, longest),
        (ELECTRICITY, 1),
        (ELECTRICITY_AGEING, ageing),
    ];
    write_all_in(sheet, option, &fields);
}

/// Renovate and replace have the same record, of one or two years.
pub fn same_motors_sheet() -> Vec<u8> {
    let mut sheet = with_head(3, 40_000);
    set_motors(&mut sheet, 1, 2, 20_000);
    set_motors(&mut sheet, 2, 2, 20_000);
    sheet
}

/// Maintain and renovate are offered for one or two years. As the motors age all the same,
/// renovating waits for year 2; if it brought new ones, it would not.
pub fn postponed_sheet() -> Vec<u8> {
    let mut sheet = with_head(3, 40_000);
    let fields = [
        (SHORTEST, 1),
        (LONGEST, 2),
        (MAINTENANCE, 1),
        (MAINTENANCE_INFLATION, 19_900),
    ];
    write_all_in(&mut sheet, 0, &fields);
    set_motors(&mut sheet, 1, 2, 20_000);
    sheet
}

/// Each option is offered for one year, and maintaining costs nothing. In year 1 a replacement,
/// whose motors age faster, costs less than a renovation, but more than one with new motors.
pub fn replaced_sheet() -> Vec<u8> {
    let mut sheet = with_head(2, 40_000);
    write_all_in(&mut sheet, 0, &[(SHORTEST, 1), (LONGEST, 1)]);
    set_motors(&mut sheet, 1, 1, 20_000);
    set_motors(&mut sheet, 2, 1, 30_000);
    sheet
}

/// T 300, r 200,000; maintaining costs nothing, and renovating and replacing only electricity, 10^9
/// a year with these rates.
fn costly_motors_sheet(inflation: i64, ageing: i64) -> Vec<u8> {
    let mut sheet = with_head(300, 200_000);
    for (option, amount) in [0, 1_000_000_000, 1_000_000_000].into_iter().enumerate() {
        let fields = [
            (SHORTEST, 1),
            (LONGEST, 120),
            (ELECTRICITY, amount),
            (ELECTRICITY_INFLATION, inflation),
            (ELECTRICITY_AGEING, ageing),
        ];
        write_all_in(&mut sheet, option, &fields);
    }
    sheet
}

/// The lowest inflation and the highest ageing.
pub fn fastest_motors_sheet() -> Vec<u8> {
    costly_motors_sheet(-100_000, 300_000)
}

/// 960,000 × 1,250,000 is 10^6 × 1,200,000, the limit of check 8: in service the amount stays as it
/// is.
pub fn steady_motors_sheet() -> Vec<u8> {
    costly_motors_sheet(-40_000, 250_000)
}

/// Case 12's sheet as version 2, with a removal of 3.
pub fn case_12_with_removal() -> Vec<u8> {
    let mut sheet = as_version_2(&case_12());
    write_in(&mut sheet, 2, REMOVAL, 3);
    sheet
}

/// Every option is offered for one or two years and has no payment but its removal; each removal has
/// another amount and inflation.
pub fn three_removals() -> Vec<u8> {
    let mut sheet = VERSION_2.with_head(4, 40_000);
    for (option, removal, inflation) in [(0, 5, 0), (1, 1, 10_000), (2, 2, -10_000)] {
        let fields = [
            (SHORTEST, 1),
            (LONGEST, 2),
            (REMOVAL, removal),
            (REMOVAL_INFLATION, inflation),
        ];
        write_all_in(&mut sheet, option, &fields);
    }
    sheet
}

/// Only replace is offered, for one or two years, with an overhaul of 1 in the second one. Without
/// its removal it would be replaced every year.
pub fn lasting_sheet() -> Vec<u8> {
    let mut sheet = as_version_2(&only_replace(4, 1, 2, &[]));
    let fields = [
        (OVERHAUL_COUNT, 1),
        (overhaul_age(0), 1),
        (overhaul_amount(0), 1),
        (REMOVAL, 2),
    ];
    write_all_in(&mut sheet, 2, &fields);
    sheet
}
