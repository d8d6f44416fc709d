//! Single fields set to values near the limits of a rule.

use crate::sheet::*;
use crate::valid::{largest_partner, FLOWS};

/// A value for one field of the sheet.
#[derive(Clone, Copy)]
pub struct Edit {
    field: Field,
    value: i64,
}

fn edits(field: Field, values: Vec<i64>) -> impl Iterator<Item = Edit> {
    values.into_iter().map(move |value| Edit { field, value })
}

/// Each limit and its two neighbours, then the further values. A negative number in an
/// unsigned field is a value near the field's own largest.
fn around(limits: &[i64], further: &[i64]) -> Vec<i64> {
    let near = limits
        .iter()
        .flat_map(|&limit| [limit - 1, limit, limit + 1]);
    near.chain(further.iter().copied()).collect()
}

/// The edits for one rule, those of an option in the option given; rule 1 has none.
pub fn edits_for(rule: u64, sheet: &[u8], option: usize) -> Vec<Edit> {
    match rule {
        2 => mark_and_version_edits(),
        3 => edits(HORIZON, around(&[0, 300], &[256, 557])).collect(),
        4 => edits(RATE, around(&[0, 200_000], &[1 << 24, 1 << 31])).collect(),
        5 => life_edits(sheet, option),
        6 => amount_edits(sheet, option),
        7 => inflation_edits(sheet, option),
        8 => ageing_edits(sheet, option),
        9 => overhaul_edits(sheet, option),
        _ => Vec::new(),
    }
}

/// Every value in every byte of the mark and the version.
fn mark_and_version_edits() -> Vec<Edit> {
    (0..VERSION.at + VERSION.bytes)
        .flat_map(|at| edits(Field { at, bytes: 1 }, (0..256).collect()))
        .collect()
}

fn life_edits(sheet: &[u8], option: usize) -> Vec<Edit> {
    let [shortest, longest] = [SHORTEST, LONGEST].map(|inner| of_option(sheet, option, inner));
    let of_shortest = around(&[0, 120, unsigned(sheet, longest)], &[]);
    let of_longest = around(&[0, 120, unsigned(sheet, shortest)], &[]);
    edits(shortest, of_shortest)
        .chain(edits(longest, of_longest))
        .collect()
}

/// An amount's limit, and the ends of its field.
fn amount_values() -> Vec<i64> {
    around(&[1_000_000_000], &[0, 1 << 31, (1 << 32) - 1])
}

/// For those of the fields that the records have.
fn edits_of(sheet: &[u8], option: usize, inner: &[Field], values: &[i64]) -> Vec<Edit> {
    inner
        .iter()
        .filter(|&&inner| Layout::of(sheet).has(inner))
        .flat_map(|&inner| edits(of_option(sheet, option, inner), values.to_vec()))
        .collect()
}

fn amount_edits(sheet: &[u8], option: usize) -> Vec<Edit> {
    let inner = [INVESTMENT, MAINTENANCE, ELECTRICITY, REMOVAL];
    edits_of(sheet, option, &inner, &amount_values())
}

/// The limits of an inflation, and the ends of its field.
fn inflation_values(sheet: &[u8]) -> Vec<i64> {
    let limits = [-1_000_000, -100_000, 0, unsigned(sheet, RATE)];
    let ends = [i64::from(i32::MIN), i64::from(i32::MAX)];
    around(&limits, &ends)
}

fn inflation_edits(sheet: &[u8], option: usize) -> Vec<Edit> {
    let inner = [
        INVESTMENT_INFLATION,
        MAINTENANCE_INFLATION,
        ELECTRICITY_INFLATION,
        OVERHAUL_INFLATION,
        REMOVAL_INFLATION,
    ];
    edits_of(sheet, option, &inner, &inflation_values(sheet))
}

/// Those of rules 6 and 7 that are about a removal.
pub fn removal_edits(sheet: &[u8], option: usize) -> Vec<Edit> {
    let mut list = edits_of(sheet, option, &[REMOVAL], &amount_values());
    let inflations = inflation_values(sheet);
    list.extend(edits_of(sheet, option, &[REMOVAL_INFLATION], &inflations));
    list
}

/// Both factors of rule 8: the ageing for the inflation there is, and the other way round.
fn ageing_edits(sheet: &[u8], option: usize) -> Vec<Edit> {
    let rate = unsigned(sheet, RATE);
    let mut list = Vec::new();
    for flow in FLOWS {
        let [_, inflation, ageing] = flow.map(|inner| of_option(sheet, option, inner));
        let largest_ageing = largest_partner(rate, signed(sheet, inflation));
        let largest_inflation = largest_partner(rate, unsigned(sheet, ageing));
        let ends = [0, 1 << 31, (1 << 32) - 1_000_000, (1 << 32) - 1];
        list.extend(edits(ageing, around(&[300_000, largest_ageing], &ends)));
        list.extend(edits(inflation, around(&[largest_inflation], &[])));
    }
    list
}

fn overhaul_edits(sheet: &[u8], option: usize) -> Vec<Edit> {
    let count = of_option(sheet, option, OVERHAUL_COUNT);
    let used = OVERHAULS.min(unsigned(sheet, count) as usize);
    let mut list: Vec<Edit> = edits(count, (0..10).chain([128, 255]).collect()).collect();
    for entry in 0..used {
        list.extend(edits(
            of_option(sheet, option, overhaul_age(entry)),
            age_values(sheet, option, entry),
        ));
        list.extend(edits(
            of_option(sheet, option, overhaul_amount(entry)),
            amount_values(),
        ));
    }
    for byte in (used..OVERHAULS).flat_map(overhaul_bytes) {
        list.extend(edits(of_option(sheet, option, byte), vec![1, 128, 255]));
    }
    list
}

/// The limits of an age, and the ages before and after it.
fn age_values(sheet: &[u8], option: usize, entry: usize) -> Vec<i64> {
    let age_of = |entry| unsigned_in(sheet, option, overhaul_age(entry));
    let before = if entry > 0 { age_of(entry - 1) } else { 0 };
    let after = if entry + 1 < OVERHAULS {
        age_of(entry + 1)
    } else {
        120
    };
    around(&[0, 119, before, after], &[])
}

pub fn apply(sheet: &mut [u8], edit: Edit) {
    write(sheet, edit.field, edit.value);
}
