//! Sheets at random, of either version: valid ones, and valid ones damaged in one of several ways.

use crate::edits::{apply, edits_for, removal_edits};
use crate::random::Random;
use crate::sheet::*;
use crate::valid::{some_layout, valid_sheet};

pub const LONGEST_INPUT: usize = 600;

pub fn random_sheet(random: &mut Random) -> Vec<u8> {
    let mut sheet = valid_sheet(random);
    match random.below(16) {
        0 => {}
        1..=10 => edit_some(random, &mut sheet),
        11 => edit_removal(random, &mut sheet),
        12 | 13 => flip_some(random, &mut sheet),
        14 => randomize_from_some_place(random, &mut sheet),
        _ => {
            edit_some(random, &mut sheet);
            change_length(random, &mut sheet);
        }
    }
    sheet
}

/// One to three edits, in the same option or in different ones; one in ten is in the head.
fn edit_some(random: &mut Random, sheet: &mut [u8]) {
    for _ in 0..1 + random.below(3) {
        let rule = if random.below(10) == 0 {
            random.within(2, 4)
        } else {
            random.within(5, 9)
        };
        let list = edits_for(rule as u64, sheet, random.below(OPTIONS));
        apply(sheet, list[random.below(list.len())]);
    }
}

/// An edit of a removal or its inflation; none in version 1.
fn edit_removal(random: &mut Random, sheet: &mut [u8]) {
    let list = removal_edits(sheet, random.below(OPTIONS));
    if !list.is_empty() {
        apply(sheet, list[random.below(list.len())]);
    }
}

/// One to three bytes get another value or one bit flipped.
fn flip_some(random: &mut Random, sheet: &mut [u8]) {
    for _ in 0..1 + random.below(3) {
        let mask = if random.below(2) == 0 {
            1 << random.below(8)
        } else {
            random.byte()
        };
        let at = random.below(sheet.len());
        sheet[at] ^= mask;
    }
}

/// Random bytes from the beginning of some part to the end: all, after the mark, after the
/// version, after T, after r, after the first record, after the second.
fn randomize_from_some_place(random: &mut Random, sheet: &mut [u8]) {
    let record = |option| of_option(sheet, option, SHORTEST).at;
    let places = [
        0,
        VERSION.at,
        HORIZON.at,
        RATE.at,
        record(0),
        record(1),
        record(2),
    ];
    let first = places[random.below(places.len())];
    sheet[first..].fill_with(|| random.byte());
}

/// Cuts the sheet or adds bytes; most of the time the length is beside a right one or is one, which
/// may be that of the other version.
fn change_length(random: &mut Random, sheet: &mut Vec<u8>) {
    let right = some_layout(random).sheet_bytes();
    let length = match random.below(8) {
        0 | 1 => right - 1,
        2 | 3 => right + 1,
        4 | 5 => right,
        _ => random.below(LONGEST_INPUT + 1),
    };
    sheet.resize(length, random.byte());
}
