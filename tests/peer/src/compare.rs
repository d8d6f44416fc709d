//! The comparison of the library's checks with the independent ones.

use crate::answer::{described, Answer};
use crate::check::check;
use crate::damaged::{random_sheet, LONGEST_INPUT};
use crate::edits::{apply, edits_for};
use crate::library;
use crate::random::Random;
use crate::report::{difference, Tally};
use crate::sheet::*;
use crate::valid::valid_sheet;

/// Every answer must occur this often, or the sheets test too little.
const LEAST_SEEN: u64 = 100;
/// This many valid sheets get every edit and every length.
const SWEPT_SHEETS: usize = 16;

/// The packed answers that checking has: 0 to 4 with option 3, 5 to 9 with options 0 to 2.
pub fn possible_answers() -> impl Iterator<Item = u64> {
    let of_options = (5..10).flat_map(|number| (0..3).map(move |option| number * 4 + option));
    (0..5).map(|number| number * 4 + 3).chain(of_options)
}

/// The outcomes that are told apart when they are counted.
#[derive(Clone, Copy, PartialEq, Eq, PartialOrd, Ord)]
enum Kind {
    /// The packed answer, and the version that goes with the length of the sheet, if one does.
    Answered(u64, Option<i64>),
    /// As well: refused only because this version goes with the other length.
    OtherVersion(i64),
    /// As well: refused with this number only for a removal or its inflation, of an option that is
    /// offered or not.
    Removal {
        number: u64,
        option: usize,
        offered: bool,
    },
}

impl Kind {
    fn of(sheet: &[u8], packed: u64) -> Vec<Kind> {
        let Some(layout) = Layout::of_length(sheet.len()) else {
            return vec![Kind::Answered(packed, None)];
        };
        let mut kinds = vec![Kind::Answered(packed, Some(layout.version))];
        let version = unsigned(sheet, VERSION);
        let mut others = LAYOUTS.into_iter().filter(|&other| other != layout);
        if sheet.starts_with(&MARK) && others.any(|other| other.version == version) {
            kinds.push(Kind::OtherVersion(version));
        }
        if layout.has(REMOVAL) {
            kinds.extend(Kind::of_removal(sheet, packed));
        }
        kinds
    }

    fn of_removal(sheet: &[u8], packed: u64) -> Option<Kind> {
        let (number, option) = (packed / 4, packed as usize % 4);
        let inner = match number {
            6 => REMOVAL,
            7 => REMOVAL_INFLATION,
            _ => return None,
        };
        let mut repaired = sheet.to_vec();
        write_in(&mut repaired, option, inner, 0);
        (check(&repaired).packed() != packed).then_some(Kind::Removal {
            number,
            option,
            offered: unsigned_in(sheet, option, LONGEST) > 0,
        })
    }

    fn all() -> impl Iterator<Item = Kind> {
        let length = Answer::refused(1).packed();
        let answers = possible_answers().filter(move |&packed| packed != length);
        let answers = answers
            .flat_map(|packed| LAYOUTS.map(|layout| Kind::Answered(packed, Some(layout.version))));
        let removals = [6, 7].into_iter().flat_map(|number| {
            let options = (0..OPTIONS).flat_map(|option| [(option, false), (option, true)]);
            options.map(move |(option, offered)| Kind::Removal {
                number,
                option,
                offered,
            })
        });
        answers
            .chain([Kind::Answered(length, None)])
            .chain(LAYOUTS.map(|layout| Kind::OtherVersion(layout.version)))
            .chain(removals)
    }

    fn described(self) -> String {
        match self {
            Kind::Answered(packed, None) => described(packed),
            Kind::Answered(packed, Some(version)) => {
                format!("{} at the length of version {version}", described(packed))
            }
            Kind::OtherVersion(version) => format!("version {version} at the other length"),
            Kind::Removal {
                number,
                option,
                offered,
            } => format!("number {number} for a removal of option {option}, offered {offered},"),
        }
    }
}

struct Comparison {
    tally: Tally<Kind>,
}

impl Comparison {
    fn compare(&mut self, sheet: &[u8]) -> Result<(), String> {
        let expected = check(sheet).packed();
        let answer = library::check(sheet);
        if answer != expected {
            return Err(difference(answer, expected, sheet));
        }
        self.tally.compared += 1;
        for kind in Kind::of(sheet, expected) {
            self.tally.saw(kind);
        }
        Ok(())
    }

    /// Every length and every edit, on a few sheets.
    fn sweep(&mut self, random: &mut Random) -> Result<(), String> {
        for _ in 0..SWEPT_SHEETS {
            let sheet = valid_sheet(random);
            self.compare_lengths(&sheet)?;
            for rule in 2..=9 {
                self.compare_edits(rule, &sheet)?;
            }
        }
        Ok(())
    }

    /// With each version.
    fn compare_lengths(&mut self, sheet: &[u8]) -> Result<(), String> {
        for version in LAYOUTS.map(|layout| layout.version) {
            let mut sheet = sheet.to_vec();
            write(&mut sheet, VERSION, version);
            for length in 0..=LONGEST_INPUT {
                let mut resized = sheet.clone();
                resized.resize(length, 0);
                self.compare(&resized)?;
            }
        }
        Ok(())
    }

    fn compare_edits(&mut self, rule: u64, sheet: &[u8]) -> Result<(), String> {
        let options = if rule < 5 { 1 } else { OPTIONS };
        for option in 0..options {
            for edit in edits_for(rule, sheet, option) {
                let mut edited = sheet.to_vec();
                apply(&mut edited, edit);
                self.compare(&edited)?;
            }
        }
        Ok(())
    }
}

pub fn compare_all(seed: u64, count: u64) -> Result<String, String> {
    let mut random = Random(seed);
    let mut comparison = Comparison {
        tally: Tally::new(),
    };
    comparison.sweep(&mut random)?;
    while comparison.tally.compared < count {
        comparison.compare(&random_sheet(&mut random))?;
    }
    let kinds = Kind::all().map(|kind| (kind, kind.described()));
    let calls = comparison.tally.summary("sheets", kinds, LEAST_SEEN)?;
    Ok(format!("{calls} at each right length"))
}
