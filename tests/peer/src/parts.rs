//! What a feasible chain has of each option, so that chains of every shape can be counted on sheets
//! of each version.

use crate::plan::Chain;
use crate::sheet::{unsigned_in, Layout, LAYOUTS, LONGEST};

/// What a feasible chain has of an option that may be empty.
#[derive(Clone, Copy, PartialEq, Eq, PartialOrd, Ord, Debug)]
pub enum Part {
    Kept,
    Empty { offered: bool },
}

#[derive(Clone, Copy, PartialEq, Eq, PartialOrd, Ord, Debug)]
pub struct Parts {
    /// That of the sheet.
    version: i64,
    maintain: Part,
    renovate: Part,
    /// How many there are: none, one, or more.
    replacements: usize,
}

const PARTS: [Part; 3] = [
    Part::Kept,
    Part::Empty { offered: false },
    Part::Empty { offered: true },
];

fn part(sheet: &[u8], option: usize, length: i64) -> Part {
    match length {
        0 => Part::Empty {
            offered: unsigned_in(sheet, option, LONGEST) > 0,
        },
        _ => Part::Kept,
    }
}

impl Parts {
    pub fn of(sheet: &[u8], chain: &Chain) -> Parts {
        Parts {
            version: Layout::of(sheet).version,
            maintain: part(sheet, 0, chain.i),
            renovate: part(sheet, 1, chain.j - chain.i),
            replacements: chain.ends.len().min(2),
        }
    }

    pub fn all() -> impl Iterator<Item = Parts> {
        let versions = LAYOUTS.into_iter().map(|layout| layout.version);
        versions.flat_map(Parts::all_of)
    }

    /// Some year is at least 1, so something is kept.
    fn all_of(version: i64) -> impl Iterator<Item = Parts> {
        let pairs = PARTS.map(|maintain| PARTS.map(|renovate| (maintain, renovate)));
        let all = pairs
            .into_iter()
            .flatten()
            .flat_map(move |(maintain, renovate)| {
                [0, 1, 2].map(|replacements| Parts {
                    version,
                    maintain,
                    renovate,
                    replacements,
                })
            });
        all.filter(|parts| {
            parts.replacements > 0 || [parts.maintain, parts.renovate].contains(&Part::Kept)
        })
    }

    pub fn described(self) -> String {
        let many = ["no", "one", "several"][self.replacements];
        format!(
            "version {}, maintain {:?}, renovate {:?}, {many} replacements,",
            self.version, self.maintain, self.renovate
        )
    }
}
