//! What the comparisons report: a difference, and how often each answer was seen.

use crate::answer::described;
use std::collections::BTreeMap;

pub fn difference(answer: u64, expected: u64, sheet: &[u8]) -> String {
    format!(
        "library answers {}, peer answers {}, {} bytes: {}",
        described(answer),
        described(expected),
        sheet.len(),
        hex(sheet)
    )
}

pub fn hex(bytes: &[u8]) -> String {
    bytes.iter().map(|byte| format!("{byte:02x}")).collect()
}

/// How many answers were compared, and how often each kind of outcome was seen.
pub struct Tally<Kind> {
    pub compared: u64,
    seen: BTreeMap<Kind, u64>,
}

impl<Kind: Ord> Tally<Kind> {
    pub fn new() -> Self {
        Tally {
            compared: 0,
            seen: BTreeMap::new(),
        }
    }

    pub fn saw(&mut self, kind: Kind) {
        *self.seen.entry(kind).or_insert(0) += 1;
    }

    pub fn seen(&self, kind: Kind) -> u64 {
        self.seen.get(&kind).copied().unwrap_or(0)
    }

    /// The line of a comparison without differences; an error if one of the kinds, each with its
    /// description, was seen fewer times than it must be.
    pub fn summary(
        &self,
        what: &str,
        kinds: impl Iterator<Item = (Kind, String)>,
        needed: u64,
    ) -> Result<String, String> {
        let mut least = u64::MAX;
        for (kind, described) in kinds {
            let seen = self.seen(kind);
            if seen < needed {
                return Err(format!(
                    "{described} seen {seen} times, fewer than {needed}"
                ));
            }
            least = least.min(seen);
        }
        let compared = self.compared;
        Ok(format!(
            "{compared} {what} compared, 0 differences, every answer seen at least {least} times"
        ))
    }
}

#[cfg(test)]
mod tests {
    use super::*;

    #[test]
    fn a_kind_seen_too_rarely_is_an_error() {
        let mut tally = Tally::new();
        for kind in [1, 2, 2] {
            tally.compared += 1;
            tally.saw(kind);
        }
        let kinds = || [1, 2].into_iter().map(|kind| (kind, format!("{kind}")));
        let line = "3 sums compared, 0 differences, every answer seen at least 1 times";
        assert_eq!(tally.summary("sums", kinds(), 1), Ok(line.into()));
        let line = "1 seen 1 times, fewer than 2";
        assert_eq!(tally.summary("sums", kinds(), 2), Err(line.into()));
        let never = std::iter::once((3, "3".into()));
        assert!(tally.summary("sums", never, 1).is_err());
    }
}
