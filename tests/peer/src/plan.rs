//! The plan of document 01: where its fields stand, how it is read and written. Years and
//! counts are read as i64, as in a sheet.

use crate::sheet::{field, unsigned, write, Field};

pub const MARK: [u8; 3] = *b"RCP";
pub const VERSION: Field = field(3, 2);
pub const TOTAL: Field = field(5, 8);
pub const MAINTAINED: Field = field(13, 2);
pub const RENOVATED: Field = field(15, 2);
pub const REPLACEMENTS: Field = field(17, 2);
pub const HEAD_BYTES: usize = 19;

pub const fn end(entry: usize) -> Field {
    field(HEAD_BYTES + 2 * entry, 2)
}

pub const fn plan_bytes(replacements: usize) -> usize {
    HEAD_BYTES + 2 * replacements
}

/// Maintain runs from 0 to i, renovate from i to j, replacements from j to the first end, from
/// there to the second, and so on.
#[derive(Clone, Debug, PartialEq)]
pub struct Chain {
    pub i: i64,
    pub j: i64,
    pub ends: Vec<i64>,
}

impl Chain {
    /// Option, start and end of each activity.
    pub fn activities(&self) -> Vec<(usize, i64, i64)> {
        let mut list = vec![(0, 0, self.i), (1, self.i, self.j)];
        let mut start = self.j;
        for &end in &self.ends {
            list.push((2, start, end));
            start = end;
        }
        list
    }

    pub fn last_year(&self) -> i64 {
        self.ends.last().copied().unwrap_or(self.j)
    }
}

/// What a plan lacks that is not read.
#[derive(Clone, Copy, Debug, PartialEq, Eq, PartialOrd, Ord)]
pub enum Missing {
    /// There are fewer than 19 bytes.
    Head,
    /// There are fewer than 19 + 2m bytes.
    Ends,
}

/// The chain of a plan that has all its m ends, whatever follows them.
pub fn read(plan: &[u8]) -> Result<Chain, Missing> {
    if plan.len() < HEAD_BYTES {
        return Err(Missing::Head);
    }
    let replacements = unsigned(plan, REPLACEMENTS) as usize;
    if plan.len() < plan_bytes(replacements) {
        return Err(Missing::Ends);
    }
    Ok(Chain {
        i: unsigned(plan, MAINTAINED),
        j: unsigned(plan, RENOVATED),
        ends: (0..replacements)
            .map(|entry| unsigned(plan, end(entry)))
            .collect(),
    })
}

/// A number that does not fit its field keeps its low bytes.
pub fn written(chain: &Chain, total: u64) -> Vec<u8> {
    let mut plan = vec![0; plan_bytes(chain.ends.len())];
    plan[..MARK.len()].copy_from_slice(&MARK);
    write(&mut plan, VERSION, 1);
    write(&mut plan, TOTAL, total as i64);
    write(&mut plan, MAINTAINED, chain.i);
    write(&mut plan, RENOVATED, chain.j);
    write(&mut plan, REPLACEMENTS, chain.ends.len() as i64);
    for (entry, &year) in chain.ends.iter().enumerate() {
        write(&mut plan, end(entry), year);
    }
    plan
}

#[cfg(test)]
mod tests {
    use super::*;

    #[test]
    fn a_plan_byte_by_byte() {
        let ends = vec![256, 0x1234];
        let chain = Chain { i: 1, j: 258, ends };
        let plan = [
            b'R', b'C', b'P', 1, 0, 8, 7, 6, 5, 4, 3, 2, 1, 1, 0, 2, 1, 2, 0, 0, 1, 0x34, 0x12,
        ];
        assert_eq!(written(&chain, 0x0102_0304_0506_0708), plan);
        assert_eq!(read(&plan), Ok(chain));
        assert_eq!(read(&plan[..22]), Err(Missing::Ends));
        assert_eq!(read(&plan[..19]), Err(Missing::Ends));
        assert_eq!(read(&plan[..18]), Err(Missing::Head));
        assert_eq!(read(&[]), Err(Missing::Head));
    }
}
