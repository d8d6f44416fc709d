//! The planning sheet of documents 01 and 02: where its fields stand, and how they are read.
//! Fields are little-endian. Every number is read as an i64, so that the rules need no casts.

pub const MARK: [u8; 3] = *b"RCS";
pub const OPTIONS: usize = 3;
pub const OVERHAULS: usize = 8;

/// A field of a sheet or of an option record: its first byte and its width.
#[derive(Clone, Copy)]
pub struct Field {
    pub at: usize,
    pub bytes: usize,
}

pub const fn field(at: usize, bytes: usize) -> Field {
    Field { at, bytes }
}

// The head; the mark is in bytes 0 to 2.
pub const VERSION: Field = field(3, 2);
pub const HORIZON: Field = field(5, 2);
pub const RATE: Field = field(7, 4);
const RECORDS: usize = 11;

// An option record, counted from its own first byte.
pub const SHORTEST: Field = field(0, 2);
pub const LONGEST: Field = field(2, 2);
pub const INVESTMENT: Field = field(4, 4);
pub const INVESTMENT_INFLATION: Field = field(8, 4);
pub const MAINTENANCE: Field = field(12, 4);
pub const MAINTENANCE_INFLATION: Field = field(16, 4);
pub const MAINTENANCE_AGEING: Field = field(20, 4);
pub const ELECTRICITY: Field = field(24, 4);
pub const ELECTRICITY_INFLATION: Field = field(28, 4);
pub const ELECTRICITY_AGEING: Field = field(32, 4);
pub const OVERHAUL_INFLATION: Field = field(36, 4);
pub const OVERHAUL_COUNT: Field = field(40, 1);
const OVERHAUL_LIST: usize = 41;
const OVERHAUL_BYTES: usize = 6;
// Only in the records of version 2.
pub const REMOVAL: Field = field(89, 4);
pub const REMOVAL_INFLATION: Field = field(93, 4);

pub const fn overhaul_age(entry: usize) -> Field {
    field(OVERHAUL_LIST + OVERHAUL_BYTES * entry, 2)
}

pub const fn overhaul_amount(entry: usize) -> Field {
    field(OVERHAUL_LIST + OVERHAUL_BYTES * entry + 2, 4)
}

/// Each byte of an overhaul, as a field.
pub fn overhaul_bytes(entry: usize) -> impl Iterator<Item = Field> {
    (0..OVERHAUL_BYTES).map(move |byte| field(OVERHAUL_LIST + OVERHAUL_BYTES * entry + byte, 1))
}

/// Where the records of a sheet stand. It goes by the length of the sheet, whatever its version.
#[derive(Clone, Copy, Debug, PartialEq)]
pub struct Layout {
    /// The one that goes with the length.
    pub version: i64,
    record_bytes: usize,
}

pub const VERSION_1: Layout = Layout {
    version: 1,
    record_bytes: 89,
};
pub const VERSION_2: Layout = Layout {
    version: 2,
    record_bytes: 97,
};
pub const LAYOUTS: [Layout; 2] = [VERSION_1, VERSION_2];

impl Layout {
    pub const fn sheet_bytes(self) -> usize {
        RECORDS + OPTIONS * self.record_bytes
    }

    pub fn of_length(length: usize) -> Option<Layout> {
        let mut layouts = LAYOUTS.into_iter();
        layouts.find(|layout| layout.sheet_bytes() == length)
    }

    pub fn of(sheet: &[u8]) -> Layout {
        Layout::of_length(sheet.len()).expect("278 or 302 bytes")
    }

    /// A record's field as a field of the whole sheet.
    pub const fn of_option(self, option: usize, inner: Field) -> Field {
        field(RECORDS + self.record_bytes * option + inner.at, inner.bytes)
    }

    /// Whether the records have this field.
    pub const fn has(self, inner: Field) -> bool {
        inner.at + inner.bytes <= self.record_bytes
    }

    /// A sheet with all records zero.
    pub fn with_head(self, horizon: i64, rate: i64) -> Vec<u8> {
        let mut sheet = vec![0; self.sheet_bytes()];
        let head = [(VERSION, self.version), (HORIZON, horizon), (RATE, rate)];
        sheet[..MARK.len()].copy_from_slice(&MARK);
        for (field, value) in head {
            write(&mut sheet, field, value);
        }
        sheet
    }
}

/// A sheet of version 1 with all records zero.
pub fn with_head(horizon: i64, rate: i64) -> Vec<u8> {
    VERSION_1.with_head(horizon, rate)
}

/// A sheet of version 1 as one of version 2, with removals of 0.
pub fn as_version_2(sheet: &[u8]) -> Vec<u8> {
    let (head, records) = sheet.split_at(RECORDS);
    let mut longer = head.to_vec();
    for record in records.chunks(VERSION_1.record_bytes) {
        longer.extend(record);
        longer.resize(longer.len() + REMOVAL.bytes + REMOVAL_INFLATION.bytes, 0);
    }
    write(&mut longer, VERSION, VERSION_2.version);
    longer
}

pub fn unsigned(sheet: &[u8], field: Field) -> i64 {
    let bytes = &sheet[field.at..field.at + field.bytes];
    bytes
        .iter()
        .rev()
        .fold(0, |sum, &byte| sum * 256 + i64::from(byte))
}

/// A four-byte field in two's complement.
pub fn signed(sheet: &[u8], field: Field) -> i64 {
    let value = unsigned(sheet, field);
    if value < 1 << 31 {
        value
    } else {
        value - (1 << 32)
    }
}

/// A record's field as a field of a sheet of either length.
pub fn of_option(sheet: &[u8], option: usize, inner: Field) -> Field {
    Layout::of(sheet).of_option(option, inner)
}

pub fn unsigned_in(sheet: &[u8], option: usize, inner: Field) -> i64 {
    unsigned(sheet, of_option(sheet, option, inner))
}

#[cfg(test)]
pub fn signed_in(sheet: &[u8], option: usize, inner: Field) -> i64 {
    signed(sheet, of_option(sheet, option, inner))
}

/// Puts the low bytes of a value into a field.
pub fn write(sheet: &mut [u8], field: Field, value: i64) {
    let bytes = value.to_le_bytes();
    sheet[field.at..field.at + field.bytes].copy_from_slice(&bytes[..field.bytes]);
}

/// The same of a record's field.
pub fn write_in(sheet: &mut [u8], option: usize, inner: Field, value: i64) {
    let field = of_option(sheet, option, inner);
    write(sheet, field, value);
}

pub fn write_all_in(sheet: &mut [u8], option: usize, values: &[(Field, i64)]) {
    for &(inner, value) in values {
        write_in(sheet, option, inner, value);
    }
}

#[derive(Clone)]
pub struct Sheet {
    pub layout: Layout,
    pub mark: [u8; 3],
    pub version: i64,
    pub horizon: i64,
    pub rate: i64,
    pub records: [Record; OPTIONS],
}

#[derive(Clone)]
pub struct Record {
    pub shortest: i64,
    pub longest: i64,
    pub investment: i64,
    pub investment_inflation: i64,
    pub maintenance: Flow,
    pub electricity: Flow,
    pub overhaul_inflation: i64,
    pub overhaul_count: i64,
    pub overhauls: [Overhaul; OVERHAULS],
    /// Both 0 in version 1.
    pub removal: i64,
    pub removal_inflation: i64,
}

/// A payment of every year in service.
#[derive(Clone)]
pub struct Flow {
    pub amount: i64,
    pub inflation: i64,
    pub ageing: i64,
}

#[derive(Clone)]
pub struct Overhaul {
    pub age: i64,
    pub amount: i64,
}

/// Reads a sheet of a right length; there is none in other lengths.
pub fn read(sheet: &[u8]) -> Option<Sheet> {
    let layout = Layout::of_length(sheet.len())?;
    Some(Sheet {
        layout,
        mark: [sheet[0], sheet[1], sheet[2]],
        version: unsigned(sheet, VERSION),
        horizon: unsigned(sheet, HORIZON),
        rate: unsigned(sheet, RATE),
        records: [0, 1, 2].map(|option| read_record(sheet, layout, option)),
    })
}

fn read_record(sheet: &[u8], layout: Layout, option: usize) -> Record {
    let natural = |inner| unsigned(sheet, layout.of_option(option, inner));
    let integer = |inner| signed(sheet, layout.of_option(option, inner));
    let [removal, removal_inflation] = match layout.has(REMOVAL) {
        true => [natural(REMOVAL), integer(REMOVAL_INFLATION)],
        false => [0, 0],
    };
    Record {
        shortest: natural(SHORTEST),
        longest: natural(LONGEST),
        investment: natural(INVESTMENT),
        investment_inflation: integer(INVESTMENT_INFLATION),
        maintenance: Flow {
            amount: natural(MAINTENANCE),
            inflation: integer(MAINTENANCE_INFLATION),
            ageing: natural(MAINTENANCE_AGEING),
        },
        electricity: Flow {
            amount: natural(ELECTRICITY),
            inflation: integer(ELECTRICITY_INFLATION),
            ageing: natural(ELECTRICITY_AGEING),
        },
        overhaul_inflation: integer(OVERHAUL_INFLATION),
        overhaul_count: natural(OVERHAUL_COUNT),
        overhauls: [0, 1, 2, 3, 4, 5, 6, 7].map(|entry| Overhaul {
            age: natural(overhaul_age(entry)),
            amount: natural(overhaul_amount(entry)),
        }),
        removal,
        removal_inflation,
    }
}

#[cfg(test)]
mod tests {
    use super::*;

    #[test]
    fn where_the_records_start_and_end() {
        for (layout, bytes, starts) in [
            (VERSION_1, 278, [11, 100, 189]),
            (VERSION_2, 302, [11, 108, 205]),
        ] {
            assert_eq!(layout.sheet_bytes(), bytes);
            assert_eq!(Layout::of_length(bytes), Some(layout));
            assert_eq!(layout.with_head(1, 0).len(), bytes);
            let first = |option| layout.of_option(option, SHORTEST).at;
            assert_eq!([0, 1, 2].map(first), starts);
        }
        for length in [0, 277, 279, 301, 303] {
            assert_eq!(Layout::of_length(length), None);
        }
        assert_eq!(overhaul_amount(7).at + 4, REMOVAL.at);
        assert_eq!(VERSION_2.of_option(2, REMOVAL_INFLATION).at + 4, 302);
    }

    /// Byte k of the sheet is k modulo 251.
    fn numbered(layout: Layout) -> Sheet {
        let bytes: Vec<u8> = (0..layout.sheet_bytes())
            .map(|at| (at % 251) as u8)
            .collect();
        read(&bytes).expect("a right length")
    }

    // The first bytes of the records that follow are not 0.
    #[test]
    fn version_1_has_no_removal() {
        for record in numbered(VERSION_1).records {
            assert_eq!([record.removal, record.removal_inflation], [0, 0]);
        }
    }

    // Bytes 100 to 107, 197 to 204 and 294 to 301, the last ones as 43 to 50.
    #[test]
    fn removals_of_version_2_by_their_bytes() {
        let records = numbered(VERSION_2).records;
        let removals = records.map(|record| [record.removal, record.removal_inflation]);
        let number = |bytes: [u8; 4]| i64::from(i32::from_le_bytes(bytes));
        let unsigned = |bytes: [u8; 4]| i64::from(u32::from_le_bytes(bytes));
        assert_eq!(
            removals,
            [
                [unsigned([100, 101, 102, 103]), number([104, 105, 106, 107])],
                [unsigned([197, 198, 199, 200]), number([201, 202, 203, 204])],
                [unsigned([43, 44, 45, 46]), number([47, 48, 49, 50])],
            ]
        );
    }

    #[test]
    fn version_1_as_version_2() {
        let mut sheet = with_head(30, 40_000);
        for option in 0..OPTIONS {
            write_in(&mut sheet, option, SHORTEST, 7 + option as i64);
            write_in(&mut sheet, option, overhaul_amount(7), 9);
        }
        let longer = as_version_2(&sheet);
        assert_eq!(Layout::of(&longer), VERSION_2);
        assert_eq!(unsigned(&longer, VERSION), 2);
        assert_eq!(unsigned(&longer, HORIZON), 30);
        for option in 0..OPTIONS {
            assert_eq!(unsigned_in(&longer, option, SHORTEST), 7 + option as i64);
            assert_eq!(unsigned_in(&longer, option, overhaul_amount(7)), 9);
            assert_eq!(unsigned_in(&longer, option, REMOVAL), 0);
            assert_eq!(signed_in(&longer, option, REMOVAL_INFLATION), 0);
        }
    }
}
