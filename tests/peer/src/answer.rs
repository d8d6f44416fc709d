//! The answer of a call, as document 01 numbers it.

/// The option that comes with every number but 5 to 9.
const NO_OPTION: u64 = 3;

#[derive(Clone, Copy, Debug, PartialEq)]
pub struct Answer {
    /// The cost of an accepted arc, the total of an accepted plan or a factor; 0 with a refusal
    /// and from checking.
    pub total: u64,
    /// The number of the refusal, 0 if there is none.
    pub number: u64,
    /// The option that the refusal is about.
    pub option: u64,
}

impl Answer {
    pub const fn accepted(total: u64) -> Answer {
        Answer {
            total,
            ..Answer::refused(0)
        }
    }

    pub const fn refused(number: u64) -> Answer {
        Answer::refused_in(NO_OPTION, number)
    }

    pub const fn refused_in(option: u64, number: u64) -> Answer {
        Answer {
            total: 0,
            number,
            option,
        }
    }

    /// The answer as the C form returns it.
    pub fn packed(self) -> u64 {
        self.total * 256 + self.number * 4 + self.option
    }
}

/// The three parts of a packed answer.
pub fn described(packed: u64) -> String {
    format!(
        "number {} option {} total {}",
        packed % 256 / 4,
        packed % 4,
        packed / 256
    )
}
