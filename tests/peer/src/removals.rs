//! Where request 6 shows. Comparisons count the figures that would be others by rules that a
//! removal must not follow: only these tell the request from them.

use crate::budget::{Priced, LAST_OF_CENTS};
use crate::cost::{removal, Arc, Payment, MAINTAIN, RENOVATE, REPLACE};
use crate::plan::Chain;
use crate::planner::{planned, Planned};
use crate::sheet::{Sheet, REMOVAL};

#[derive(Clone, Copy, Debug, PartialEq, Eq, PartialOrd, Ord)]
pub enum WrongRule {
    NonePaid,
    PaidByMaintaining,
    PaidAtTheHorizon,
    PaidAtLength0,
    /// Replace's where a renovation ends, and renovate's where a replacement does.
    OfTheOtherRecord,
    AfterTheStepsOfTheStart,
    /// In version 1, the lives of the next record taken for an amount.
    OfTheNextRecord,
}

pub const WRONG_RULES: [WrongRule; 7] = [
    WrongRule::NonePaid,
    WrongRule::PaidByMaintaining,
    WrongRule::PaidAtTheHorizon,
    WrongRule::PaidAtLength0,
    WrongRule::OfTheOtherRecord,
    WrongRule::AfterTheStepsOfTheStart,
    WrongRule::OfTheNextRecord,
];

/// Those that show.
pub fn told_from(shows: impl Fn(WrongRule) -> bool) -> impl Iterator<Item = WrongRule> {
    WRONG_RULES.into_iter().filter(move |&wrong| shows(wrong))
}

/// Option, start and end.
type Activity = (usize, i64, i64);

impl WrongRule {
    /// By how much an activity would pay more, or less if it is negative. Of a rule that only adds
    /// payments, or only leaves them out, the amount stands for the figure: steps round up, so one
    /// is 0 where the other is.
    fn more(self, sheet: &Sheet, at: Activity, figure: impl Fn(&Payment) -> u128) -> i128 {
        let (option, start, end) = at;
        let removed = option as u64 != MAINTAIN;
        let [kept, before] = [start < end, end < sheet.horizon];
        let paid = removed && kept && before;
        let amount_if = |wrongly: bool| match wrongly {
            true => sheet.records[option].removal.into(),
            false => 0,
        };
        match self {
            WrongRule::NonePaid => -amount_if(paid),
            WrongRule::PaidByMaintaining => amount_if(!removed && kept && before),
            WrongRule::PaidAtTheHorizon => amount_if(removed && kept && !before),
            WrongRule::PaidAtLength0 => amount_if(removed && !kept && before),
            _ if !paid => 0,
            WrongRule::OfTheNextRecord => lives_of_the_next(sheet, option),
            WrongRule::OfTheOtherRecord => {
                let other = RENOVATE + REPLACE - option as u64;
                let [wrong, right] = [other as usize, option].map(|of| paid_by(sheet, of, end));
                figure(&wrong) as i128 - figure(&right) as i128
            }
            WrongRule::AfterTheStepsOfTheStart => {
                let [wrong, right] = [start, end].map(|year| paid_by(sheet, option, year));
                figure(&wrong) as i128 - figure(&right) as i128
            }
        }
    }

    /// In the cost of an arc without fault.
    pub fn shows_in_arc(self, sheet: &Sheet, arc: Arc) -> bool {
        let at = (arc.option as usize, arc.start as i64, arc.end as i64);
        self.more(sheet, at, |paid| paid.value(sheet.rate)) != 0
    }

    /// In the total of a feasible chain.
    pub fn shows_in_chain(self, sheet: &Sheet, chain: &Chain) -> bool {
        let kept = chain.activities().into_iter();
        let more = kept.map(|at| self.more(sheet, at, |paid| paid.value(sheet.rate)));
        more.sum::<i128>() != 0
    }

    /// In the words of units of a budget; each has what one activity pays at its end, at most.
    pub fn shows_in_units(self, priced: &Priced) -> bool {
        let sheet = &priced.sheet;
        let mut kept = priced.chain.activities().into_iter();
        kept.any(|at| self.more(sheet, at, |paid| paid.value(sheet.rate)) != 0)
    }

    /// In its words of cents.
    pub fn shows_in_cents(self, priced: &Priced, general: u64) -> bool {
        let kept = priced.chain.activities().into_iter();
        let mut early = kept.filter(|&(_, _, end)| end <= LAST_OF_CENTS);
        early.any(|at| self.more(&priced.sheet, at, |paid| paid.word_of_cents(general)) != 0)
    }
}

/// The removal of an option's record in a year before the horizon.
fn paid_by(sheet: &Sheet, option: usize, year: i64) -> Payment {
    let paid = removal(option as u64, &sheet.records[option], year, sheet.horizon);
    paid.expect("a year before the horizon")
}

/// The first four bytes of the record that follows one of version 1, as an amount.
fn lives_of_the_next(sheet: &Sheet, option: usize) -> i128 {
    let next = sheet.records.get(option + 1);
    let next = next.filter(|_| !sheet.layout.has(REMOVAL));
    next.map_or(0, |next| i128::from(next.shortest + (next.longest << 16)))
}

/// Whether another chain would be planned if all removals were 0.
pub fn change_the_chain(sheet: &Sheet, with_removals: &Planned) -> bool {
    if sheet.records.iter().all(|record| record.removal == 0) {
        return false;
    }
    let mut without = sheet.clone();
    for record in &mut without.records {
        record.removal = 0;
    }
    let chain = |planned: &Planned| planned.choice.as_ref().map(|choice| choice.chain.clone());
    chain(&planned(&without)) != chain(with_removals)
}

#[cfg(test)]
mod tests {
    use super::*;
    use crate::cases::{lasting_sheet, three_removals};
    use crate::check::checked;
    use crate::plan::written;
    use crate::sheet::*;
    use WrongRule::*;

    fn told_by_arc(bytes: &[u8], option: u64, start: u64, end: u64) -> Vec<WrongRule> {
        let sheet = checked(bytes).expect("a sheet");
        told_from(|wrong| wrong.shows_in_arc(&sheet, Arc { option, start, end })).collect()
    }

    const PAID: [WrongRule; 3] = [NonePaid, OfTheOtherRecord, AfterTheStepsOfTheStart];

    #[test]
    fn in_the_arcs_that_tell() {
        let sheet = three_removals();
        assert_eq!(told_by_arc(&sheet, 0, 0, 0), []);
        assert_eq!(told_by_arc(&sheet, 0, 0, 2), [PaidByMaintaining]);
        assert_eq!(told_by_arc(&sheet, 1, 3, 3), [PaidAtLength0]);
        assert_eq!(told_by_arc(&sheet, 1, 4, 4), []);
        for option in [1, 2] {
            assert_eq!(told_by_arc(&sheet, option, 2, 4), [PaidAtTheHorizon]);
            assert_eq!(told_by_arc(&sheet, option, 1, 3), PAID);
        }
    }

    #[test]
    fn not_where_the_figures_are_the_same() {
        let mut sheet = three_removals();
        write(&mut sheet, RATE, 0);
        for option in 0..OPTIONS {
            write_all_in(&mut sheet, option, &[(REMOVAL, 1), (REMOVAL_INFLATION, 0)]);
        }
        assert_eq!(told_by_arc(&sheet, 1, 1, 3), [NonePaid]);
        (0..OPTIONS).for_each(|option| write_in(&mut sheet, option, REMOVAL, 0));
        for (option, start, end) in [(0, 0, 1), (1, 1, 1), (1, 1, 3), (2, 1, 3), (2, 2, 4)] {
            assert_eq!(told_by_arc(&sheet, option, start, end), []);
        }
    }

    #[test]
    fn in_renovations_of_version_1() {
        let mut sheet = with_head(4, 0);
        for option in [0, 1] {
            write_all_in(&mut sheet, option, &[(SHORTEST, 1), (LONGEST, 2)]);
        }
        assert_eq!(told_by_arc(&sheet, 1, 1, 2), []);
        write_all_in(&mut sheet, 2, &[(SHORTEST, 1), (LONGEST, 2)]);
        assert_eq!(told_by_arc(&sheet, 1, 1, 2), [OfTheNextRecord]);
        for (option, start, end) in [(0, 0, 1), (1, 1, 1), (1, 2, 4), (2, 1, 2)] {
            assert_eq!(told_by_arc(&sheet, option, start, end), []);
        }
    }

    // Where money keeps its value, a renovation and a replacement that end before T exchange their
    // removals, and the total stays.
    #[test]
    fn in_a_chain_and_in_its_words() {
        let mut sheet = three_removals();
        let ends = vec![3, 4];
        let plan = written(&Chain { i: 1, j: 2, ends }, 0);
        let told_of = |bytes: &[u8]| -> [Vec<WrongRule>; 3] {
            let priced = Priced::of(bytes, &plan).expect("a plan");
            [
                told_from(|wrong| wrong.shows_in_chain(&priced.sheet, &priced.chain)).collect(),
                told_from(|wrong| wrong.shows_in_units(&priced)).collect(),
                told_from(|wrong| wrong.shows_in_cents(&priced, 50_000)).collect(),
            ]
        };
        let all = [
            &[NonePaid, PaidByMaintaining, PaidAtTheHorizon][..],
            &PAID[1..],
        ]
        .concat();
        assert_eq!(told_of(&sheet), [0; 3].map(|_| all.clone()));
        write(&mut sheet, RATE, 0);
        (0..OPTIONS).for_each(|option| write_in(&mut sheet, option, REMOVAL_INFLATION, 0));
        let [total, units, cents] = told_of(&sheet);
        assert_eq!(total, all[..3]);
        assert_eq!(units, all[..4]);
        assert_eq!(cents, all);
    }

    #[test]
    fn in_cents_up_to_year_15() {
        for (end, shows) in [(15, true), (16, false)] {
            let mut sheet = VERSION_2.with_head(17, 0);
            let fields = [(SHORTEST, 1), (LONGEST, 16), (REMOVAL, 1)];
            write_all_in(&mut sheet, 2, &fields);
            let (i, j, ends) = (0, 0, vec![end, 17]);
            let priced = Priced::of(&sheet, &written(&Chain { i, j, ends }, 0)).expect("a plan");
            assert!(NonePaid.shows_in_units(&priced));
            assert_eq!(NonePaid.shows_in_cents(&priced, 0), shows);
        }
    }

    #[test]
    fn in_the_choice_of_a_chain() {
        for (removal, changes) in [(0, false), (2, true)] {
            let mut bytes = lasting_sheet();
            write_in(&mut bytes, 2, REMOVAL, removal);
            let sheet = checked(&bytes).expect("a sheet");
            assert_eq!(change_the_chain(&sheet, &planned(&sheet)), changes);
        }
        let sheet = checked(&three_removals()).expect("a sheet");
        assert!(!change_the_chain(&sheet, &planned(&sheet)));
    }
}
