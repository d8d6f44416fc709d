//! The outcomes of budgeting that are told apart when they are counted.

use crate::answer::described;
use crate::budget::{Budget, Call, Priced, Refusal, HIGHEST_GENERAL, LAST_OF_CENTS};
use crate::compare::possible_answers;
use crate::old_motors::{show_in_cents, show_in_units};
use crate::parts::Parts;
use crate::price;
use crate::quotients::{Rest, RESTS};
use crate::removals::{told_from, WrongRule, WRONG_RULES};
use crate::rises::{Rate, RATES};

/// What is refused first.
#[derive(Clone, Copy, Debug, PartialEq, Eq, PartialOrd, Ord)]
pub enum First {
    Sheet,
    Plan,
    General,
    Lists,
}

impl First {
    fn of(refusal: &Refusal) -> First {
        match refusal {
            Refusal::OfPrice(price::Refusal::OfSheet(_)) => First::Sheet,
            Refusal::OfPrice(price::Refusal::OfPlan(_)) => First::Plan,
            Refusal::HighGeneral => First::General,
            Refusal::FewWords { .. } => First::Lists,
        }
    }
}

#[derive(Clone, Copy, Debug, PartialEq, Eq, PartialOrd, Ord)]
pub enum Kind {
    Number(u64),
    /// The packed answer.
    RefusedSheet(u64),
    /// What is refused first; whether general inflation is too high, and a list too short.
    Refused(First, bool, bool),
    /// Whether there are too few units, and too few cents.
    FewWords(bool, bool),

    /// Of an accepted call: whether there are more units than are needed, and more cents.
    MoreWords(bool, bool),
    Horizon(Horizon),
    PaidInYear15,
    General(u64),
    Chain(Parts),
    /// The plan is the library's own.
    Planned,
    /// Words would be others if the motors of a renovation were new.
    OldMotorsInUnits,
    OldMotorsInCents,
    /// Words would be others by a wrong rule.
    RemovalInUnits(WrongRule),
    RemovalInCents(WrongRule),
    Rise(Rate, Rest),
}

#[derive(Clone, Copy, Debug, PartialEq, Eq, PartialOrd, Ord)]
pub enum Horizon {
    Below15,
    At15,
    At16,
    Above16,
    At300,
}

impl Horizon {
    fn of(horizon: usize) -> Horizon {
        match horizon {
            ..15 => Horizon::Below15,
            15 => Horizon::At15,
            16 => Horizon::At16,
            17..300 => Horizon::Above16,
            _ => Horizon::At300,
        }
    }
}

const PAIRS: [(bool, bool); 4] = [(false, false), (false, true), (true, false), (true, true)];

impl Kind {
    pub fn all() -> impl Iterator<Item = Kind> {
        Kind::of_calls().chain(Kind::of_accepted_calls())
    }

    fn of_calls() -> impl Iterator<Item = Kind> {
        let sheets = possible_answers().filter(|&packed| packed != 3);
        let first = [First::Sheet, First::Plan].into_iter();
        let first = first.flat_map(|first| PAIRS.map(|(high, short)| (first, high, short)));
        let then = [(First::General, true, false), (First::General, true, true)];
        let last = [(First::Lists, false, true)];
        let refused = first.chain(then).chain(last);
        let few = PAIRS.into_iter().skip(1);
        [0, 14, 15, 16]
            .into_iter()
            .map(Kind::Number)
            .chain(sheets.map(Kind::RefusedSheet))
            .chain(refused.map(|(first, high, short)| Kind::Refused(first, high, short)))
            .chain(few.map(|(units, cents)| Kind::FewWords(units, cents)))
    }

    fn of_accepted_calls() -> impl Iterator<Item = Kind> {
        let horizons = [
            Horizon::Below15,
            Horizon::At15,
            Horizon::At16,
            Horizon::Above16,
            Horizon::At300,
        ];
        let rates = RATES.into_iter();
        PAIRS
            .into_iter()
            .map(|(units, cents)| Kind::MoreWords(units, cents))
            .chain(horizons.map(Kind::Horizon))
            .chain([0, 1, HIGHEST_GENERAL].map(Kind::General))
            .chain([Kind::PaidInYear15, Kind::Planned])
            .chain([Kind::OldMotorsInUnits, Kind::OldMotorsInCents])
            .chain(WRONG_RULES.map(Kind::RemovalInUnits))
            .chain(WRONG_RULES.map(Kind::RemovalInCents))
            .chain(Parts::all().map(Kind::Chain))
            .chain(rates.flat_map(|rate| RESTS.map(|rest| Kind::Rise(rate, rest))))
    }

    /// The kinds of a refused call, by how many words are needed.
    pub fn of_refused([units, cents]: [usize; 2], call: Call, refusal: &Refusal) -> Vec<Kind> {
        let high = call.general > HIGHEST_GENERAL;
        let short = call.units_count < units || call.cents_count < cents;
        let mut kinds = vec![Kind::Refused(First::of(refusal), high, short)];
        kinds.extend(match refusal {
            Refusal::OfPrice(price::Refusal::OfSheet(answer)) => {
                Some(Kind::RefusedSheet(answer.packed()))
            }
            &Refusal::FewWords { units, cents } => Some(Kind::FewWords(units, cents)),
            _ => None,
        });
        kinds
    }

    /// Those of an accepted one, by what is written for which plan.
    pub fn of_accepted(priced: &Priced, call: Call, budget: &Budget) -> Vec<Kind> {
        let [units, cents] = [&budget.units, &budget.cents];
        let more_units = call.units_count > units.len();
        let more_cents = call.cents_count > cents.len();
        let mut kinds = vec![
            Kind::MoreWords(more_units, more_cents),
            Kind::Horizon(Horizon::of(units.len() - 1)),
            Kind::General(call.general),
        ];
        let in_year_15 = cents.get(LAST_OF_CENTS as usize);
        let further = [
            (in_year_15.is_some_and(|&word| word > 0), Kind::PaidInYear15),
            (show_in_cents(priced, call.general), Kind::OldMotorsInCents),
        ];
        let further = further.into_iter().filter(|(is, _)| *is);
        kinds.extend(further.map(|(_, kind)| kind));
        let told = told_from(|wrong| wrong.shows_in_cents(priced, call.general));
        kinds.extend(told.map(Kind::RemovalInCents));
        kinds
    }

    /// Those of every accepted call on a plan.
    pub fn of_plan(sheet: &[u8], priced: &Priced) -> Vec<Kind> {
        let mut kinds = vec![Kind::Chain(Parts::of(sheet, &priced.chain))];
        if show_in_units(priced) {
            kinds.push(Kind::OldMotorsInUnits);
        }
        let told = told_from(|wrong| wrong.shows_in_units(priced));
        kinds.extend(told.map(Kind::RemovalInUnits));
        kinds
    }

    pub fn described(self) -> String {
        match self {
            Kind::RefusedSheet(packed) => described(packed),
            other => format!("{other:?}"),
        }
    }
}
