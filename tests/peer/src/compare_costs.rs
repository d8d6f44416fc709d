//! The comparison of the library's costs with the independent ones, and of some with the exact
//! values of their arcs.

use crate::answer::{described, Answer};
use crate::arc_costs::ArcCosts;
use crate::arcs::{every_arc, far_arcs, limit_arcs, moved, wrapped_arcs};
use crate::cases::*;
use crate::check::checked;
use crate::compare::possible_answers;
use crate::cost::{answer, cost, Arc, Fault, Refusal, RENOVATE};
use crate::damaged::random_sheet;
use crate::exact::judge_cost;
use crate::library;
use crate::old_motors::{costs_with_new, show_in_arc};
use crate::quotients::{quotients, Division, Rest, DIVISIONS, RESTS};
use crate::random::Random;
use crate::removals::{told_from, WrongRule, WRONG_RULES};
use crate::report::{difference, Tally};
use crate::sheet::{Sheet, LAYOUTS};
use crate::sheets::*;
use std::iter::zip;

/// Every kind of outcome must occur this often, or the arcs test too little.
const LEAST_SEEN: u64 = 100;
/// This many sheets get every arc.
const SMALL_SHEETS: usize = 460;
/// This many of them, and this many accepted arcs of each, get numbers up to 2^64 − 1.
const FAR_SHEETS: usize = 30;
const MOVED_ARCS: usize = 8;
/// This many sheets get the arcs near their limits.
const LONG_SHEETS: usize = 40;
const CORNER_SHEETS: usize = 24;
/// This many sheets whose motors age fast get every arc, and this many every renovation.
const MOTORS_SHEETS: usize = 60;
const CORNER_MOTORS_SHEETS: usize = 4;
/// This many sheets on which removals weigh get every arc, and this many those near their limits.
const REMOVAL_SHEETS: usize = 30;
const CORNER_REMOVAL_SHEETS: usize = 1;
/// This many sheets, most of them refused, get a few arcs.
const DAMAGED_SHEETS: usize = 20_000;
/// Every discount rate up to this one gets quotients beside whole numbers.
const HIGHEST_RATE: i64 = 200_000;

/// The outcomes that are told apart when they are counted.
#[derive(Clone, Copy, PartialEq, Eq, PartialOrd, Ord)]
enum Kind {
    /// The packed answer.
    RefusedSheet(u64),
    RefusedArc(Fault),
    /// Length 0 of an option, with its lives not 0 or both 0.
    Empty {
        option: u64,
        offered: bool,
    },
    /// Length 1 or more of an option, on a sheet of a version.
    Costed {
        version: i64,
        option: u64,
    },
    /// As well as the kind above.
    Quotient(Division, Rest),
    /// As well: the cost would be another one if the motors of the renovation were new.
    OldMotors,
    /// As well: it would be another one by a wrong rule.
    Removal(WrongRule),
}

impl Kind {
    fn of_refusal(refusal: Refusal) -> Kind {
        match refusal {
            Refusal::OfSheet(answer) => Kind::RefusedSheet(answer.packed()),
            Refusal::OfArc(fault) => Kind::RefusedArc(fault),
        }
    }

    fn of_accepted(sheet: &Sheet, arc: Arc) -> Kind {
        let option = arc.option;
        let version = sheet.version;
        if arc.start < arc.end {
            Kind::Costed { version, option }
        } else {
            let offered = sheet.records[option as usize].longest > 0;
            Kind::Empty { option, offered }
        }
    }

    fn all() -> impl Iterator<Item = Kind> {
        let sheets = possible_answers().filter(|&packed| packed != 3);
        let faults = [
            Fault::OptionAboveTwo,
            Fault::EndAboveHorizon,
            Fault::EndBeforeStart,
            Fault::MaintainNotFromZero,
            Fault::LengthNotOffered,
        ];
        let empty = [0, 1]
            .into_iter()
            .flat_map(|option| [false, true].map(|offered| Kind::Empty { option, offered }));
        let costed = LAYOUTS.into_iter().flat_map(|layout| {
            let version = layout.version;
            [0, 1, 2].map(|option| Kind::Costed { version, option })
        });
        let quotients = DIVISIONS
            .into_iter()
            .flat_map(|division| RESTS.map(|rest| Kind::Quotient(division, rest)));
        sheets
            .map(Kind::RefusedSheet)
            .chain(faults.map(Kind::RefusedArc))
            .chain(empty)
            .chain(costed)
            .chain(quotients)
            .chain([Kind::OldMotors])
            .chain(WRONG_RULES.map(Kind::Removal))
    }

    fn described(self) -> String {
        match self {
            Kind::RefusedSheet(packed) => described(packed),
            Kind::RefusedArc(fault) => format!("number 13 for {fault:?}"),
            Kind::Empty { option, offered } => {
                format!("length 0 of option {option}, offered {offered},")
            }
            Kind::Costed { version, option } => {
                format!("a cost of option {option} in version {version}")
            }
            Kind::Quotient(division, rest) => format!("{division:?} with rest {rest:?}"),
            Kind::OldMotors => "a cost with old motors".into(),
            Kind::Removal(wrong) => format!("another cost than by {wrong:?}"),
        }
    }
}

/// A sheet of any kind, and what the check says of it.
struct Case<'a> {
    bytes: &'a [u8],
    checked: Result<Sheet, Answer>,
}

impl Case<'_> {
    fn of(bytes: &[u8]) -> Case<'_> {
        let checked = checked(bytes);
        Case { bytes, checked }
    }
}

struct Comparison {
    tally: Tally<Kind>,
    /// How many costs were judged by the exact value.
    judged: u64,
}

impl Comparison {
    fn expect(&mut self, sheet: &[u8], arc: Arc, expected: Answer) -> Result<(), String> {
        let [given, expected] = [library::cost(sheet, arc), expected.packed()];
        if given != expected {
            return Err(format!("{arc:?}: {}", difference(given, expected, sheet)));
        }
        self.tally.compared += 1;
        Ok(())
    }

    /// Whether both accept the arc.
    fn compare(&mut self, case: &Case, arc: Arc) -> Result<bool, String> {
        let outcome = cost(&case.checked, arc);
        self.expect(case.bytes, arc, answer(outcome))?;
        match (&case.checked, outcome) {
            (Ok(sheet), Ok(_)) => self.count(sheet, arc),
            (_, Err(refusal)) => self.tally.saw(Kind::of_refusal(refusal)),
            (Err(_), Ok(_)) => unreachable!("a refused sheet has no costs"),
        }
        Ok(outcome.is_ok())
    }

    /// Counts an arc that both accept.
    fn count(&mut self, sheet: &Sheet, arc: Arc) {
        self.tally.saw(Kind::of_accepted(sheet, arc));
        if show_in_arc(sheet, arc) {
            self.tally.saw(Kind::OldMotors);
        }
        for wrong in told_from(|wrong| wrong.shows_in_arc(sheet, arc)) {
            self.tally.saw(Kind::Removal(wrong));
        }
    }

    /// The arcs that both accept.
    fn compare_all(&mut self, sheet: &[u8], arcs: Vec<Arc>) -> Result<Vec<Arc>, String> {
        let case = Case::of(sheet);
        let mut accepted = Vec::new();
        for arc in arcs {
            if self.compare(&case, arc)? {
                accepted.push(arc);
            }
        }
        Ok(accepted)
    }

    /// Their costs are judged too.
    fn judge_all(&mut self, sheet: &[u8], arcs: Vec<Arc>) -> Result<(), String> {
        let accepted = self.compare_all(sheet, arcs)?;
        for &arc in accepted.iter().filter(|arc| arc.start < arc.end) {
            judge_cost(sheet, arc, library::cost(sheet, arc) / 256)?;
            self.judged += 1;
        }
        Ok(())
    }

    fn small_sheets(&mut self, random: &mut Random) -> Result<(), String> {
        for index in 0..SMALL_SHEETS {
            let sheet = small_sheet(random);
            let accepted = self.compare_all(&sheet, every_arc(&sheet))?;
            if index < FAR_SHEETS {
                self.far_numbers(random, &sheet, &accepted)?;
            }
        }
        Ok(())
    }

    /// Numbers up to 2^64 − 1 for the option and the years.
    fn far_numbers(
        &mut self,
        random: &mut Random,
        sheet: &[u8],
        accepted: &[Arc],
    ) -> Result<(), String> {
        self.compare_all(sheet, far_arcs(sheet))?;
        self.compare_all(sheet, wrapped_arcs(sheet))?;
        for _ in 0..MOVED_ARCS {
            let arc = accepted[random.below(accepted.len())];
            self.compare_all(sheet, moved(arc))?;
        }
        Ok(())
    }

    fn near_limits(
        &mut self,
        random: &mut Random,
        make: fn(&mut Random) -> Vec<u8>,
        count: usize,
    ) -> Result<(), String> {
        for _ in 0..count {
            let sheet = make(random);
            self.compare_all(&sheet, limit_arcs(random, &sheet))?;
        }
        Ok(())
    }

    /// Sheets whose renovations keep motors that age fast, up to year 40 and up to year 300.
    fn motors(&mut self, random: &mut Random) -> Result<(), String> {
        let mut small = vec![same_motors_sheet(), postponed_sheet(), replaced_sheet()];
        small.extend((0..MOTORS_SHEETS).map(|_| motors_sheet(random)));
        for sheet in small {
            self.judge_all(&sheet, every_arc(&sheet))?;
        }
        let mut large = vec![fastest_motors_sheet(), steady_motors_sheet()];
        large.extend((0..CORNER_MOTORS_SHEETS).map(|_| corner_motors_sheet(random)));
        for sheet in large {
            let mut arcs = limit_arcs(random, &sheet);
            arcs.retain(|arc| arc.option == RENOVATE);
            self.judge_all(&sheet, arcs)?;
            self.every_renovation(&sheet)?;
        }
        Ok(())
    }

    /// Sheets on which removals weigh, up to year 40 and up to year 300.
    fn removals(&mut self, random: &mut Random) -> Result<(), String> {
        let mut small = vec![case_12_with_removal(), three_removals(), lasting_sheet()];
        small.extend((0..REMOVAL_SHEETS).map(|_| removal_sheet(random)));
        for sheet in small {
            self.judge_all(&sheet, every_arc(&sheet))?;
        }
        for _ in 0..CORNER_REMOVAL_SHEETS {
            let sheet = corner_removal_sheet(random);
            self.judge_all(&sheet, limit_arcs(random, &sheet))?;
        }
        Ok(())
    }

    /// The costs are those of the planner, which takes little time for all of them.
    fn every_renovation(&mut self, bytes: &[u8]) -> Result<(), String> {
        let sheet = checked(bytes).map_err(|_| "not a sheet")?;
        let (version, option) = (sheet.version, RENOVATE);
        let [renovations, with_new] = [ArcCosts::of(&sheet, 1), costs_with_new(&sheet)];
        for start in 0..=sheet.horizon as usize {
            let pairs = zip(renovations.from(start), with_new.from(start));
            for ((end, cost), (_, with_new)) in pairs {
                let [start, end] = [start, end].map(|year| year as u64);
                let arc = Arc { option, start, end };
                self.expect(bytes, arc, Answer::accepted(cost))?;
                self.tally.saw(Kind::Costed { version, option });
                if cost != with_new {
                    self.tally.saw(Kind::OldMotors);
                }
            }
        }
        Ok(())
    }

    /// At every discount rate, both divisions with quotients that are whole, just above and just
    /// below a whole number.
    fn every_rate(&mut self, random: &mut Random) -> Result<(), String> {
        for rate in 0..=HIGHEST_RATE {
            for quotient in quotients(random, rate) {
                self.compare(&Case::of(&quotient.sheet), quotient.arc)?;
                let kind = Kind::Quotient(quotient.division, quotient.rest);
                self.tally.saw(kind);
            }
        }
        Ok(())
    }

    /// With and without a fault of the arc: the sheet's refusal comes first.
    fn damaged_sheets(&mut self, random: &mut Random) -> Result<(), String> {
        for _ in 0..DAMAGED_SHEETS {
            let sheet = random_sheet(random);
            let option = random.below(4) as u64;
            let years = [(0, 0), (0, 1), (1, 0), (u64::MAX, u64::MAX)];
            let arcs = years.map(|(start, end)| Arc { option, start, end });
            self.compare_all(&sheet, arcs.into())?;
        }
        Ok(())
    }

    fn summary(&self) -> Result<String, String> {
        let kinds = Kind::all().map(|kind| (kind, kind.described()));
        let calls = self.tally.summary("arcs", kinds, LEAST_SEEN)?;
        Ok(format!(
            "{calls}; at every rate to {HIGHEST_RATE}, both divisions with quotients that are \
             whole, just above and just below a whole number; all {} costs judged, from year t to \
             u, from 0 to (A(u) − A(t))/2 units above their exact value, A(y) being 6y² + 4y and \
             A(T) 6T² + 2T; {} costs would be others if renovating renewed the motors, {} if no \
             removal were paid",
            self.judged,
            self.tally.seen(Kind::OldMotors),
            self.tally.seen(Kind::Removal(WrongRule::NonePaid))
        ))
    }
}

pub fn compare_costs(seed: u64) -> Result<String, String> {
    let mut random = Random(seed);
    let mut comparison = Comparison {
        tally: Tally::new(),
        judged: 0,
    };
    comparison.small_sheets(&mut random)?;
    comparison.near_limits(&mut random, long_sheet, LONG_SHEETS)?;
    comparison.near_limits(&mut random, corner_sheet, CORNER_SHEETS)?;
    comparison.motors(&mut random)?;
    comparison.removals(&mut random)?;
    comparison.damaged_sheets(&mut random)?;
    comparison.every_rate(&mut random)?;
    comparison.summary()
}
