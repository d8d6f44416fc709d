//! The comparison of the library's totals with the independent ones, and with the exact values of
//! their chains.

use crate::answer::described;
use crate::cases::*;
use crate::check::checked;
use crate::compare::possible_answers;
use crate::damaged::random_sheet;
use crate::exact::{judge_total, totals_judged};
use crate::library;
use crate::listing::feasible_chains;
use crate::old_motors::show_in_chain;
use crate::parts::Parts;
use crate::plan::{read, written, Chain, Missing};
use crate::plans::*;
use crate::price::{answer, price, Fault, Refusal};
use crate::random::Random;
use crate::removals::{told_from, WrongRule, WRONG_RULES};
use crate::report::{difference, hex, Tally};
use crate::sheet::{unsigned, HORIZON};
use crate::sheets::*;

/// Every kind of outcome must occur this often, or the plans test too little.
const LEAST_SEEN: u64 = 100;
/// This many sheets get a dozen plans each.
const CHAINED_SHEETS: usize = 11_000;
const SMALL_SHEETS: usize = 3_000;
const LONG_SHEETS: usize = 250;
const CORNER_SHEETS: usize = 250;
const MOTORS_SHEETS: usize = 2_000;
const CORNER_MOTORS_SHEETS: usize = 30;
const REMOVAL_SHEETS: usize = 1_000;
/// This many get every bit, every length and other values in every number of one plan.
const SWEPT_SHEETS: usize = 40;
/// This many, most of them refused, get a few plans.
const DAMAGED_SHEETS: usize = 5_000;
/// Of a plan's bytes, a difference shows this many.
const SHOWN_BYTES: usize = 640;

/// The outcomes that are told apart when they are counted.
#[derive(Clone, Copy, PartialEq, Eq, PartialOrd, Ord)]
enum Kind {
    /// The packed answer.
    RefusedSheet(u64),
    /// The only fault of the plan.
    RefusedPlan(Fault),
    SeveralFaults,
    Priced(Parts),
    /// As well as the kind above.
    PricedTo300,
    /// As well: the total would be another one if the motors of a renovation were new.
    OldMotors,
    /// As well: it would be another one by a wrong rule.
    Removal(WrongRule),
}

fn all_faults() -> Vec<Fault> {
    let of_options = (0..3).flat_map(|option| {
        let kinds = [Fault::NotOffered, Fault::BelowShortest, Fault::AboveLongest];
        kinds.map(|kind| kind(option))
    });
    let mut list = vec![
        Fault::Lacks(Missing::Head),
        Fault::Lacks(Missing::Ends),
        Fault::LongerThanItsEnds,
        Fault::RenovateFalls,
        Fault::ReplacementFalls,
        Fault::ReplacementIsEmpty,
        Fault::YearPastHorizon,
        Fault::StopsBeforeHorizon,
    ];
    list.extend((0..3).map(Fault::Mark));
    list.extend((0..2).map(Fault::Version));
    list.extend(of_options);
    list
}

impl Kind {
    fn of(sheet: &[u8], plan: &[u8], outcome: &Result<u64, Refusal>) -> Kind {
        match outcome {
            Err(Refusal::OfSheet(answer)) => Kind::RefusedSheet(answer.packed()),
            Err(Refusal::OfPlan(faults)) => match faults.first() {
                Some(&fault) if faults.len() == 1 => Kind::RefusedPlan(fault),
                _ => Kind::SeveralFaults,
            },
            Ok(_) => {
                let chain = read(plan).expect("an accepted plan");
                Kind::Priced(Parts::of(sheet, &chain))
            }
        }
    }

    fn all() -> impl Iterator<Item = Kind> {
        let sheets = possible_answers().filter(|&packed| packed != 3);
        sheets
            .map(Kind::RefusedSheet)
            .chain(all_faults().into_iter().map(Kind::RefusedPlan))
            .chain([Kind::SeveralFaults])
            .chain(Parts::all().map(Kind::Priced))
            .chain([Kind::PricedTo300, Kind::OldMotors])
            .chain(WRONG_RULES.map(Kind::Removal))
    }

    fn described(self) -> String {
        match self {
            Kind::RefusedSheet(packed) => described(packed),
            Kind::RefusedPlan(fault) => format!("number 14 for {fault:?} alone"),
            Kind::SeveralFaults => "number 14 for several faults".into(),
            Kind::Priced(parts) => parts.described(),
            Kind::PricedTo300 => "a chain to year 300".into(),
            Kind::OldMotors => "a total with old motors".into(),
            Kind::Removal(wrong) => format!("another total than by {wrong:?}"),
        }
    }
}

struct Comparison {
    tally: Tally<Kind>,
    /// How many plans were accepted, each total judged by the exact value.
    totals: u64,
}

impl Comparison {
    fn compare(&mut self, sheet: &[u8], plan: &[u8]) -> Result<(), String> {
        let outcome = price(sheet, plan);
        let expected = answer(&outcome).packed();
        let answer = library::price(sheet, plan);
        if answer != expected {
            let shown = hex(&plan[..plan.len().min(SHOWN_BYTES)]);
            let difference = difference(answer, expected, sheet);
            return Err(format!(
                "plan of {} bytes {shown}: {difference}",
                plan.len()
            ));
        }
        self.tally.compared += 1;
        self.tally.saw(Kind::of(sheet, plan, &outcome));
        if outcome.is_ok() {
            self.accepted(sheet, plan, answer / 256)?;
        }
        Ok(())
    }

    fn accepted(&mut self, sheet: &[u8], plan: &[u8], total: u64) -> Result<(), String> {
        judge_total(sheet, plan, total)?;
        self.totals += 1;
        if unsigned(sheet, HORIZON) == 300 {
            self.tally.saw(Kind::PricedTo300);
        }
        let sheet = checked(sheet).expect("an accepted sheet");
        let chain = read(plan).expect("an accepted plan");
        if show_in_chain(&sheet, &chain) {
            self.tally.saw(Kind::OldMotors);
        }
        for wrong in told_from(|wrong| wrong.shows_in_chain(&sheet, &chain)) {
            self.tally.saw(Kind::Removal(wrong));
        }
        Ok(())
    }

    fn compare_all(&mut self, sheet: &[u8], plans: Vec<Vec<u8>>) -> Result<(), String> {
        plans.iter().try_for_each(|plan| self.compare(sheet, plan))
    }

    /// A dozen plans for each of some sheets.
    fn some_plans(
        &mut self,
        random: &mut Random,
        make: fn(&mut Random) -> Vec<u8>,
        count: usize,
    ) -> Result<(), String> {
        for _ in 0..count {
            let sheet = make(random);
            let horizon = unsigned(&sheet, HORIZON);
            let chain = some_chain_on(random, &sheet);
            let right = plan_of(random, &chain);
            let other_shape = reshaped(random, &chain, horizon);
            let mut plans = vec![
                plan_of(random, &chain),
                plan_of(random, &other_shape),
                other_number(random, &right, horizon),
                other_number(random, &right, horizon),
                flipped(random, &right),
                flipped(random, &right),
                other_length(random, &right),
                other_count(random, &right),
                right,
            ];
            for _ in 0..3 {
                plans.extend(chain_beside(random, &sheet).map(|chain| plan_of(random, &chain)));
            }
            self.compare_all(&sheet, plans)?;
        }
        Ok(())
    }

    /// Every chain of some sheets on which request 4 or 6 shows.
    fn every_chain(&mut self) -> Result<(), String> {
        for sheet in [
            same_motors_sheet(),
            postponed_sheet(),
            replaced_sheet(),
            case_12_with_removal(),
            three_removals(),
            lasting_sheet(),
        ] {
            let chains = feasible_chains(&checked(&sheet).map_err(|_| "not a sheet")?);
            let plans = chains.iter().map(|chain| written(chain, 0)).collect();
            self.compare_all(&sheet, plans)?;
        }
        Ok(())
    }

    fn swept_plans(&mut self, random: &mut Random) -> Result<(), String> {
        for _ in 0..SWEPT_SHEETS {
            let sheet = chained_sheet(random);
            let chain = some_chain_on(random, &sheet);
            let plan = plan_of(random, &chain);
            self.compare_all(&sheet, every_length(&plan))?;
            self.compare_all(&sheet, every_number(&plan))?;
            self.compare_all(&sheet, every_flip(&plan))?;
            self.compare_all(&sheet, longest_plans(&chain))?;
        }
        Ok(())
    }

    /// Replacements of so many years each, the last one up to year 300.
    fn corner_plans(&mut self, random: &mut Random) -> Result<(), String> {
        for years in [1, 2, 60, 119, 120] {
            let sheet = corner_sheet(random);
            let mut ends: Vec<i64> = (1..=299 / years).map(|entry| entry * years).collect();
            ends.push(300);
            let chain = Chain { i: 0, j: 0, ends };
            self.compare(&sheet, &written(&chain, random.next()))?;
            self.compare_all(&sheet, longest_plans(&chain))?;
        }
        Ok(())
    }

    /// With and without a fault of the plan: the sheet's refusal comes first.
    fn damaged_sheets(&mut self, random: &mut Random) -> Result<(), String> {
        for _ in 0..DAMAGED_SHEETS {
            let sheet = random_sheet(random);
            let ends = vec![random.within(1, 300)];
            let right = plan_of(random, &Chain { i: 0, j: 0, ends });
            let plans = vec![
                Vec::new(),
                other_length(random, &right),
                flipped(random, &right),
                right,
            ];
            self.compare_all(&sheet, plans)?;
        }
        Ok(())
    }

    fn summary(&self) -> Result<String, String> {
        let kinds = Kind::all().map(|kind| (kind, kind.described()));
        let calls = self.tally.summary("plans", kinds, LEAST_SEEN)?;
        Ok(format!(
            "{calls}; {}; {} totals would be others if renovating renewed the motors, {} if no \
             removal were paid",
            totals_judged(self.totals),
            self.tally.seen(Kind::OldMotors),
            self.tally.seen(Kind::Removal(WrongRule::NonePaid))
        ))
    }
}

pub fn compare_prices(seed: u64) -> Result<String, String> {
    let mut random = Random(seed);
    let mut comparison = Comparison {
        tally: Tally::new(),
        totals: 0,
    };
    comparison.some_plans(&mut random, chained_sheet, CHAINED_SHEETS)?;
    comparison.some_plans(&mut random, small_sheet, SMALL_SHEETS)?;
    comparison.some_plans(&mut random, long_sheet, LONG_SHEETS)?;
    comparison.some_plans(&mut random, corner_sheet, CORNER_SHEETS)?;
    comparison.some_plans(&mut random, motors_sheet, MOTORS_SHEETS)?;
    comparison.some_plans(&mut random, corner_motors_sheet, CORNER_MOTORS_SHEETS)?;
    comparison.some_plans(&mut random, removal_sheet, REMOVAL_SHEETS)?;
    comparison.every_chain()?;
    comparison.swept_plans(&mut random)?;
    comparison.corner_plans(&mut random)?;
    comparison.damaged_sheets(&mut random)?;
    comparison.summary()
}
