//! The comparison of the library's budgets with the independent ones: the answer, and all that is
//! in the lists afterwards. What the units add up to is also compared with the library's price.

use crate::answer::described;
use crate::budget::{answer, budget, needed, Budget, Call, Priced, Refusal, HIGHEST_GENERAL};
use crate::budget_kinds::Kind;
use crate::calls::{every_general, every_length, few_calls, some_calls};
use crate::cases::*;
use crate::check::checked;
use crate::damaged::random_sheet;
use crate::library;
use crate::lists::Lists;
use crate::plan::{plan_bytes, Chain, REPLACEMENTS};
use crate::plans::*;
use crate::price;
use crate::random::Random;
use crate::removals::WrongRule;
use crate::report::{hex, Tally};
use crate::rises::rises;
use crate::sheet::unsigned;
use crate::sheets::*;

/// Every kind of outcome must occur this often, or the budgets test too little.
const LEAST_SEEN: u64 = 100;
/// Of each kind of sheet, so many get a few plans, each with a dozen calls.
const BRIEF_SHEETS: usize = 500;
const CHAINED_SHEETS: usize = 2_500;
const SMALL_SHEETS: usize = 1_500;
const STEEP_SHEETS: usize = 1_000;
const MOTORS_SHEETS: usize = 1_000;
const LONG_SHEETS: usize = 30;
const CORNER_SHEETS: usize = 20;
const CORNER_MOTORS_SHEETS: usize = 20;
const REMOVAL_SHEETS: usize = 500;
const FREQUENT_SHEETS: usize = 30;
/// This many get lists of every length.
const SWEPT_SHEETS: usize = 30;
/// This many, most of them refused, get a few calls.
const DAMAGED_SHEETS: usize = 3_000;
/// So often each rate leaves each rest.
const RISES: usize = 5_000;
const LONGEST_HORIZON: i64 = 300;
/// Of a plan's bytes, a difference shows this many.
const SHOWN_BYTES: usize = 640;

/// A sheet and a plan, of any kind.
struct Case<'a> {
    sheet: &'a [u8],
    plan: &'a [u8],
    priced: Result<Priced, price::Refusal>,
    /// What every accepted call shows of the plan.
    kinds: Vec<Kind>,
    /// How many words the horizon needs; those of the longest one if the sheet is refused.
    needed: [usize; 2],
}

impl Case<'_> {
    fn of<'a>(sheet: &'a [u8], plan: &'a [u8]) -> Case<'a> {
        let horizon = checked(sheet).map_or(LONGEST_HORIZON, |sheet| sheet.horizon);
        let priced = Priced::of(sheet, plan);
        let kinds = match &priced {
            Ok(priced) => Kind::of_plan(sheet, priced),
            Err(_) => Vec::new(),
        };
        Case {
            sheet,
            plan,
            priced,
            kinds,
            needed: needed(horizon),
        }
    }

    fn kinds(&self, call: Call, outcome: &Result<Budget, Refusal>) -> Vec<Kind> {
        let budget = match outcome {
            Err(refusal) => return Kind::of_refused(self.needed, call, refusal),
            Ok(budget) => budget,
        };
        let priced = self.priced.as_ref().expect("an accepted plan");
        let mut kinds = Kind::of_accepted(priced, call, budget);
        kinds.extend(&self.kinds);
        kinds
    }

    /// What is wrong, with all that the call was given.
    fn fault(&self, call: Call, line: &str) -> String {
        let plan = hex(&self.plan[..self.plan.len().min(SHOWN_BYTES)]);
        let bytes = self.plan.len();
        let sheet = hex(self.sheet);
        format!("{call:?}: {line}: plan of {bytes} bytes {plan}, sheet {sheet}")
    }
}

/// The plan that the library makes, if it makes one.
fn planned(sheet: &[u8]) -> Option<Vec<u8>> {
    let mut plan = vec![0; plan_bytes(LONGEST_HORIZON as usize)];
    let answer = library::plan(sheet, &mut plan, &mut [0; 301]);
    if answer % 256 != 3 {
        return None;
    }
    plan.truncate(plan_bytes(unsigned(&plan, REPLACEMENTS) as usize));
    Some(plan)
}

/// A plan of the chain that is damaged in one of several ways, or that of another chain; some are
/// not damaged by it.
fn damaged(random: &mut Random, sheet: &[u8], chain: &Chain, horizon: i64) -> Vec<u8> {
    let right = plan_of(random, chain);
    match random.below(6) {
        0 => other_number(random, &right, horizon),
        1 => flipped(random, &right),
        2 => other_length(random, &right),
        3 => other_count(random, &right),
        4 => {
            let chain = reshaped(random, chain, horizon);
            plan_of(random, &chain)
        }
        _ => match chain_beside(random, sheet) {
            Some(chain) => plan_of(random, &chain),
            None => right,
        },
    }
}

/// An error if the words of units do not add up to what the library prices the plan at.
fn adds_up(case: &Case, call: Call, sum: u128) -> Result<(), String> {
    let priced = library::price(case.sheet, case.plan);
    if priced % 256 == 3 && u128::from(priced / 256) == sum {
        return Ok(());
    }
    let priced = described(priced);
    let line = format!("priced with {priced}, the units add up to {sum}");
    Err(case.fault(call, &line))
}

struct Comparison {
    tally: Tally<Kind>,
    random: Random,
}

impl Comparison {
    fn compare(&mut self, case: &Case, call: Call) -> Result<(), String> {
        let mut lists = Lists::new(&mut self.random, call);
        let mut expected = lists.clone();
        let outcome = budget(&case.priced, call);
        if let Ok(budget) = &outcome {
            expected.write(budget);
        }
        let given = lists.call(case.sheet, case.plan, call.general);
        let packed = answer(&outcome).packed();
        if given != packed {
            let [given, packed] = [given, packed].map(described);
            let line = format!("library answers {given}, peer answers {packed}");
            return Err(case.fault(call, &line));
        }
        if let Some(difference) = lists.difference(&expected) {
            let line = format!("{}, {difference}", described(given));
            return Err(case.fault(call, &line));
        }
        if let Ok(budget) = &outcome {
            adds_up(case, call, lists.sum(budget.units.len()))?;
        }
        self.tally.compared += 1;
        self.tally.saw(Kind::Number(given % 256 / 4));
        for kind in case.kinds(call, &outcome) {
            self.tally.saw(kind);
        }
        Ok(())
    }

    fn compare_all(
        &mut self,
        case: &Case,
        calls: impl IntoIterator<Item = Call>,
    ) -> Result<(), String> {
        calls
            .into_iter()
            .try_for_each(|call| self.compare(case, call))
    }

    /// A plan of the library's own, one from another hand, and two that may be damaged.
    fn some_plans(&mut self, sheet: &[u8]) -> Result<(), String> {
        let horizon = checked(sheet).map_err(|_| "not a sheet")?.horizon;
        let chain = some_chain_on(&mut self.random, sheet);
        let mut plans = vec![plan_of(&mut self.random, &chain)];
        for _ in 0..2 {
            plans.push(damaged(&mut self.random, sheet, &chain, horizon));
        }
        if let Some(plan) = planned(sheet) {
            self.tally.saw(Kind::Planned);
            plans.push(plan);
        }
        for plan in plans {
            let case = Case::of(sheet, &plan);
            let calls = some_calls(&mut self.random, case.needed);
            self.compare_all(&case, calls)?;
        }
        Ok(())
    }

    fn sheets_of(&mut self, make: fn(&mut Random) -> Vec<u8>, count: usize) -> Result<(), String> {
        (0..count).try_for_each(|_| {
            let sheet = make(&mut self.random);
            self.some_plans(&sheet)
        })
    }

    fn cases(&mut self) -> Result<(), String> {
        [
            case_11(),
            case_12(),
            paper_sheet(),
            two_year_sheet(),
            fifteen_year_sheet(),
            same_motors_sheet(),
            postponed_sheet(),
            replaced_sheet(),
            fastest_motors_sheet(),
            steady_motors_sheet(),
            case_12_with_removal(),
            three_removals(),
            lasting_sheet(),
        ]
        .iter()
        .try_for_each(|sheet| self.some_plans(sheet))
    }

    /// Every general inflation on two plans, and lists of every length on some.
    fn sweep(&mut self) -> Result<(), String> {
        for (sheet, ends) in [
            (two_year_sheet(), vec![1, 2]),
            (fifteen_year_sheet(), vec![15]),
        ] {
            let plan = plan_of(&mut self.random, &Chain { i: 0, j: 0, ends });
            let case = Case::of(&sheet, &plan);
            self.compare_all(&case, every_general(case.needed))?;
        }
        for _ in 0..SWEPT_SHEETS {
            let sheet = chained_sheet(&mut self.random);
            let chain = some_chain_on(&mut self.random, &sheet);
            let plan = plan_of(&mut self.random, &chain);
            let case = Case::of(&sheet, &plan);
            let calls = every_length(&mut self.random, case.needed);
            self.compare_all(&case, calls)?;
        }
        Ok(())
    }

    /// With and without a fault of the plan and of the call: the sheet's refusal comes first.
    fn damaged_sheets(&mut self) -> Result<(), String> {
        for _ in 0..DAMAGED_SHEETS {
            let sheet = random_sheet(&mut self.random);
            let ends = vec![self.random.within(1, LONGEST_HORIZON)];
            let right = plan_of(&mut self.random, &Chain { i: 0, j: 0, ends });
            for plan in [&right[..], &[]] {
                let case = Case::of(&sheet, plan);
                let calls = few_calls(&mut self.random, case.needed);
                self.compare_all(&case, calls)?;
            }
        }
        Ok(())
    }

    /// Each rate of a payment with amounts that are whole cents, just above and just below.
    fn rises(&mut self) -> Result<(), String> {
        for _ in 0..RISES {
            for rise in rises(&mut self.random) {
                let case = Case::of(&rise.sheet, &rise.plan);
                let [units_count, cents_count] = case.needed;
                let call = Call {
                    general: rise.general,
                    units_count,
                    cents_count,
                };
                self.compare(&case, call)?;
                self.tally.saw(Kind::Rise(rise.rate, rise.rest));
            }
        }
        Ok(())
    }

    fn summary(&self) -> Result<String, String> {
        let kinds = Kind::all().map(|kind| (kind, kind.described()));
        let calls = self.tally.summary("budgets", kinds, LEAST_SEEN)?;
        let [accepted, plan, general, lists] =
            [0, 14, 15, 16].map(|number| self.tally.seen(Kind::Number(number)));
        let [units, cents, removals, removals_in_cents] = [
            Kind::OldMotorsInUnits,
            Kind::OldMotorsInCents,
            Kind::RemovalInUnits(WrongRule::NonePaid),
            Kind::RemovalInCents(WrongRule::NonePaid),
        ]
        .map(|kind| self.tally.seen(kind));
        Ok(format!(
            "{calls}: number 0 {accepted} times, 14 {plan}, 15 {general}, 16 {lists}; all \
             {accepted} lists of units add up to the price; at every general inflation to \
             {HIGHEST_GENERAL}, and each rate with cents that are whole, just above and just below \
             a whole number; {units} lists of units and {cents} of cents would be others if \
             renovating renewed the motors, {removals} and {removals_in_cents} if no removal were \
             paid"
        ))
    }
}

pub fn compare_budgets(seed: u64) -> Result<String, String> {
    let mut comparison = Comparison {
        tally: Tally::new(),
        random: Random(seed),
    };
    comparison.cases()?;
    comparison.sheets_of(brief_sheet, BRIEF_SHEETS)?;
    comparison.sheets_of(chained_sheet, CHAINED_SHEETS)?;
    comparison.sheets_of(small_sheet, SMALL_SHEETS)?;
    comparison.sheets_of(steep_sheet, STEEP_SHEETS)?;
    comparison.sheets_of(motors_sheet, MOTORS_SHEETS)?;
    comparison.sheets_of(removal_sheet, REMOVAL_SHEETS)?;
    comparison.sheets_of(long_sheet, LONG_SHEETS)?;
    comparison.sheets_of(corner_sheet, CORNER_SHEETS)?;
    comparison.sheets_of(corner_motors_sheet, CORNER_MOTORS_SHEETS)?;
    comparison.sheets_of(frequent_sheet, FREQUENT_SHEETS)?;
    comparison.sweep()?;
    comparison.damaged_sheets()?;
    comparison.rises()?;
    comparison.summary()
}
