//! The comparison of the library's planning with the independent one: the answer, and all that
//! is in the buffers afterwards. The totals are also compared with the exact values of their
//! chains, and where all chains are listed, the planned chain with every other one.

use crate::answer::{described, Answer};
use crate::cases::*;
use crate::check::checked;
use crate::compare::possible_answers;
use crate::damaged::random_sheet;
use crate::exact::{judge_total, totals_judged, Exact};
use crate::lent::Lent;
use crate::library;
use crate::listing::{feasible_chains, listed};
use crate::old_motors::{change_the_chain, show_in_chain};
use crate::parts::Parts;
use crate::plan::{plan_bytes, written, HEAD_BYTES, TOTAL};
use crate::planner::{planned, Planned};
use crate::random::Random;
use crate::removals::{self, told_from, WrongRule, WRONG_RULES};
use crate::report::{difference, hex, Tally};
use crate::sheet::{unsigned, Sheet, HORIZON};
use crate::sheets::*;
use std::collections::BTreeSet;

/// Every kind of outcome must occur this often, or the sheets test too little.
const LEAST_SEEN: u64 = 20;
/// So many words are enough on every sheet, and one less is too few on each.
const WORDS: usize = 301;
/// No list is longer.
const MOST_WORDS: usize = 700;
/// Counts that must be seen, each with every number that it can have on a sheet that passes.
const TOO_FEW_WORDS: [usize; 3] = [0, 1, 300];
const ENOUGH_WORDS: [usize; 4] = [301, 302, 601, 602];
/// All chains are listed up to this horizon.
const LISTED_HORIZON: i64 = 8;

/// Of each kind of sheet: so many as they are, so many with ties.
const BRIEF_SHEETS: [usize; 2] = [3_600, 2_500];
const CHAINED_SHEETS: [usize; 2] = [1_700, 800];
const SMALL_SHEETS: [usize; 2] = [800, 300];
const LONG_SHEETS: [usize; 2] = [60, 30];
const CORNER_SHEETS: [usize; 2] = [40, 30];
const FREQUENT_SHEETS: [usize; 2] = [120, 80];
const BRIEF_MOTORS_SHEETS: [usize; 2] = [1_000, 0];
const MOTORS_SHEETS: [usize; 2] = [500, 0];
const CORNER_MOTORS_SHEETS: [usize; 2] = [10, 0];
const FREQUENT_MOTORS_SHEETS: [usize; 2] = [240, 0];
const BRIEF_REMOVAL_SHEETS: [usize; 2] = [400, 0];
const REMOVAL_SHEETS: [usize; 2] = [300, 0];
const CORNER_REMOVAL_SHEETS: [usize; 2] = [10, 0];
const FREQUENT_REMOVAL_SHEETS: [usize; 2] = [60, 0];
/// This many get every plan length up to that of the longest plan, and every count of words.
const SWEPT_SHEETS: usize = 12;
/// This many, most of them refused, get a few buffers.
const DAMAGED_SHEETS: usize = 5_000;

/// The outcomes that are told apart when they are counted.
#[derive(Clone, Copy, PartialEq, Eq, PartialOrd, Ord)]
enum Kind {
    /// Of a call: its number, or the packed answer if the sheet is refused.
    RefusedSheet(u64),
    TooFewWords,
    NoChain,
    ShortPlan,
    Accepted,
    /// Of an accepted call: the buffer is just long enough, or longer.
    ExactPlan,
    LongerPlan,
    /// Of a call: its number, and how many words it has.
    Words(u64, usize),

    /// Of a sheet: what its least chain has.
    Chain(Parts),
    /// Of a sheet with T 300: there is a chain; there is none; there are ties.
    ChainTo300,
    NoChainTo300,
    TiesTo300,
    /// Of a sheet: another chain of least total has another i; the same i and another j; the
    /// same i and j.
    TieOfI,
    TieOfJ,
    TieOfEnds,
    Ties,
    /// Of a sheet: if the motors of renovations were new, the total of the planned chain would be
    /// another one; the same with T 300; another chain would be planned.
    OldMotors,
    OldMotorsTo300,
    OtherChain,
    /// Of a sheet: by a wrong rule the total of the planned chain would be another one.
    Removal(WrongRule),
    /// Of a sheet: if all removals were 0, another chain would be planned; the same with T 300.
    RemovalChangesChain,
    RemovalChangesChainTo300,
}

/// Those that are not about a chain's parts, a refused sheet, a count of words or a wrong rule.
const FURTHER_KINDS: [(Kind, &str); 18] = [
    (Kind::TooFewWords, "number 10"),
    (Kind::NoChain, "number 11"),
    (Kind::ShortPlan, "number 12"),
    (Kind::Accepted, "number 0"),
    (Kind::ExactPlan, "a plan buffer of 19 + 2m bytes"),
    (Kind::LongerPlan, "a longer plan buffer"),
    (Kind::ChainTo300, "a chain to year 300"),
    (Kind::NoChainTo300, "no chain to year 300"),
    (Kind::TiesTo300, "ties of chains to year 300"),
    (Kind::TieOfI, "a tie of i"),
    (Kind::TieOfJ, "a tie of j"),
    (Kind::TieOfEnds, "a tie of ends"),
    (Kind::Ties, "a tie"),
    (Kind::OldMotors, "a total with old motors"),
    (Kind::OldMotorsTo300, "a total to year 300 with old motors"),
    (Kind::OtherChain, "a chain chosen for its old motors"),
    (Kind::RemovalChangesChain, "a chain chosen for its removals"),
    (
        Kind::RemovalChangesChainTo300,
        "a chain to year 300 chosen for its removals",
    ),
];

fn all_kinds() -> impl Iterator<Item = (Kind, String)> {
    let sheets = possible_answers().filter(|&packed| packed != 3);
    let sheets = sheets.map(|packed| (Kind::RefusedSheet(packed), described(packed)));
    let chains = Parts::all().map(|parts| (Kind::Chain(parts), parts.described()));
    let wrong = WRONG_RULES.map(|wrong| {
        let described = format!("another total than by {wrong:?}");
        (Kind::Removal(wrong), described)
    });
    let further = FURTHER_KINDS.map(|(kind, name)| (kind, name.to_string()));
    sheets
        .chain(chains)
        .chain(words_kinds())
        .chain(wrong)
        .chain(further)
}

fn words_kinds() -> impl Iterator<Item = (Kind, String)> {
    let too_few = TOO_FEW_WORDS.into_iter().map(|words| (10, words));
    let enough = [0, 11, 12]
        .into_iter()
        .flat_map(|number| ENOUGH_WORDS.map(|words| (number, words)));
    too_few.chain(enough).map(|(number, words)| {
        let described = format!("number {number} with {words} words");
        (Kind::Words(number, words), described)
    })
}

/// What planning is to do with its buffers.
enum Outcome {
    /// The sheet is refused.
    Refused(Answer),
    /// The sheet passes. Only calls with too few words are tried, so nothing was planned.
    Passes,
    Planned(Planned),
}

impl Outcome {
    fn without_planning(sheet: &[u8]) -> Outcome {
        match checked(sheet) {
            Err(answer) => Outcome::Refused(answer),
            Ok(_) => Outcome::Passes,
        }
    }

    /// Changes the buffers as planning does; its answer and the kind of the call.
    fn apply(&self, lent: &mut Lent) -> (Answer, Kind) {
        let planned = match self {
            Outcome::Refused(answer) => return (*answer, Kind::RefusedSheet(answer.packed())),
            _ if lent.words_count() < WORDS => return (Answer::refused(10), Kind::TooFewWords),
            Outcome::Passes => unreachable!("the words are too few"),
            Outcome::Planned(planned) => planned,
        };
        lent.write_words(&planned.tails);
        let Some(choice) = &planned.choice else {
            return (Answer::refused(11), Kind::NoChain);
        };
        let plan = written(&choice.chain, choice.total);
        if lent.plan_length() < plan.len() {
            return (Answer::refused(12), Kind::ShortPlan);
        }
        lent.write_plan(&plan);
        (Answer::accepted(choice.total), Kind::Accepted)
    }

    /// The bytes of the plan; those of its head if there is none.
    fn plan_bytes(&self) -> usize {
        match self {
            Outcome::Planned(Planned {
                choice: Some(choice),
                ..
            }) => plan_bytes(choice.chain.ends.len()),
            _ => HEAD_BYTES,
        }
    }
}

/// The plan buffers of a sheet: empty, around the head, around the plan, of the longest plan
/// that the horizon allows, and longer.
fn plan_lengths(random: &mut Random, horizon: i64, own: usize) -> BTreeSet<usize> {
    let longest = plan_bytes(horizon as usize);
    let longer = longest + 1 + random.below(300);
    let list = [0, 1, 18, 19, 20, own - 1, own, own + 1, longest, longer];
    BTreeSet::from(list)
}

fn enough_words(random: &mut Random) -> usize {
    match random.below(3) {
        0 => WORDS + random.below(MOST_WORDS - WORDS + 1),
        _ => ENOUGH_WORDS[random.below(ENOUGH_WORDS.len())],
    }
}

struct Comparison {
    tally: Tally<Kind>,
    sheets: u64,
    /// How many chains were listed of the sheets up to the listed horizon.
    chains: u64,
    random: Random,
}

impl Comparison {
    /// Plans on a sheet that passes the check, with each method that there is, and counts it.
    fn plan(&mut self, bytes: &[u8]) -> Result<Outcome, String> {
        let sheet = checked(bytes).map_err(|_| format!("not a sheet: {}", hex(bytes)))?;
        let planned = planned(&sheet);
        if sheet.horizon <= LISTED_HORIZON {
            self.compare_listed(&sheet, &planned)
                .map_err(|fault| format!("{fault}: {}", hex(bytes)))?;
        }
        self.count(bytes, &planned);
        self.count_motors(&sheet, &planned);
        self.count_removals(&sheet, &planned);
        Ok(Outcome::Planned(planned))
    }

    /// The listing plans the same, and no chain is far below the planned one in exact value.
    fn compare_listed(&mut self, sheet: &Sheet, planned: &Planned) -> Result<(), String> {
        if *planned != listed(sheet) {
            return Err("the peer's listing differs from its dynamic program".into());
        }
        let Some(choice) = &planned.choice else {
            return Ok(());
        };
        let value = Exact::of(sheet, &choice.chain);
        for chain in feasible_chains(sheet) {
            if value.is_far_above(&Exact::of(sheet, &chain)) {
                return Err(format!(
                    "{chain:?} is more than 3T² + T units below the planned chain"
                ));
            }
            self.chains += 1;
        }
        Ok(())
    }

    fn count(&mut self, sheet: &[u8], planned: &Planned) {
        let to_300 = unsigned(sheet, HORIZON) == 300;
        self.sheets += 1;
        let Some(choice) = &planned.choice else {
            if to_300 {
                self.tally.saw(Kind::NoChainTo300);
            }
            return;
        };
        let ties = choice.ties;
        self.tally.saw(Kind::Chain(Parts::of(sheet, &choice.chain)));
        self.saw_all([
            (to_300, Kind::ChainTo300),
            (to_300 && ties.any(), Kind::TiesTo300),
            (ties.of_i, Kind::TieOfI),
            (ties.of_j, Kind::TieOfJ),
            (ties.of_ends, Kind::TieOfEnds),
            (ties.any(), Kind::Ties),
        ]);
    }

    fn count_motors(&mut self, sheet: &Sheet, planned: &Planned) {
        let choice = planned.choice.as_ref();
        let show = choice.is_some_and(|choice| show_in_chain(sheet, &choice.chain));
        self.saw_all([
            (show, Kind::OldMotors),
            (show && sheet.horizon == 300, Kind::OldMotorsTo300),
            (change_the_chain(sheet, planned), Kind::OtherChain),
        ]);
    }

    fn count_removals(&mut self, sheet: &Sheet, planned: &Planned) {
        if let Some(choice) = &planned.choice {
            for wrong in told_from(|wrong| wrong.shows_in_chain(sheet, &choice.chain)) {
                self.tally.saw(Kind::Removal(wrong));
            }
        }
    }

    /// Counts a chain that is chosen for its removals.
    fn count_changes(&mut self, bytes: &[u8]) -> Result<(), String> {
        let sheet = checked(bytes).map_err(|_| "not a sheet")?;
        let changes = removals::change_the_chain(&sheet, &planned(&sheet));
        let to_300 = changes && sheet.horizon == 300;
        self.saw_all([
            (changes, Kind::RemovalChangesChain),
            (to_300, Kind::RemovalChangesChainTo300),
        ]);
        Ok(())
    }

    /// Counts the kinds that are met.
    fn saw_all<const N: usize>(&mut self, kinds: [(bool, Kind); N]) {
        for (_, kind) in kinds.into_iter().filter(|(met, _)| *met) {
            self.tally.saw(kind);
        }
    }

    fn compare(
        &mut self,
        sheet: &[u8],
        outcome: &Outcome,
        plan_length: usize,
        words_count: usize,
    ) -> Result<(), String> {
        let mut lent = Lent::new(&mut self.random, plan_length, words_count);
        let mut expected = lent.clone();
        let (answer, kind) = outcome.apply(&mut expected);
        let given = lent.call(sheet);
        let place = format!("plan buffer of {plan_length} bytes, {words_count} words");
        if given != answer.packed() {
            let difference = difference(given, answer.packed(), sheet);
            return Err(format!("{place}: {difference}"));
        }
        if let Some(difference) = lent.difference(&expected) {
            let given = described(given);
            return Err(format!("{place}: {given}, {difference}: {}", hex(sheet)));
        }
        if kind == Kind::Accepted {
            self.accepted(sheet, &mut lent, given, outcome.plan_bytes())?;
        }
        self.tally.compared += 1;
        self.tally.saw(kind);
        self.tally.saw(Kind::Words(answer.number, words_count));
        Ok(())
    }

    /// The written plan is priced at the total that is answered, and holds it; the exact value
    /// allows it.
    fn accepted(
        &mut self,
        sheet: &[u8],
        lent: &mut Lent,
        given: u64,
        plan_bytes: usize,
    ) -> Result<(), String> {
        let plan = &lent.plan()[..plan_bytes];
        let priced = library::price(sheet, plan);
        let held = unsigned(plan, TOTAL) as u64;
        if priced != given || held != given / 256 {
            let [priced, given] = [priced, given].map(described);
            return Err(format!(
                "planned with {given}, priced with {priced}, total field {held}: {}",
                hex(sheet)
            ));
        }
        judge_total(sheet, plan, held)?;
        self.tally.saw(if lent.plan_length() == plan_bytes {
            Kind::ExactPlan
        } else {
            Kind::LongerPlan
        });
        Ok(())
    }

    /// Every plan length of the list, and too few words with some of them.
    fn all_lengths(&mut self, sheet: &[u8]) -> Result<(), String> {
        let outcome = self.plan(sheet)?;
        let horizon = unsigned(sheet, HORIZON);
        let lengths = plan_lengths(&mut self.random, horizon, outcome.plan_bytes());
        let lengths: Vec<usize> = lengths.into_iter().collect();
        for &plan_length in &lengths {
            let words = enough_words(&mut self.random);
            self.compare(sheet, &outcome, plan_length, words)?;
        }
        let some = self.random.below(WORDS);
        for words in TOO_FEW_WORDS.into_iter().chain([some]) {
            let plan_length = lengths[self.random.below(lengths.len())];
            self.compare(sheet, &outcome, plan_length, words)?;
        }
        Ok(())
    }

    /// A few lengths, for sheets on which planning takes long.
    fn few_lengths(&mut self, sheet: &[u8]) -> Result<(), String> {
        let outcome = self.plan(sheet)?;
        let horizon = unsigned(sheet, HORIZON);
        let own = outcome.plan_bytes();
        let lengths = plan_lengths(&mut self.random, horizon, own);
        let lengths: Vec<usize> = lengths.into_iter().collect();
        let some = lengths[self.random.below(lengths.len())];
        for plan_length in [own, own - 1, some] {
            let words = enough_words(&mut self.random);
            self.compare(sheet, &outcome, plan_length, words)?;
        }
        self.compare(sheet, &outcome, some, WORDS - 1)
    }

    /// So many sheets of a kind as they are, and so many with ties.
    fn sheets_of(
        &mut self,
        make: fn(&mut Random) -> Vec<u8>,
        [plain, tied]: [usize; 2],
        lengths: fn(&mut Comparison, &[u8]) -> Result<(), String>,
    ) -> Result<(), String> {
        for index in 0..plain + tied {
            let mut sheet = make(&mut self.random);
            if index >= plain {
                make_ties(&mut self.random, &mut sheet);
            }
            lengths(self, &sheet)?;
        }
        Ok(())
    }

    /// Every plan length, and every count of words.
    fn sweep(&mut self) -> Result<(), String> {
        for _ in 0..SWEPT_SHEETS {
            let sheet = brief_sheet(&mut self.random);
            let outcome = self.plan(&sheet)?;
            for plan_length in 0..=plan_bytes(unsigned(&sheet, HORIZON) as usize) + 3 {
                self.compare(&sheet, &outcome, plan_length, WORDS)?;
            }
            for words in 0..=MOST_WORDS {
                self.compare(&sheet, &outcome, outcome.plan_bytes(), words)?;
            }
        }
        Ok(())
    }

    /// Sheets whose renovations keep motors that age fast.
    fn motors(&mut self) -> Result<(), String> {
        let [all, few] = [Comparison::all_lengths, Comparison::few_lengths];
        self.sheets_of(brief_motors_sheet, BRIEF_MOTORS_SHEETS, all)?;
        self.sheets_of(motors_sheet, MOTORS_SHEETS, all)?;
        self.sheets_of(corner_motors_sheet, CORNER_MOTORS_SHEETS, few)?;
        self.sheets_of(frequent_motors_sheet, FREQUENT_MOTORS_SHEETS, few)
    }

    /// Sheets on which removals weigh.
    fn removals(&mut self) -> Result<(), String> {
        let all = |to: &mut Comparison, sheet: &[u8]| {
            to.count_changes(sheet)?;
            to.all_lengths(sheet)
        };
        let few = |to: &mut Comparison, sheet: &[u8]| {
            to.count_changes(sheet)?;
            to.few_lengths(sheet)
        };
        self.sheets_of(brief_removal_sheet, BRIEF_REMOVAL_SHEETS, all)?;
        self.sheets_of(removal_sheet, REMOVAL_SHEETS, all)?;
        self.sheets_of(corner_removal_sheet, CORNER_REMOVAL_SHEETS, few)?;
        self.sheets_of(frequent_removal_sheet, FREQUENT_REMOVAL_SHEETS, few)
    }

    fn cases(&mut self) -> Result<(), String> {
        [
            case_9(),
            case_10(),
            case_11(),
            case_12(),
            paper_sheet(),
            same_motors_sheet(),
            postponed_sheet(),
            replaced_sheet(),
            fastest_motors_sheet(),
            steady_motors_sheet(),
            case_12_with_removal(),
            three_removals(),
            lasting_sheet(),
        ]
        .iter()
        .try_for_each(|sheet| self.all_lengths(sheet))
    }

    /// With and without a fault of the buffers: the sheet's refusal comes first.
    fn damaged_sheets(&mut self) -> Result<(), String> {
        for _ in 0..DAMAGED_SHEETS {
            let sheet = random_sheet(&mut self.random);
            let outcome = Outcome::without_planning(&sheet);
            let most_words = match outcome {
                Outcome::Refused(_) => MOST_WORDS,
                _ => WORDS - 1,
            };
            for (plan_length, words) in [(0, 0), (18, 300), (619, 301), (700, MOST_WORDS)] {
                self.compare(&sheet, &outcome, plan_length, words.min(most_words))?;
            }
        }
        Ok(())
    }

    fn summary(&self) -> Result<String, String> {
        let calls = self.tally.summary("plannings", all_kinds(), LEAST_SEEN)?;
        let [accepted, few_words, no_chain, short_plan, ties] = [
            Kind::Accepted,
            Kind::TooFewWords,
            Kind::NoChain,
            Kind::ShortPlan,
            Kind::Ties,
        ]
        .map(|kind| self.tally.seen(kind));
        let [old_motors, other_chain, removals, changed] = [
            Kind::OldMotors,
            Kind::OtherChain,
            Kind::Removal(WrongRule::NonePaid),
            Kind::RemovalChangesChain,
        ]
        .map(|kind| self.tally.seen(kind));
        Ok(format!(
            "{calls}: number 0 {accepted} times, 10 {few_words}, 11 {no_chain}, 12 {short_plan}; \
             {} sheets planned, {ties} with ties; {}; up to T {LISTED_HORIZON} none of {} chains \
             more than that below the planned one; {old_motors} planned totals and {other_chain} \
             planned chains would be others if renovating renewed the motors, {removals} totals and, \
             of sheets drawn for it, {changed} chains if no removal were paid",
            self.sheets,
            totals_judged(accepted),
            self.chains
        ))
    }
}

pub fn compare_plans(seed: u64) -> Result<String, String> {
    let mut comparison = Comparison {
        tally: Tally::new(),
        sheets: 0,
        chains: 0,
        random: Random(seed),
    };
    comparison.cases()?;
    comparison.sheets_of(brief_sheet, BRIEF_SHEETS, Comparison::all_lengths)?;
    comparison.sheets_of(chained_sheet, CHAINED_SHEETS, Comparison::all_lengths)?;
    comparison.sheets_of(small_sheet, SMALL_SHEETS, Comparison::all_lengths)?;
    comparison.sheets_of(long_sheet, LONG_SHEETS, Comparison::few_lengths)?;
    comparison.sheets_of(corner_sheet, CORNER_SHEETS, Comparison::few_lengths)?;
    comparison.sheets_of(frequent_sheet, FREQUENT_SHEETS, Comparison::few_lengths)?;
    comparison.motors()?;
    comparison.removals()?;
    comparison.sweep()?;
    comparison.damaged_sheets()?;
    comparison.summary()
}
