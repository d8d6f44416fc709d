//! Where request 4 shows. The motors of a replacement are new, so a replacement with renovate's
//! record pays what a renovation would pay if its motors were new as well. Comparisons count the
//! renovations that pay another figure: only these tell the request from the rule before it.

use crate::arc_costs::ArcCosts;
use crate::budget::Priced;
use crate::cost::{payments, Arc, Payment, RENOVATE, REPLACE};
use crate::plan::Chain;
use crate::planner::{beginning_with, Planned};
use crate::sheet::Sheet;

/// Whether a payment of a renovation has another figure than with new motors. Old motors never take
/// less than new ones, so where a payment differs, the sum does.
fn show(sheet: &Sheet, start: i64, end: i64, figure: impl Fn(&Payment) -> u128) -> bool {
    let record = &sheet.records[RENOVATE as usize];
    let as_option = |option| payments(option, record, [start, end], sheet.horizon);
    as_option(RENOVATE)
        .zip(as_option(REPLACE))
        .filter(|(old, new)| old.ageing > 0 && old.plain_steps < new.plain_steps)
        .any(|(old, new)| figure(&old) != figure(&new))
}

/// In the cost of an arc without fault.
pub fn show_in_arc(sheet: &Sheet, arc: Arc) -> bool {
    let [start, end] = [arc.start, arc.end].map(|year| year as i64);
    arc.option == RENOVATE && show(sheet, start, end, |paid| paid.value(sheet.rate))
}

/// In the total of a feasible chain.
pub fn show_in_chain(sheet: &Sheet, chain: &Chain) -> bool {
    show(sheet, chain.i, chain.j, |paid| paid.value(sheet.rate))
}

/// In the words of units of a budget.
pub fn show_in_units(priced: &Priced) -> bool {
    show_in_chain(&priced.sheet, &priced.chain)
}

/// In its words of cents.
pub fn show_in_cents(priced: &Priced, general: u64) -> bool {
    let Chain { i, j, .. } = priced.chain;
    show(&priced.sheet, i, j, |paid| paid.word_of_cents(general))
}

/// What renovations would cost with new motors.
pub fn costs_with_new(sheet: &Sheet) -> ArcCosts<'_> {
    ArcCosts::with_record(sheet, REPLACE as usize, &sheet.records[RENOVATE as usize])
}

/// Whether another chain would be planned with new motors. The replacements from each year would be
/// the same.
pub fn change_the_chain(sheet: &Sheet, planned: &Planned) -> bool {
    let with_new = beginning_with(sheet, &costs_with_new(sheet), &planned.tails);
    let chosen = planned.choice.as_ref();
    with_new != chosen.map(|choice| (choice.chain.i, choice.chain.j))
}

#[cfg(test)]
mod tests {
    use super::*;
    use crate::cases::{postponed_sheet, replaced_sheet, same_motors_sheet};
    use crate::check::checked;
    use crate::plan::written;
    use crate::planner::planned;
    use crate::sheet::*;

    fn arc_shows(bytes: &[u8], option: u64, start: u64, end: u64) -> bool {
        let sheet = checked(bytes).expect("a sheet");
        show_in_arc(&sheet, Arc { option, start, end })
    }

    #[test]
    fn only_in_renovations_from_year_1_on() {
        let mut sheet = same_motors_sheet();
        for (option, start, end) in [(1, 0, 1), (1, 0, 2), (1, 1, 1), (2, 1, 2)] {
            assert!(!arc_shows(&sheet, option, start, end));
        }
        for (start, end) in [(1, 2), (1, 3), (2, 3)] {
            assert!(arc_shows(&sheet, 1, start, end));
        }
        write_in(&mut sheet, 1, ELECTRICITY, 0);
        assert!(!arc_shows(&sheet, 1, 1, 3));
        let mut sheet = same_motors_sheet();
        write_in(&mut sheet, 1, ELECTRICITY_AGEING, 0);
        assert!(!arc_shows(&sheet, 1, 1, 3));
    }

    /// Whether they show in the units and the cents of a chain that renovates for one year.
    fn budget_shows(horizon: i64, i: i64, ageing: i64) -> [bool; 2] {
        let mut sheet = with_head(horizon, 40_000);
        for (option, life) in [(0, i), (1, 1)] {
            write_in(&mut sheet, option, SHORTEST, life);
            write_in(&mut sheet, option, LONGEST, life);
        }
        write_in(&mut sheet, 1, ELECTRICITY, 1);
        write_in(&mut sheet, 1, ELECTRICITY_AGEING, ageing);
        let (j, ends) = (horizon, Vec::new());
        let plan = written(&Chain { i, j, ends }, 0);
        let priced = Priced::of(&sheet, &plan).expect("a plan");
        [show_in_units(&priced), show_in_cents(&priced, 1_000)]
    }

    #[test]
    fn in_a_budget_up_to_year_15_in_cents() {
        assert_eq!(budget_shows(15, 14, 20_000), [true, true]);
        assert_eq!(budget_shows(16, 15, 20_000), [true, false]);
        assert_eq!(budget_shows(15, 14, 0), [false, false]);
    }

    #[test]
    fn in_the_choice_of_a_chain() {
        for (bytes, changes) in [
            (same_motors_sheet(), false),
            (postponed_sheet(), true),
            (replaced_sheet(), true),
        ] {
            let sheet = checked(&bytes).expect("a sheet");
            assert_eq!(change_the_chain(&sheet, &planned(&sheet)), changes);
        }
    }
}
