//! Compares nimovalsa_check, nimovalsa_cost, nimovalsa_price, nimovalsa_plan, nimovalsa_budget and
//! nimovalsa_factor of libnimovalsa.a with independent implementations of them on many sheets,
//! arcs, plans, buffers, rates and years, and the totals that are printed with the exact values of
//! their chains, and factors with theirs.
//!
//! Use: peer [SEED [COUNT]]. Equal arguments give equal sheets, arcs, plans, buffers, rates and
//! years. COUNT is the number of sheets that are checked. They start as valid ones and then get
//! values at, just below and just above the limits of the rules.
//! Status: 0 if all answers agree and each possible answer was seen often enough, 1 if not,
//! 2 for wrong arguments.
#![deny(unsafe_code)]

mod answer;
mod arc_costs;
mod arcs;
mod budget;
mod budget_kinds;
mod calls;
mod cases;
mod chains;
mod check;
mod compare;
mod compare_budgets;
mod compare_costs;
mod compare_factors;
mod compare_plans;
mod compare_prices;
mod cost;
mod damaged;
mod edits;
mod exact;
mod exact_factor;
mod factor;
mod lent;
mod library;
mod listing;
mod lists;
mod natural;
mod noisy;
mod old_motors;
mod parts;
mod plan;
mod planner;
mod plans;
mod price;
mod quotients;
mod random;
mod removals;
mod report;
mod rises;
mod sheet;
mod sheets;
mod valid;

use compare::compare_all;
use compare_budgets::compare_budgets;
use compare_costs::compare_costs;
use compare_factors::compare_factors;
use compare_plans::compare_plans;
use compare_prices::compare_prices;
use std::env;
use std::process::ExitCode;

const DEFAULT_SEED: u64 = 1;
const DEFAULT_COUNT: u64 = 240_000;
const LEAST_COUNT: u64 = 200_000;

fn number(word: &str, name: &str) -> Result<u64, String> {
    word.parse()
        .map_err(|_| format!("{name} is not a whole number: {word}"))
}

/// The seed and the count.
fn arguments() -> Result<(u64, u64), String> {
    let words: Vec<String> = env::args_os()
        .skip(1)
        .map(|word| word.to_string_lossy().into())
        .collect();
    if words.len() > 2 {
        return Err("use: peer [SEED [COUNT]]".into());
    }
    let seed = words
        .first()
        .map_or(Ok(DEFAULT_SEED), |word| number(word, "seed"))?;
    let count = words
        .get(1)
        .map_or(Ok(DEFAULT_COUNT), |word| number(word, "count"))?;
    if count < LEAST_COUNT {
        return Err(format!("count is below {LEAST_COUNT}: {count}"));
    }
    Ok((seed, count))
}

/// Prints a line as soon as it is known.
fn perform(seed: u64, count: u64) -> Result<(), String> {
    println!("rust peer: {}", compare_all(seed, count)?);
    println!("rust peer: {}", compare_costs(seed)?);
    println!("rust peer: {}", compare_prices(seed)?);
    println!("rust peer: {}", compare_plans(seed)?);
    println!("rust peer: {}", compare_budgets(seed)?);
    println!("rust peer: {}", compare_factors(seed)?);
    Ok(())
}

fn main() -> ExitCode {
    let (status, line) = match arguments().map(|(seed, count)| perform(seed, count)) {
        Ok(Ok(())) => return ExitCode::SUCCESS,
        Ok(Err(line)) => (1, line),
        Err(line) => (2, line),
    };
    eprintln!("rust peer: {line}");
    ExitCode::from(status)
}
