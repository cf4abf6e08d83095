//! Compares the proved library and the program with the model, case by case; the last line printed is
//! `N passed, M failed`.
//!
//! SEJIMAKPU_CASES gives another number of random cases, SEJIMAKPU_PROGRAM another place of the program and
//! SEJIMAKPU_READ_TEXT of the one that reads texts. With a random kind and a number as arguments, or `edges` and a name,
//! one case runs alone.

mod bundles;
mod compare;
mod damage;
mod edges;
mod exhaustive;
mod findings;
mod grammars;
mod kinds;
mod lively;
mod machines;
mod parsing;
mod program;
mod recursion;
mod rng;
#[cfg(test)]
mod selftest;
mod sides;
mod stops;
mod texts;

use findings::{Findings, Tally};
use kinds::{KINDS, MACHINES, RECURSION};
use rng::Rng;
use std::panic::{catch_unwind, AssertUnwindSafe};
use std::process::ExitCode;
use std::time::Instant;
use std::{env, process};

/// How many random cases run where SEJIMAKPU_CASES says nothing.
const CASES: usize = 97_200;

fn main() -> ExitCode {
    let arguments: Vec<String> = env::args().skip(1).collect();
    let mut tally = Tally::start();
    match arguments.as_slice() {
        [] => all(&mut tally, cases()),
        [kind, case] => one(&mut tally, kind, case),
        _ => fail("usage: differential [kind number | edges name]"),
    }
    tally.print();
    if tally.failed() == 0 {
        ExitCode::SUCCESS
    } else {
        ExitCode::FAILURE
    }
}

fn fail(message: &str) -> ! {
    eprintln!("{message}");
    process::exit(2)
}

fn cases() -> usize {
    match env::var("SEJIMAKPU_CASES") {
        Ok(text) => text.parse().unwrap_or_else(|_| fail("SEJIMAKPU_CASES is not a number")),
        Err(_) => CASES,
    }
}

fn all(tally: &mut Tally, cases: usize) {
    for edge in edges::all() {
        run_edge(tally, &edge);
    }
    small_machines(tally);
    small_grammars(tally);
    small_texts(tally);
    small_bundles(tally);
    small_recursion(tally);
    let shares: usize = KINDS.iter().map(|kind| kind.share).sum();
    for kind in KINDS {
        for case in 0..cases * kind.share / shares {
            run_random(tally, kind, case as u64);
        }
    }
    // Fewer cases than usual may leave a verdict or a rule out.
    if cases >= CASES {
        let runs = lively::VERDICTS.map(|verdict| tally.runs(MACHINES, verdict));
        run(tally, MACHINES, "all together", |found| lively::each_often(found, runs));
        let seen = tally.recursion(RECURSION);
        run(tally, RECURSION, "all together", |found| seen.enough(found, 31));
    }
}

fn one(tally: &mut Tally, kind: &str, case: &str) {
    if kind == "edges" {
        edges::all().iter().filter(|edge| edge.name == case).for_each(|edge| run_edge(tally, edge));
    } else {
        let number = case.parse().unwrap_or_else(|_| fail("the case is not a number"));
        KINDS.iter().filter(|known| known.name == kind).for_each(|kind| run_random(tally, kind, number));
    }
    if tally.cases() == 0 {
        fail("there is no such case");
    }
}

fn run_edge(tally: &mut Tally, edge: &edges::Edge) {
    let label = format!("`{}`", edge.name);
    run(tally, "edges", &label, |found| (edge.case)(found, &mut Rng::of_case(0x5e71_0000, 0)));
}

/// Every machine of the smallest sizes.
fn small_machines(tally: &mut Tally) {
    for (size, machines) in exhaustive::MACHINES.iter().enumerate() {
        for number in 0..machines.count() {
            let label = format!("size {size}, number {number}");
            let mut rng = Rng::of_case(0x5e71_0010 + size as u64, number as u64);
            run(tally, "small-machines", &label, |found| machines.case(number, found, &mut rng));
        }
    }
}

/// Every grammar of up to three rules over two bytes.
fn small_grammars(tally: &mut Tally) {
    for rules in 1..=3 {
        for number in 0..exhaustive::grammar_count(rules) {
            let label = format!("{rules} rules, number {number}");
            let mut rng = Rng::of_case(0x5e71_0020 + rules as u64, number as u64);
            run(tally, "small-grammars", &label, |found| exhaustive::grammar_case(rules, number, found, &mut rng));
        }
    }
}

/// Every text of a few bytes, and every expression.
fn small_texts(tally: &mut Tally) {
    for (size, texts) in exhaustive::TEXTS.iter().enumerate() {
        for number in 0..texts.count() {
            let label = format!("size {size}, number {number}");
            let mut rng = Rng::of_case(0x5e71_0040 + size as u64, number as u64);
            run(tally, "small-texts", &label, |found| texts.case(number, found, &mut rng));
        }
    }
}

/// Every bundle of a few bytes, by what its count and its pairs say.
fn small_bundles(tally: &mut Tally) {
    for length in exhaustive::BUNDLE_LENGTHS {
        let mut rng = Rng::of_case(0x5e71_0050, length as u64);
        run(tally, "small-bundles", &format!("{length} bytes"), |found| {
            exhaustive::bundle_case(length, found, &mut rng);
        });
    }
}

/// Every grammar of up to three rules, by what its rules lead to.
fn small_recursion(tally: &mut Tally) {
    const KIND: &str = "small-recursion";
    for rules in 1..=recursion::SMALL {
        for number in 0..recursion::small_count(rules) {
            let bytes = recursion::small_grammar(rules, number);
            let label = format!("{rules} rules, number {number}");
            let mut rng = Rng::of_case(0x5e71_0060 + rules as u64, number as u64);
            run(tally, KIND, &label, |found| recursion::small_case(found, &mut rng, &bytes));
        }
    }
    let seen = tally.recursion(KIND);
    run(tally, KIND, "all together", |found| seen.enough_small(found));
}

fn run_random(tally: &mut Tally, kind: &kinds::Kind, number: u64) {
    let label = format!("seed {:#x}, case {number}", kind.seed);
    run(tally, kind.name, &label, |found| (kind.case)(found, &mut Rng::of_case(kind.seed, number)));
}

/// Runs a case. One that panics (an answer that the wrapper or the model holds impossible) differs.
fn run(tally: &mut Tally, kind: &'static str, label: &str, case: impl FnOnce(&mut Findings)) {
    let started = Instant::now();
    let mut found = Findings::default();
    if catch_unwind(AssertUnwindSafe(|| case(&mut found))).is_err() {
        found.note(Some("it panicked".into()), &[]);
    }
    tally.add(kind, label, found, started.elapsed());
}
