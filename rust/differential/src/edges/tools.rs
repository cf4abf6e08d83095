//! What the edges share: machines written rule by rule, and answers told beforehand.

use crate::compare;
use crate::findings::Findings;
use crate::rng::Rng;
use crate::sides;
use model::answer::{Config, Judged, Refusal, Verdict};
use model::building::{self, Matching};
use model::bundle::Line;
use model::grammar;
use model::image::{write, Parts};

pub const STAY: u8 = 0;
pub const RIGHT: u8 = 1;
pub const LEFT: u8 = 2;

/// The class under the head, for machines of one class.
pub const BYTE: usize = 0;
pub const LEFT_MARKER: usize = 1;
pub const RIGHT_MARKER: usize = 2;

pub fn change(state: u8, symbol: u8, go: u8) -> [u8; 4] {
    [1, state, symbol, go]
}

pub fn push(state: u8, symbol: u8, go: u8) -> [u8; 4] {
    [2, state, symbol, go]
}

pub fn pop(state: u8) -> [u8; 4] {
    [3, state, 0, 0]
}

pub fn pop_return(state: u8) -> [u8; 4] {
    [3, state, 0, 1]
}

/// No rule, and the rule that halts on purpose.
pub const NONE: [u8; 4] = [0; 4];
pub const HALT: [u8; 4] = [4, 0, 0, 0];

/// A machine without rules, with every byte in class 0.
pub fn blank(states: u8, classes: u8, symbols: u8, finals: u32) -> Parts {
    let count = states as usize * (classes as usize + 2) * symbols as usize;
    Parts { states, classes, symbols, finals, class_map: [0; 256], rules: vec![[0; 4]; count] }
}

/// Sets the rule of a state, class and symbol.
pub fn set(parts: &mut Parts, state: usize, class: usize, symbol: usize, rule: [u8; 4]) {
    let index = (state * (parts.classes as usize + 2) + class) * parts.symbols as usize + symbol;
    parts.rules[index] = rule;
}

/// A machine of one class with these rules: state, class, symbol, and what is done.
pub fn machine(states: u8, symbols: u8, finals: u32, rules: &[(usize, usize, usize, [u8; 4])]) -> Vec<u8> {
    let mut parts = blank(states, 1, symbols, finals);
    for &(state, class, symbol, rule) in rules {
        set(&mut parts, state, class, symbol, rule);
    }
    write(&parts)
}

/// The image that the model builds of a good grammar.
pub fn built(bytes: &[u8], matching: Matching) -> Vec<u8> {
    building::build(&grammar::read(bytes).expect("a good grammar"), matching)
}

/// Judges with one cell more than needed.
pub fn judge(found: &mut Findings, rng: &mut Rng, image: &[u8], capture: &[u8]) -> Result<Judged, Refusal> {
    let needed = sides::cells(found, image, capture.len()).unwrap_or(8);
    sides::judge(found, rng, image, capture, needed + 1, needed + 1)
}

/// Judges, and the answer is this one. The readings are told where they are known.
pub fn expect(
    found: &mut Findings,
    rng: &mut Rng,
    (image, capture): (&[u8], &[u8]),
    verdict: Verdict,
    readings: Option<usize>,
    end: (usize, usize, usize),
) {
    let got = judge(found, rng, image, capture);
    let readings = readings.or(got.ok().map(|judged| judged.readings)).unwrap_or(0);
    let told = Ok(Judged { verdict, readings, end: config(end) });
    found.note(compare::answers("judge, as told", &told, &got), &[("image", image), ("capture", capture)]);
}

/// Runs plainly, and verdict and steps are these.
pub fn expect_run(
    found: &mut Findings,
    rng: &mut Rng,
    (image, capture): (&[u8], &[u8]),
    (budget, cells): (u32, usize),
    told: (Verdict, u64),
) {
    let got = sides::plain_run(found, rng, image, capture, budget, cells).map(|ran| (ran.verdict, ran.steps));
    found.note(compare::answers("plain run, as told", &Ok(told), &got), &[("image", image), ("capture", capture)]);
}

/// A refusal is this one.
pub fn refused<A>(found: &mut Findings, name: &str, got: Result<A, Refusal>, number: u32, place: usize) {
    let told = Some(Refusal { number, place });
    found.note(compare::answers(&format!("{name}, as told"), &told, &got.err()), &[]);
}

/// Each of these with each matching.
pub fn for_both<T: Copy>(each: &[T]) -> impl Iterator<Item = (T, Matching)> + '_ {
    each.iter().flat_map(|&one| Matching::BOTH.map(|matching| (one, matching)))
}

/// Building is refused so, for both matchings.
pub fn build_refused(found: &mut Findings, rng: &mut Rng, grammar: &[u8], room: usize, number: u32, place: usize) {
    for matching in Matching::BOTH {
        let got = sides::build(found, rng, grammar, matching, room);
        refused(found, "build", got, number, place);
    }
}

/// A grammar in which rule k names rule k + 1 twice, and the last one is this.
pub fn doubling(rules: u8, kind: u8, last: [u8; 4]) -> Vec<u8> {
    let mut bytes: Vec<u8> = (1..rules).flat_map(|next| [kind, next, next, 0]).collect();
    bytes.extend(last);
    bytes
}

pub fn config((state, head, symbol): (usize, usize, usize)) -> Config {
    Config { state, head, symbol }
}

/// A line of a machine that stays in state 0 with symbol 0.
pub fn reported(verdict: Verdict, readings: usize, head: usize) -> Line {
    Ok(Judged { verdict, readings, end: config((0, head, 0)) })
}

/// Judging a bundle is refused so, however many cells there are.
pub fn bundle_refused(found: &mut Findings, rng: &mut Rng, image: &[u8], bundle: &[u8], number: u32, place: usize) {
    for cells in [0, 40] {
        let got = sides::judge_bundle(found, rng, image, bundle, cells, cells);
        refused(found, "judge bundle", got, number, place);
    }
}
