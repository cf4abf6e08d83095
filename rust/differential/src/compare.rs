//! The comparing functions: what a call should have left behind and what it did, and the first difference in words.

use crate::sides::raw::{Answer, Line};
use model::answer::{Judged, Ran, Refusal};
use std::fmt::{Debug, Display};

/// Judging's answer, and all lent cells after it.
#[derive(Clone, Debug)]
pub struct Judging {
    pub answer: Result<Judged, Refusal>,
    pub notes: Vec<u32>,
    pub work: Vec<u32>,
}

/// A plain run's answer, and all lent cells after it.
#[derive(Clone, Debug)]
pub struct Running {
    pub answer: Result<Ran, Refusal>,
    pub stack: Vec<u32>,
}

/// The answer of building or of reading a text, and the whole buffer after it.
#[derive(Clone, Debug)]
pub struct Building {
    pub answer: Result<usize, Refusal>,
    pub buffer: Vec<u8>,
}

/// The answer of judging by a text, all lent cells and the whole buffer after it.
#[derive(Clone, Debug)]
pub struct TextJudging {
    pub judging: Judging,
    pub buffer: Vec<u8>,
}

/// What the archive's function for a bundle returned, and everything that it was lent, as numbers. The first and the last
/// of the lines and of the totals were not lent, and stand beside what was.
#[derive(Clone, Debug)]
pub struct Bundling {
    pub returned: u32,
    pub answer: Answer,
    pub lines: Vec<Line>,
    pub totals: Vec<u64>,
    pub notes: Vec<u32>,
    pub work: Vec<u32>,
}

/// What an archive's function that checks for left recursion returned, and the numbers of its answer. The first and the last
/// were not lent, and stand beside what was.
#[derive(Clone, Copy, Debug)]
pub struct Checking {
    pub returned: u32,
    pub cells: [u64; 8],
}

pub fn answers<A: PartialEq + Debug>(name: &str, expected: &A, got: &A) -> Option<String> {
    (expected != got).then(|| format!("{name}: expected {expected:?}, got {got:?}"))
}

/// Every cell, the later ones too.
pub fn cells<T: PartialEq + Display>(name: &str, expected: &[T], got: &[T]) -> Option<String> {
    if expected.len() != got.len() {
        return Some(format!("{name}: expected {} cells, got {}", expected.len(), got.len()));
    }
    let at = (0..expected.len()).find(|&at| expected[at] != got[at])?;
    Some(format!("{name}[{at}] of {}: expected {}, got {}", got.len(), expected[at], got[at]))
}

pub fn judging(expected: &Judging, got: &Judging) -> Option<String> {
    answers("judge", &expected.answer, &got.answer)
        .or_else(|| cells("notes", &expected.notes, &got.notes))
        .or_else(|| cells("work", &expected.work, &got.work))
}

pub fn running(expected: &Running, got: &Running) -> Option<String> {
    answers("plain run", &expected.answer, &got.answer).or_else(|| cells("stack", &expected.stack, &got.stack))
}

pub fn building(name: &str, expected: &Building, got: &Building) -> Option<String> {
    answers(name, &expected.answer, &got.answer).or_else(|| cells("buffer", &expected.buffer, &got.buffer))
}

pub fn text_judging(expected: &TextJudging, got: &TextJudging) -> Option<String> {
    judging(&expected.judging, &got.judging).or_else(|| cells("buffer", &expected.buffer, &got.buffer))
}

pub fn bundling(expected: &Bundling, got: &Bundling) -> Option<String> {
    let returned = |of: &Bundling| (of.returned, of.answer);
    answers("judge bundle", &returned(expected), &returned(got))
        .or_else(|| lines(&expected.lines, &got.lines))
        .or_else(|| cells("totals", &expected.totals, &got.totals))
        .or_else(|| cells("notes", &expected.notes, &got.notes))
        .or_else(|| cells("work", &expected.work, &got.work))
}

pub fn checking(name: &str, expected: &Checking, got: &Checking) -> Option<String> {
    answers(name, &expected.returned, &got.returned)
        .or_else(|| cells(&format!("answer of {name}, with a fence"), &expected.cells, &got.cells))
}

/// Every line, those behind the last capture's too. The one before the first has number -1.
fn lines(expected: &[Line], got: &[Line]) -> Option<String> {
    if expected.len() != got.len() {
        return Some(format!("expected {} lines, got {}", expected.len(), got.len()));
    }
    let (at, (expected, got)) = (-1..).zip(expected.iter().zip(got)).find(|(_, (expected, got))| expected != got)?;
    answers(&format!("line {at}"), expected, got)
}
