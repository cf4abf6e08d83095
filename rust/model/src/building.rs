//! From grammar to image, by the document's table.

use crate::grammar::Part;
use crate::image::{write, Parts};
use std::collections::BTreeSet;

const START: u8 = 0;
const WORK: u8 = 1;
const OK: u8 = 2;
const FAIL: u8 = 3;
const DONE: u8 = 4;
const STATES: u8 = 5;

const STAY: u8 = 0;
const RIGHT: u8 = 1;

const NONE: [u8; 4] = [0, 0, 0, 0];

/// How much of the capture has to be matched. Where nothing is said, only its beginning.
#[derive(Clone, Copy, Debug, Default, PartialEq, Eq)]
pub enum Matching {
    /// All of it: bytes that are left over leave the run without a rule.
    Whole,
    /// Its beginning: bytes that are left over are passed, one by one, up to the right marker.
    #[default]
    Leading,
}

impl Matching {
    pub const BOTH: [Matching; 2] = [Matching::Whole, Matching::Leading];
}

fn first(rule: usize) -> u8 {
    1 + 2 * rule as u8
}

fn second(rule: usize) -> u8 {
    2 + 2 * rule as u8
}

fn change(symbol: u8, go: u8, state: u8) -> [u8; 4] {
    [1, state, symbol, go]
}

/// A push pushes the named rule's first symbol.
fn push(rule: usize, go: u8, state: u8) -> [u8; 4] {
    [2, state, first(rule), go]
}

fn pop(state: u8) -> [u8; 4] {
    [3, state, 0, 0]
}

fn pop_return(state: u8) -> [u8; 4] {
    [3, state, 0, 1]
}

/// The byte values at which a class begins, but for the first class.
fn borders(grammar: &[Part]) -> BTreeSet<usize> {
    let mut borders = BTreeSet::new();
    for part in grammar {
        match *part {
            // No byte is in such a range, so it has no borders.
            Part::Byte(low, high) if low > high => {}
            Part::Byte(low, high) => borders.extend([low as usize, high as usize + 1]),
            _ => {}
        }
    }
    borders.retain(|value| (1..=255).contains(value));
    borders
}

/// The image of a good grammar.
pub fn build(grammar: &[Part], matching: Matching) -> Vec<u8> {
    let borders = borders(grammar);
    let mut class_map = [0; 256];
    for (byte, class) in class_map.iter_mut().enumerate() {
        *class = borders.iter().filter(|&&value| value <= byte).count() as u8;
    }
    let (classes, symbols) = (borders.len() + 1, 2 * grammar.len() + 1);
    let mut rules = Vec::new();
    for state in START..STATES {
        for class in 0..classes + 2 {
            for symbol in 0..symbols {
                rules.push(match symbol {
                    0 => lowest_column(matching, classes, state, class),
                    _ => rule(grammar, &class_map, state, class, symbol),
                });
            }
        }
    }
    let (states, finals) = (STATES, 1 << DONE);
    write(&Parts { states, classes: classes as u8, symbols: symbols as u8, finals, class_map, rules })
}

/// What is done with the first entry on top: before rule 0 is called, and after it has come back.
fn lowest_column(matching: Matching, classes: usize, state: u8, class: usize) -> [u8; 4] {
    let (left_marker, right_marker) = (classes, classes + 1);
    match (state, matching) {
        (START, _) if class == left_marker => push(0, RIGHT, WORK),
        (OK, _) if class == right_marker => pop(DONE),
        // A byte that rule 0 left over.
        (OK, Matching::Leading) if class != left_marker => change(0, RIGHT, OK),
        _ => NONE,
    }
}

/// What is done with a symbol of a grammar's rule on top.
fn rule(grammar: &[Part], class_map: &[u8; 256], state: u8, class: usize, symbol: usize) -> [u8; 4] {
    let index = (symbol - 1) / 2;
    if symbol % 2 == 1 {
        // A marker is no byte's class, so it is in no range.
        let bytes = (0..=255).filter(|&byte: &u8| class_map[byte as usize] as usize == class);
        first_column(grammar[index], index, state, bytes)
    } else {
        second_column(grammar[index], state)
    }
}

/// What is done with a rule's first symbol on top, over the bytes of a class.
fn first_column(part: Part, index: usize, state: u8, mut bytes: impl Iterator<Item = u8>) -> [u8; 4] {
    match (part, state) {
        (Part::Sequence(b, _), WORK) => push(b, STAY, WORK),
        (Part::Sequence(..), OK) => change(second(index), STAY, WORK),
        (Part::Sequence(..), FAIL) => pop_return(FAIL),
        (Part::Choice(b, _), WORK) => push(b, STAY, WORK),
        (Part::Choice(..), OK) => pop(OK),
        (Part::Choice(..), FAIL) => change(second(index), STAY, WORK),
        (Part::Not(b), WORK) => push(b, STAY, WORK),
        (Part::Not(_), OK) => pop_return(FAIL),
        (Part::Not(_), FAIL) => pop_return(OK),
        (Part::Empty, WORK) => pop(OK),
        (Part::Byte(low, high), WORK) => {
            // All bytes of a class are in the range, or none is.
            if bytes.next().is_some_and(|byte| (low..=high).contains(&byte)) {
                change(first(index), RIGHT, OK)
            } else {
                pop(FAIL)
            }
        }
        (Part::Byte(..), OK) => pop(OK),
        _ => NONE,
    }
}

/// What is done with a rule's second symbol on top, over any class.
fn second_column(part: Part, state: u8) -> [u8; 4] {
    match (part, state) {
        (Part::Sequence(_, c) | Part::Choice(_, c), WORK) => push(c, STAY, WORK),
        (Part::Sequence(..) | Part::Choice(..), OK) => pop(OK),
        (Part::Sequence(..), FAIL) => pop_return(FAIL),
        (Part::Choice(..), FAIL) => pop(FAIL),
        _ => NONE,
    }
}
