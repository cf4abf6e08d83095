//! Random grammars, some that end and some that recurse, and captures that go with them.

use crate::lively::{liveliest, Drawn};
use crate::rng::Rng;
use model::building::{self, Matching};
use model::grammar::{self, Part};

/// Grammars use few bytes, so that rules meet.
const ALPHABET: &[u8] = b"abcd";

#[derive(Clone, Copy)]
enum Style {
    /// Any rule names any rule: recursion without end is common.
    Wild,
    /// A rule names later ones, or itself and earlier ones behind a byte: parsing ends.
    Ending,
    /// As before, and now and then a wild rule.
    Mixed,
}

/// A good grammar with a capture on which it does a lot.
pub fn with_capture(rng: &mut Rng) -> (Vec<u8>, Vec<u8>) {
    let drawn = liveliest(rng, &[1, 4, 8], |rng| {
        let (bytes, matching) = (good(rng), rng.pick(&Matching::BOTH));
        let image = building::build(&grammar::read(&bytes).expect("it is made to be good"), matching);
        Drawn { image, capture: capture(rng, &bytes), from: bytes }
    });
    (drawn.from, drawn.capture)
}

/// The bytes of a good grammar.
pub fn good(rng: &mut Rng) -> Vec<u8> {
    let rules = match rng.below(20) {
        0 => rng.within(16..=31),
        1..=4 => rng.within(7..=15),
        _ => rng.within(1..=6),
    };
    of_rules(rng, rules)
}

pub fn of_rules(rng: &mut Rng, rules: usize) -> Vec<u8> {
    let style = rng.pick(&[Style::Wild, Style::Ending, Style::Ending, Style::Mixed]);
    // The last rules are bytes and empty ones: what the others come down to.
    let leaves = rng.within(1..=3).min(rules);
    let mut bytes = Vec::new();
    for rule in 0..rules {
        let wild = match style {
            Style::Wild => true,
            Style::Ending => false,
            Style::Mixed => rng.percent(10),
        };
        bytes.extend(if rule >= rules - leaves {
            leaf(rng)
        } else if wild {
            wild_rule(rng, rules)
        } else {
            ending_rule(rng, rule, rules)
        });
    }
    bytes
}

pub fn leaf(rng: &mut Rng) -> [u8; 4] {
    if rng.percent(20) {
        return [4, 0, 0, 0];
    }
    let (one, other) = match rng.below(10) {
        0 => (rng.byte(), rng.byte()),
        1 => (0, rng.byte()),
        2 => (rng.byte(), 255),
        _ => (rng.pick(ALPHABET), rng.pick(ALPHABET)),
    };
    // Now and then the wrong way round, which always fails.
    if rng.percent(10) {
        return [5, one.max(other), one.min(other), 0];
    }
    [5, one.min(other), one.max(other), 0]
}

pub fn wild_rule(rng: &mut Rng, rules: usize) -> [u8; 4] {
    let (b, c) = (rng.below(rules) as u8, rng.below(rules) as u8);
    match rng.weighted(&[8, 8, 2, 1, 3]) {
        0 => [1, b, c, 0],
        1 => [2, b, c, 0],
        2 => [3, b, 0, 0],
        _ => leaf(rng),
    }
}

pub fn ending_rule(rng: &mut Rng, rule: usize, rules: usize) -> [u8; 4] {
    // Mostly near ones: several rules then come to the same one at the same place.
    let reach = if rng.percent(70) { 3 } else { rules };
    let last = (rule + reach).min(rules - 1);
    let (b, c) = (rng.within(rule + 1..=last) as u8, rng.within(rule + 1..=last) as u8);
    match rng.weighted(&[5, 6, 2, 1, 6]) {
        0 => [1, b, c, 0],
        1 => [2, b, c, 0],
        2 => [3, b, 0, 0],
        3 => leaf(rng),
        // The last rule is a byte most of the time: behind it any rule may come again.
        _ => [1, rules as u8 - 1, rng.below(rules) as u8, 0],
    }
}

/// A capture for a grammar: made to match half of the time, and now and then spoilt by a byte.
pub fn capture(rng: &mut Rng, bytes: &[u8]) -> Vec<u8> {
    let mut capture = Vec::new();
    match grammar::read(bytes) {
        Ok(grammar) if rng.percent(60) => {
            let mut calls = 200;
            derive(rng, &grammar, 0, &mut calls, &mut capture);
            capture.truncate(40);
        }
        _ => {
            let length = if rng.percent(30) { rng.within(0..=3) } else { rng.within(0..=40) };
            let letters = rng.within(1..=ALPHABET.len());
            capture.extend((0..length).map(|_| ALPHABET[rng.below(letters)]));
        }
    }
    if rng.percent(10) && !capture.is_empty() {
        let at = rng.below(capture.len());
        capture[at] = if rng.percent(50) { rng.pick(ALPHABET) } else { rng.byte() };
    }
    capture
}

/// Bytes that a rule might match, as far as the calls last.
fn derive(rng: &mut Rng, grammar: &[Part], rule: usize, calls: &mut usize, capture: &mut Vec<u8>) {
    if *calls == 0 || capture.len() > 40 {
        return;
    }
    *calls -= 1;
    match grammar[rule] {
        Part::Sequence(b, c) => {
            derive(rng, grammar, b, calls, capture);
            derive(rng, grammar, c, calls, capture);
        }
        Part::Choice(b, c) => {
            let one = rng.pick(&[b, c]);
            derive(rng, grammar, one, calls, capture);
        }
        Part::Not(_) | Part::Empty => {}
        Part::Byte(low, high) if low > high => {}
        Part::Byte(low, high) => capture.push(rng.within(low as usize..=high as usize) as u8),
    }
}
