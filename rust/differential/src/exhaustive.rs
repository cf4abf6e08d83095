//! Every machine, every grammar, every text and every bundle of the smallest sizes. Nothing is left to chance here: a case is
//! a number, and its digits are the rules or the bytes.

use crate::bundles::deciding;
use crate::edges::tools::{blank, set, HALT};
use crate::findings::Findings;
use crate::kinds::{grammar_on, text_on};
use crate::rng::Rng;
use crate::sides::{self, OldGrammar};
use model::bundle;
use model::image::write;
use std::ops::RangeInclusive;

/// Machines of one size, on captures of one length.
pub struct Machines {
    states: u8,
    symbols: u8,
    finals: u32,
    pub length: usize,
}

/// With no byte on the tape the rules for bytes play no part, and machines may be a little larger.
pub const MACHINES: &[Machines] = &[
    Machines { states: 1, symbols: 1, finals: 1, length: 0 },
    Machines { states: 1, symbols: 1, finals: 1, length: 1 },
    Machines { states: 1, symbols: 1, finals: 1, length: 2 },
    Machines { states: 1, symbols: 1, finals: 1, length: 3 },
    Machines { states: 2, symbols: 1, finals: 2, length: 0 },
    Machines { states: 1, symbols: 2, finals: 1, length: 0 },
];

impl Machines {
    /// All good rules over a class: 0 is the bytes' one, 1 the left marker, 2 the right marker.
    fn rules_over(&self, class: usize) -> Vec<[u8; 4]> {
        let moves: &[u8] = [&[0, 1, 2][..], &[0, 1], &[0, 2]][class];
        let mut rules = vec![[0; 4]];
        if class == 0 && self.length == 0 {
            return rules;
        }
        rules.push(HALT);
        for state in 0..self.states {
            for kind in [1, 2] {
                for symbol in 0..self.symbols {
                    rules.extend(moves.iter().map(|&go| [kind, state, symbol, go]));
                }
            }
            rules.extend([[3, state, 0, 0], [3, state, 0, 1]]);
        }
        rules
    }

    pub fn count(&self) -> usize {
        let of_one_pair: usize = (0..3).map(|class| self.rules_over(class).len()).product();
        of_one_pair.pow(self.states as u32 * self.symbols as u32)
    }

    pub fn image(&self, mut number: usize) -> Vec<u8> {
        let mut parts = blank(self.states, 1, self.symbols, self.finals);
        for state in 0..self.states as usize {
            for class in 0..3 {
                for symbol in 0..self.symbols as usize {
                    let rules = self.rules_over(class);
                    set(&mut parts, state, class, symbol, rules[number % rules.len()]);
                    number /= rules.len();
                }
            }
        }
        write(&parts)
    }

    pub fn case(&self, number: usize, found: &mut Findings, rng: &mut Rng) {
        let (image, capture) = (self.image(number), vec![b'x'; self.length]);
        let _ = sides::check(found, &image);
        let needed = sides::cells(found, &image, capture.len()).unwrap_or(8);
        let _ = sides::judge(found, rng, &image, &capture, needed + 1, needed + 1);
        let (budget, cells) = (rng.below(12) as u32, rng.within(1..=4));
        let _ = sides::plain_run(found, rng, &image, &capture, budget, cells);
    }
}

/// All rules of a grammar of so many rules over the bytes a and b, with a range that has neither.
fn grammar_rules(rules: u8) -> Vec<[u8; 4]> {
    let mut all = vec![[4, 0, 0, 0], [5, b'a', b'a', 0], [5, b'b', b'b', 0], [5, b'a', b'b', 0], [5, b'b', b'a', 0]];
    for b in 0..rules {
        all.push([3, b, 0, 0]);
        for c in 0..rules {
            all.extend([[1, b, c, 0], [2, b, c, 0]]);
        }
    }
    all
}

/// The captures of up to two bytes over a and b, and some longer ones.
pub const CAPTURES: &[&[u8]] = &[b"", b"a", b"b", b"aa", b"ab", b"ba", b"bb", b"aab", b"abab"];

pub fn grammar_count(rules: u8) -> usize {
    grammar_rules(rules).len().pow(rules as u32)
}

pub fn grammar(rules: u8, mut number: usize) -> Vec<u8> {
    let all = grammar_rules(rules);
    let mut bytes = Vec::new();
    for _ in 0..rules {
        bytes.extend(all[number % all.len()]);
        number /= all.len();
    }
    bytes
}

pub fn grammar_case(rules: u8, number: usize, found: &mut Findings, rng: &mut Rng) {
    let bytes = grammar(rules, number);
    for capture in CAPTURES {
        grammar_on(found, rng, &bytes, capture, 100);
    }
}

/// Texts of up to so many bytes of some, behind a beginning and before an end.
pub struct Texts {
    begin: &'static [u8],
    bytes: &'static [u8],
    most: u32,
    end: &'static [u8],
    /// Whether they are built and judged too, and not only read.
    judged: bool,
}

/// All texts of the bytes that matter; then what can stand in a line, with every name defined or not; then fewer and
/// shorter ones, judged.
pub const TEXTS: &[Texts] = &[
    Texts { begin: b"", bytes: b"ab=;/().!*'- ", most: 6, end: b"", judged: false },
    Texts { begin: b"a=", bytes: b"ab/()&+?.' ", most: 6, end: b";b=.;", judged: false },
    Texts { begin: b"a=", bytes: b"ab/()!*. ", most: 4, end: b";b='a-b';", judged: true },
    Texts { begin: b"a=", bytes: b"bc&+?/.", most: 4, end: b";b='a-a';c=empty/b;", judged: true },
];

/// How many differing texts end a case. More of them seldom say more.
const MANY: usize = 5;

impl Texts {
    /// A case is every so manyth text: one is too little work to be counted by itself.
    pub fn count(&self) -> usize {
        self.bytes.len().pow(2)
    }

    pub fn case(&self, number: usize, found: &mut Findings, rng: &mut Rng) {
        let old = sides::old_grammar(rng);
        for length in 0..=self.most {
            for text in (number..self.bytes.len().pow(length)).step_by(self.count()) {
                self.compare(&self.text(length, text), &old, found, rng);
                if found.differences.len() >= MANY {
                    return;
                }
            }
        }
    }

    fn text(&self, length: u32, mut number: usize) -> Vec<u8> {
        let mut text = self.begin.to_vec();
        for _ in 0..length {
            text.push(self.bytes[number % self.bytes.len()]);
            number /= self.bytes.len();
        }
        text.extend(self.end);
        text
    }

    fn compare(&self, text: &[u8], old: &OldGrammar, found: &mut Findings, rng: &mut Rng) {
        let read = sides::read_grammar(found, old, text);
        if self.judged && read.is_ok() {
            for capture in CAPTURES {
                text_on(found, rng, text, capture);
            }
        }
    }
}

/// The lengths of the small bundles: up to three captures and some bytes for them.
pub const BUNDLE_LENGTHS: RangeInclusive<usize> = 0..=30;

/// The bytes behind the pairs, as many as fit.
const BUNDLED: &[u8] = b"aelsaaalaeas.aasel";

/// All bundles of so many bytes with up to three pairs, each number around its limits or past 32 bits.
pub fn bundle_case(length: usize, found: &mut Findings, rng: &mut Rng) {
    for count in [0, 1, 2, 3, 4, 64, 65, u32::MAX] {
        let first = 4 + 8 * count as usize;
        if count == 0 || length < first {
            let mut bundle = bundle::write(count, &[(28, 1); 3], BUNDLED);
            bundle.truncate(length);
            small_bundle(found, rng, &bundle);
            continue;
        }
        let pairs = some_pairs(first, length);
        for number in 0..pairs.len().pow(count) {
            let pair = |at| pairs[number / pairs.len().pow(at) % pairs.len()];
            let chosen: Vec<(u32, u32)> = (0..count).map(pair).collect();
            small_bundle(found, rng, &bundle::write(count, &chosen, &BUNDLED[..length - first]));
            if found.differences.len() >= MANY {
                return;
            }
        }
    }
}

/// Pairs that start around the first place behind the pairs, or later, and end around the bundle's end, or before.
fn some_pairs(first: usize, length: usize) -> Vec<(u32, u32)> {
    let offsets = (first - 1..=length + 1).map(|offset| offset as u32).chain([0, 12, u32::MAX]);
    let lengths = |offset: u32| {
        // The last ones end where the pairs do and where the bundle does, past 32 bits for an offset behind that.
        let past = [u32::MAX, (first as u32).wrapping_sub(offset), (length as u32).wrapping_sub(offset)];
        (0..=length + 1 - first).map(|size| size as u32).chain(past)
    };
    offsets.flat_map(|offset| lengths(offset).map(move |size| (offset, size))).collect()
}

/// Judges with just the cells that four bytes need, so that a longer capture is refused.
fn small_bundle(found: &mut Findings, rng: &mut Rng, bundle: &[u8]) {
    let _ = sides::judge_bundle(found, rng, &deciding(), bundle, 12, 12);
}
