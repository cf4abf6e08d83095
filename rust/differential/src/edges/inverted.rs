//! Ranges with their low byte above their high byte: legal, they fail everywhere, consume nothing and add no class.

use super::tools::*;
use super::Edges;
use crate::findings::Findings;
use crate::kinds::grammar_on;
use crate::rng::Rng;
use crate::{compare, grammars, program, sides};
use model::answer::Verdict::{self, *};
use model::building::Matching;

/// Where an image has its count of classes.
const CLASSES: usize = 25;

/// The widest, the narrowest, and some between; at both ends of the byte values.
const RANGES: &[(u8, u8)] =
    &[(255, 0), (255, 254), (255, 1), (254, 0), (1, 0), (2, 0), (2, 1), (128, 127), (b'b', b'a'), (b'z', b'a')];

/// Builds for both matchings in a buffer of just the length that is told, and the count of classes is this one.
fn classes(found: &mut Findings, rng: &mut Rng, grammar: &[u8], classes: usize) -> [Vec<u8>; 2] {
    let length = 288 + 4 * 5 * (classes + 2) * (2 * (grammar.len() / 4) + 1);
    build_refused(found, rng, grammar, length - 1, 13, length);
    Matching::BOTH.map(|matching| {
        let image = sides::build(found, rng, grammar, matching, length).unwrap_or(vec![0; 288]);
        let told = (length, classes);
        let got = (image.len(), image[CLASSES] as usize);
        found.note(compare::answers("length and classes, as told", &told, &got), &[("grammar", grammar)]);
        image
    })
}

/// A grammar on a capture, in every call: for the whole capture verdict, readings and end are these, and the program's
/// line too.
fn told(
    found: &mut Findings,
    rng: &mut Rng,
    (grammar, capture): (&[u8], &[u8]),
    verdict: Verdict,
    readings: usize,
    end: (usize, usize, usize),
) {
    grammar_on(found, rng, grammar, capture, 1000);
    expect(found, rng, (&built(grammar, Matching::Whole), capture), verdict, Some(readings), end);
    let line = format!("{verdict} {readings} {} {} {}\n", end.0, end.1, end.2);
    program::compare_with(found, &model::program::input(grammar, capture), &line);
}

/// What the library answers for a grammar on a capture, for both matchings.
fn verdicts(found: &mut Findings, rng: &mut Rng, grammar: &[u8], capture: &[u8]) -> [Option<Verdict>; 2] {
    Matching::BOTH.map(|matching| {
        let image = sides::build(found, rng, grammar, matching, 82_188).ok()?;
        judge(found, rng, &image, capture).ok().map(|judged| judged.verdict)
    })
}

pub fn add(edges: &mut Edges) {
    alone(edges);
    beside_others(edges);
    as_failure(edges);
    edges.add("31 inverted ranges, and 32", |found, rng| {
        let all: Vec<u8> = (0..31).flat_map(|rule| [5, 255 - rule, rule, 0]).collect();
        for image in classes(found, rng, &all, 1) {
            for byte in 0..=255 {
                expect(found, rng, (&image, &[byte]), Stuck, Some(3), (3, 1, 0));
            }
        }
        build_refused(found, rng, &[&all[..], &[5, 1, 0, 0]].concat(), 90_000, 11, 128);
        // One range in order among them, first or last.
        for at in [0, 120] {
            let mut bytes = all.clone();
            bytes[at..at + 4].copy_from_slice(&[5, b'a', b'z', 0]);
            classes(found, rng, &bytes, 3);
        }
    });
    edges.add("a wrong rule beside inverted ranges", |found, rng| {
        for at in [0, 4, 8] {
            let mut bytes = [5, 9, 8, 0].repeat(3);
            for (wrong, byte) in [(3, 1), (0, 6), (0, 0)] {
                let right = bytes[at + wrong];
                bytes[at + wrong] = byte;
                build_refused(found, rng, &bytes, 90_000, 12, at);
                bytes[at + wrong] = right;
            }
        }
    });
}

fn alone(edges: &mut Edges) {
    for &(low, high) in RANGES {
        edges.add(format!("inverted: {low} to {high} alone"), move |found, rng| {
            let grammar = [5, low, high, 0];
            let images = classes(found, rng, &grammar, 1);
            // All such grammars have one image for each matching.
            let one = Matching::BOTH.map(|matching| built(&[5, 1, 0, 0], matching));
            found.note(compare::answers("images", &one, &images), &[]);
            told(found, rng, (&grammar, b""), Stuck, 3, (3, 1, 0));
            for byte in [0, 1, high.saturating_sub(1), high, high + 1, low - 1, low, low.saturating_add(1), 254, 255] {
                told(found, rng, (&grammar, &[byte]), Stuck, 3, (3, 1, 0));
            }
            for image in images {
                expect_run(found, rng, (&image, &[low]), (1000, 2), (Stuck, 2));
            }
        });
    }
    edges.add("inverted: a range of one byte, and one of none", |found, rng| {
        for low in 1..=255 {
            told(found, rng, (&[5, low, low, 0], &[low]), Accepted, 4, (2, 2, 0));
            told(found, rng, (&[5, low, low - 1, 0], &[low]), Stuck, 3, (3, 1, 0));
            told(found, rng, (&[5, low, low - 1, 0], &[low - 1]), Stuck, 3, (3, 1, 0));
        }
    });
    edges.add("inverted: on the longest capture", |found, rng| {
        for image in Matching::BOTH.map(|matching| built(&[5, 255, 0, 0], matching)) {
            for byte in [0, 255] {
                expect(found, rng, (&image, &vec![byte; 65_535]), Stuck, Some(3), (3, 1, 0));
            }
        }
    });
}

fn beside_others(edges: &mut Edges) {
    edges.add("inverted: in a not, a choice, a sequence", |found, rng| {
        let not = [3, 1, 0, 0, 5, b'z', b'a', 0];
        told(found, rng, (&not, b""), Accepted, 5, (2, 1, 0));
        told(found, rng, (&not, b"m"), Stuck, 5, (2, 1, 0));
        let choice = [2, 1, 2, 0, 5, b'z', b'a', 0, 4, 0, 0, 0];
        told(found, rng, (&choice, b""), Accepted, 8, (2, 1, 0));
        let sequence = [1, 1, 2, 0, 4, 0, 0, 0, 5, b'z', b'a', 0];
        told(found, rng, (&sequence, b""), Stuck, 8, (3, 1, 0));
        told(found, rng, (&sequence, b"m"), Stuck, 8, (3, 1, 0));
        // After a byte that was consumed the head is back before it.
        let consumed = [1, 1, 2, 0, 5, b'm', b'm', 0, 5, b'z', b'a', 0];
        told(found, rng, (&consumed, b"m"), Stuck, 9, (3, 1, 0));
    });
    for &(low, high) in RANGES {
        edges.add(format!("inverted: {low} to {high} beside {high} to {low}"), move |found, rng| {
            let count = 1 + (high > 0) as usize + (low < 255) as usize;
            for bytes in
                [[2, 1, 2, 0, 5, low, high, 0, 5, high, low, 0], [2, 2, 1, 0, 5, low, high, 0, 5, high, low, 0]]
            {
                for image in classes(found, rng, &bytes, count) {
                    for byte in 0..=255 {
                        let inside = (high..=low).contains(&byte);
                        let (verdict, end) = if inside { (Accepted, (2, 2, 0)) } else { (Stuck, (3, 1, 0)) };
                        expect(found, rng, (&image, &[byte]), verdict, None, end);
                    }
                }
            }
        });
    }
    edges.add("inverted: around the borders of a range", |found, rng| {
        // Ends on, before and after the range's own: its three classes stay.
        for low in [100, 101, 120, 121, 122, 255] {
            for high in [0, 98, 99, 100] {
                if low > high {
                    let bytes = [2, 1, 2, 0, 5, low, high, 0, 5, 100, 120, 0];
                    classes(found, rng, &bytes, 3);
                    for byte in [0, 98, 99, 100, 101, 119, 120, 121, 122, 255] {
                        grammar_on(found, rng, &bytes, &[byte], 1000);
                    }
                }
            }
        }
    });
}

/// The papers' failure, not nothing, gives the same in its place.
fn as_failure(edges: &mut Edges) {
    edges.add("inverted: as a rule that is not nothing", |found, rng| {
        for _ in 0..500 {
            let rules = rng.within(2..=8);
            let mut bytes = grammars::of_rules(rng, rules);
            let (at, &(low, high)) = (4 * rng.below(rules), &RANGES[rng.below(RANGES.len())]);
            bytes[at..at + 4].copy_from_slice(&[5, low, high, 0]);
            let mut other = bytes.clone();
            for rule in other.chunks_mut(4).filter(|rule| rule[0] == 5 && rule[1] > rule[2]) {
                rule.copy_from_slice(&[3, rules as u8, 0, 0]);
            }
            other.extend([4, 0, 0, 0]);
            let capture = grammars::capture(rng, &bytes);
            let one = verdicts(found, rng, &bytes, &capture);
            let failure = verdicts(found, rng, &other, &capture);
            found.note(
                compare::answers("verdicts with a failure", &failure, &one),
                &[("grammar", &bytes), ("capture", &capture)],
            );
        }
    });
}
