//! Counts and lengths at both ends of their ranges.

use super::tools::*;
use super::Edges;
use crate::kinds::grammar_on;
use crate::parsing::few_readings;
use crate::rng::Rng;
use crate::{compare, grammars, sides};
use model::answer::Verdict::*;
use model::building::Matching::{self, *};
use model::image::{write, Parts};

pub fn add(edges: &mut Edges) {
    rules(edges);
    captures(edges);
    cells(edges);
    counts(edges);
    images(edges);
}

/// 0, 1, 31 and 32 rules.
fn rules(edges: &mut Edges) {
    edges.add("0 rules", |found, rng| {
        build_refused(found, rng, &[], 1000, 11, 0);
    });
    edges.add("1 rule, of each kind", |found, rng| {
        for rule in
            [[1, 0, 0, 0], [2, 0, 0, 0], [3, 0, 0, 0], [4, 0, 0, 0], [5, 0, 255, 0], [5, 0, 0, 0], [5, 255, 255, 0]]
        {
            for capture in [&b""[..], b"\x00", b"\xff", b"aa"] {
                grammar_on(found, rng, &rule, capture, 1000);
            }
        }
    });
    edges.add("31 rules", |found, rng| {
        for _ in 0..50 {
            let bytes = grammars::of_rules(rng, 31);
            let capture = grammars::capture(rng, &bytes);
            grammar_on(found, rng, &bytes, &capture, 1000);
        }
    });
    edges.add("32 rules", |found, rng| {
        build_refused(found, rng, &[4, 0, 0, 0].repeat(32), 90_000, 11, 128);
    });
}

/// Captures of 0, 65,535 and 65,536 bytes, in every call that takes one.
fn captures(edges: &mut Edges) {
    // Any number of letters: a choice of a letter and all again, or nothing.
    let letters: &[u8] = &[2, 1, 3, 0, 1, 2, 0, 0, 5, b'a', b'z', 0, 4, 0, 0, 0];
    for length in [0, 1, 65_534, 65_535] {
        edges.add(format!("a capture of {length} bytes"), move |found, rng| {
            for matching in Matching::BOTH {
                let (image, capture) = (built(letters, matching), vec![b'q'; length]);
                let needed = sides::cells(found, &image, length);
                found.note(compare::answers("cells", &Ok(5 * (length + 2) * 9), &needed), &[]);
                expect(found, rng, (&image, &capture), Accepted, None, (2, length + 1, 0));
                if let Ok(judged) = judge(found, rng, &image, &capture) {
                    few_readings(found, matching, letters, &capture, judged);
                }
                let _ = sides::plain_run(found, rng, &image, &capture, u32::MAX, 200_000);
                let _ = sides::plain_run(found, rng, &image, &capture, u32::MAX, 1000);
                let _ = sides::plain_run(found, rng, &image, &capture, 50_000, 200_000);
            }
        });
    }
    edges.add("a capture of 65,535 bytes, its last one wrong", move |found, rng| {
        let mut capture = vec![b'q'; 65_535];
        capture[65_534] = b'.';
        expect(found, rng, (&built(letters, Whole), &capture), Stuck, None, (2, 65_535, 0));
        expect(found, rng, (&built(letters, Leading), &capture), Accepted, None, (2, 65_536, 0));
    });
    edges.add("a capture of 65,535 bytes, 15 rules", |found, rng| {
        let bytes = grammars::of_rules(rng, 15);
        let capture: Vec<u8> = (0..65_535).map(|_| rng.pick(b"abcd")).collect();
        for matching in Matching::BOTH {
            let image = built(&bytes, matching);
            if let Ok(judged) = judge(found, rng, &image, &capture) {
                few_readings(found, matching, &bytes, &capture, judged);
            }
            let _ = sides::plain_run(found, rng, &image, &capture, 100_000, 10_000);
        }
    });
    edges.add("a capture of 65,536 bytes", move |found, rng| {
        let (image, capture) = (built(letters, Whole), vec![b'q'; 65_536]);
        let got = sides::cells(found, &image, 65_536);
        refused(found, "cells", got, 7, 65_536);
        for cells in [0, 9, 5 * 65_538 * 9] {
            let got = sides::judge(found, rng, &image, &capture, cells, cells);
            refused(found, "judge", got, 7, 65_536);
            let got = sides::plain_run(found, rng, &image, &capture, 100, cells);
            refused(found, "plain run", got, 7, 65_536);
        }
    });
    edges.add("lengths far over any capture", move |found, _| {
        for length in [65_537, 1 << 20, 1 << 32, (1 << 32) + 1, usize::MAX - 1, usize::MAX] {
            for matching in Matching::BOTH {
                let got = sides::cells(found, &built(letters, matching), length);
                refused(found, "cells", got, 7, length);
            }
        }
    });
}

/// N and N - 1 cells for notes and work, and none.
fn cells(edges: &mut Edges) {
    for (notes, work, told) in [
        (0, 0, None),
        (1, 0, Some(8)),
        (0, 1, Some(9)),
        (1, 1, Some(8)),
        (30, 0, Some(8)),
        (0, 30, Some(9)),
        (30, 30, Some(8)),
    ] {
        edges.add(format!("notes {notes} and work {work} short of N"), move |found, rng| {
            for image in Matching::BOTH.map(|matching| built(&[4, 0, 0, 0], matching)) {
                let got = sides::judge(found, rng, &image, b"", 30 - notes, 30 - work);
                match told {
                    Some(number) => refused(found, "judge", got, number, 30),
                    None => found.note(compare::answers("judged", &true, &got.is_ok()), &[]),
                }
            }
        });
    }
    edges.add("many cells more than N", |found, rng| {
        let _ = sides::judge(found, rng, &built(&[1, 0, 0, 0], Whole), b"abc", 100_000, 70_000);
    });
    edges.add("the largest N there is is needed", |found, rng| {
        let (image, capture) = (largest(rng), vec![0; 65_535]);
        let needed = 32 * 65_537 * 128;
        let got = sides::cells(found, &image, 65_535);
        found.note(compare::answers("cells", &Ok(needed), &got), &[]);
        let got = sides::judge(found, rng, &image, &capture, 1000, 1000);
        refused(found, "judge", got, 8, needed);
    });
}

/// The largest counts together; every rule good.
fn largest(rng: &mut Rng) -> Vec<u8> {
    let mut parts = blank(32, 64, 128, u32::MAX);
    parts.class_map.fill_with(|| rng.below(64) as u8);
    for (index, rule) in parts.rules.iter_mut().enumerate() {
        let class = index / 128 % 66;
        let (state, symbol) = (rng.below(32) as u8, rng.below(128) as u8);
        *rule = match rng.below(10) {
            0..=3 => change(state, symbol, if class == 65 { STAY } else { RIGHT }),
            4..=6 => push(state, symbol, if class == 64 { STAY } else { LEFT }),
            7 => push(state, symbol, STAY),
            8 => pop(state),
            _ => pop_return(state),
        };
    }
    write(&parts)
}

fn counts(edges: &mut Edges) {
    edges.add("32 states, 64 classes, 128 symbols", |found, rng| {
        for length in [0, 1, 40, 300] {
            let (image, capture) = (largest(rng), rng.bytes(length));
            found.note(compare::answers("image length", &(288 + 4 * 32 * 66 * 128), &image.len()), &[]);
            let got = sides::check(found, &image);
            found.note(compare::answers("check", &Ok(()), &got), &[]);
            let _ = judge(found, rng, &image, &capture);
            let _ = sides::plain_run(found, rng, &image, &capture, 10_000, 5000);
        }
    });
    edges.add("1 state, 1 class, 1 symbol", |found, rng| {
        for rule in [NONE, change(0, 0, STAY), push(0, 0, STAY), pop(0), pop_return(0), HALT] {
            let image = machine(1, 1, 1, &[(0, LEFT_MARKER, 0, rule)]);
            let _ = judge(found, rng, &image, b"");
            let _ = sides::plain_run(found, rng, &image, b"", 50, 20);
        }
    });
    for (name, finals, verdict) in [("final", 1 << 31, Accepted), ("not final", u32::MAX >> 1, Ended)] {
        edges.add(format!("state 31 is {name}"), move |found, rng| {
            let mut parts = blank(32, 1, 128, finals);
            set(&mut parts, 0, LEFT_MARKER, 0, change(31, 127, RIGHT));
            set(&mut parts, 31, RIGHT_MARKER, 127, pop(31));
            expect(found, rng, (&write(&parts), b""), verdict, Some(2), (31, 1, 127));
        });
    }
    edges.add("each state alone final, each bit of the finals", |found, rng| {
        for state in 0..32 {
            for finals in [1 << state, !(1 << state)] {
                let mut parts: Parts = blank(32, 1, 1, finals);
                set(&mut parts, 0, LEFT_MARKER, 0, change(1, 0, RIGHT));
                set(&mut parts, 1, RIGHT_MARKER, 0, pop(state));
                let verdict = if finals >> state & 1 == 1 { Accepted } else { Ended };
                expect(found, rng, (&write(&parts), b""), verdict, Some(2), (1, 1, 0));
            }
        }
    });
    edges.add("a final state, not at the right marker", |found, rng| {
        let image = machine(1, 1, 1, &[(0, LEFT_MARKER, 0, pop(0))]);
        expect(found, rng, (&image, b""), Ended, Some(1), (0, 0, 0));
        let image = machine(1, 1, 1, &[(0, LEFT_MARKER, 0, change(0, 0, RIGHT)), (0, BYTE, 0, pop(0))]);
        expect(found, rng, (&image, b"a"), Ended, Some(2), (0, 1, 0));
    });
}

/// Images with the most and the fewest classes that a grammar can ask for.
fn images(edges: &mut Edges) {
    // 31 rules with 62 different borders: 63 classes.
    let many: Vec<u8> = (0..31).flat_map(|rule| [5, 2 + 8 * rule, 5 + 8 * rule, 0]).collect();
    edges.add("the longest image of a grammar", move |found, rng| {
        build_refused(found, rng, &many, 82_187, 13, 82_188);
        for matching in Matching::BOTH {
            let image = sides::build(found, rng, &many, matching, 82_188).unwrap_or_default();
            found.note(compare::answers("image length", &82_188, &image.len()), &[]);
            for byte in 0..=255 {
                let _ = judge(found, rng, &image, &[byte]);
            }
        }
    });
    edges.add("borders at 0, 1, 255 and 256", |found, rng| {
        for (low, high) in [(0, 0), (0, 255), (1, 255), (255, 255), (0, 254), (1, 254), (254, 255), (0, 1)] {
            for byte in [0, 1, 2, 128, 253, 254, 255] {
                grammar_on(found, rng, &[5, low, high, 0], &[byte], 1000);
            }
        }
    });
    edges.add("ranges that share borders", |found, rng| {
        let bytes = [1, 1, 2, 0, 5, 10, 20, 0, 2, 3, 4, 0, 5, 20, 30, 0, 5, 21, 21, 0];
        for pair in 0..=40u8 {
            grammar_on(found, rng, &bytes, &[pair, 40 - pair], 1000);
            grammar_on(found, rng, &bytes, &[15, pair], 1000);
        }
    });
}
