//! A leading match beside a match of the whole capture: what follows the match is passed, and not looked at.

use super::reports::{self, of};
use super::tools::*;
use super::Edges;
use crate::findings::Findings;
use crate::kinds::{grammar_on, text_on};
use crate::rng::Rng;
use crate::{compare, grammars, program, sides};
use model::answer::Judged;
use model::answer::Verdict::{self, *};
use model::building::Matching::{self, Leading, Whole};
use model::bundle::Totals;

/// The longest capture.
const LONG: usize = 65_535;

const EMPTY: &[u8] = &[4, 0, 0, 0];

/// The ring of the examples: a table of four links, and one whose third link has no second port.
const RING: &[u8] = include_bytes!("../../../../examples/ring.grammar");
const RING_TEXT: &[u8] = include_bytes!("../../../../examples/ring.peg");
const FORMED: &[u8] = include_bytes!("../../../../examples/formed.capture");
const BROKEN: &[u8] = include_bytes!("../../../../examples/broken.capture");

/// What firmware prints after a dump. None begins as a link does.
const BANNERS: [&[u8]; 4] = [b"\nring up, 4 links\n", b"ready", b"\x00\xff\x00", b"9-1 F\n"];

/// Verdict, readings and end, told beforehand.
type Told = (Verdict, usize, (usize, usize, usize));

/// A grammar on a capture, in every call: what is answered for the whole capture, and for a leading match.
fn told(found: &mut Findings, rng: &mut Rng, (grammar, capture): (&[u8], &[u8]), whole: Told, leading: Told) {
    grammar_on(found, rng, grammar, capture, 1000);
    for (matching, (verdict, readings, end)) in [(Whole, whole), (Leading, leading)] {
        let image = image(found, rng, grammar, matching);
        expect(found, rng, (&image, capture), verdict, Some(readings), end);
    }
}

/// The same answer for both.
fn alike(found: &mut Findings, rng: &mut Rng, of: (&[u8], &[u8]), told: Told) {
    self::told(found, rng, of, told, told);
}

/// The image that the library builds.
fn image(found: &mut Findings, rng: &mut Rng, grammar: &[u8], matching: Matching) -> Vec<u8> {
    let room = built(grammar, matching).len();
    sides::build(found, rng, grammar, matching, room).unwrap_or_default()
}

/// 31 rules with 62 borders: 63 classes. Rule 0 is one byte from 2 to 5.
fn widest() -> Vec<u8> {
    (0..31).flat_map(|rule| [5, 2 + 8 * rule, 5 + 8 * rule, 0]).collect()
}

pub fn add(edges: &mut Edges) {
    banners(edges);
    broken(edges);
    captures(edges);
    images(edges);
    refusals(edges);
    elsewhere(edges);
}

/// A dump with a banner after it.
fn banners(edges: &mut Edges) {
    edges.add("leading: a dump, and a banner after it", |found, rng| {
        alike(found, rng, (RING, FORMED), (Accepted, 174, (2, 25, 0)));
        for banner in BANNERS {
            let capture = [FORMED, banner].concat();
            let end = (2, capture.len() + 1, 0);
            // A reading more for each byte of the banner.
            let leading = (Accepted, 174 + banner.len(), end);
            told(found, rng, (RING, &capture), (Stuck, 174, (2, 25, 0)), leading);
        }
    });
    edges.add("leading: a banner that begins as a link does", |found, rng| {
        let capture = [FORMED, b"1-2 F"].concat();
        for (matching, verdict, head) in [(Whole, Stuck, 25), (Leading, Accepted, 30)] {
            let image = image(found, rng, RING, matching);
            expect(found, rng, (&image, &capture), verdict, None, (2, head, 0));
        }
        grammar_on(found, rng, RING, &capture, 1000);
    });
    edges.add("leading: a banner alone", |found, rng| {
        for banner in BANNERS {
            alike(found, rng, (RING, banner), (Stuck, 13, (3, 1, 0)));
        }
    });
}

/// Dumps that are broken somewhere. The ring's grammar matches one line or more, so lines before the first broken one are
/// a match: a leading match accepts, with a banner or without.
fn broken(edges: &mut Edges) {
    edges.add("leading: accepts a dump whose third line is broken", |found, rng| {
        for banner in [&b""[..]].into_iter().chain(BANNERS) {
            let capture = [BROKEN, banner].concat();
            let end = (2, capture.len() + 1, 0);
            let leading = (Accepted, 105 + 12 + banner.len(), end);
            told(found, rng, (RING, &capture), (Stuck, 105, (2, 13, 0)), leading);
        }
    });
    edges.add("leading: stuck where the first line is broken", |found, rng| {
        for banner in [&b""[..]].into_iter().chain(BANNERS) {
            let capture = [&BROKEN[12..], banner].concat();
            for matching in Matching::BOTH {
                let image = image(found, rng, RING, matching);
                expect(found, rng, (&image, &capture), Stuck, None, (3, 1, 0));
            }
            grammar_on(found, rng, RING, &capture, 1000);
        }
    });
    edges.add("leading: a grammar that says what must not follow", |found, rng| {
        let text = [b"dump = table !port;\n", RING_TEXT].concat();
        let old = sides::old_grammar(rng);
        let Ok(bytes) = sides::read_grammar(found, &old, &text) else { return };
        let mut verdicts = |capture: &[u8], told: [Verdict; 2]| {
            grammar_on(found, rng, &bytes, capture, 1000);
            let got = Matching::BOTH.map(|matching| {
                let image = image(found, rng, &bytes, matching);
                judge(found, rng, &image, capture).map(|judged| judged.verdict)
            });
            found.note(compare::answers("verdicts, as told", &told.map(Ok), &got), &[("capture", capture)]);
        };
        verdicts(FORMED, [Accepted, Accepted]);
        for banner in BANNERS {
            verdicts(&[FORMED, banner].concat(), [Stuck, Accepted]);
            verdicts(&[BROKEN, banner].concat(), [Stuck, Stuck]);
        }
        verdicts(&[FORMED, b"1-2 F"].concat(), [Stuck, Stuck]);
        verdicts(BROKEN, [Stuck, Stuck]);
    });
}

/// No byte, one, and the most; bytes of every class; and no end.
fn captures(edges: &mut Edges) {
    edges.add("leading: the empty capture", |found, rng| {
        alike(found, rng, (EMPTY, b""), (Accepted, 3, (2, 1, 0)));
        alike(found, rng, (&[5, 97, 97, 0], b""), (Stuck, 3, (3, 1, 0)));
        alike(found, rng, (&[3, 1, 0, 0, 5, 97, 97, 0], b""), (Accepted, 5, (2, 1, 0)));
        alike(found, rng, (RING, b""), (Stuck, 13, (3, 1, 0)));
    });
    for length in [1, 2, 1000, LONG - 1, LONG] {
        edges.add(format!("leading: nothing is matched, before {length} bytes"), move |found, rng| {
            let end = (2, length + 1, 0);
            // As many readings more as there are bytes, which is the most that a leading match can add.
            for byte in [0, b'a', 255] {
                let capture = vec![byte; length];
                told(found, rng, (EMPTY, &capture), (Stuck, 3, (2, 1, 0)), (Accepted, length + 3, end));
            }
            // A not that holds, by two readings more.
            let (not, capture) = ([3, 1, 0, 0, 5, b'x', b'x', 0], vec![b'a'; length]);
            told(found, rng, (&not, &capture), (Stuck, 5, (2, 1, 0)), (Accepted, length + 5, end));
            let (image, steps) = (image(found, rng, EMPTY, Leading), length as u32 + 3);
            expect_run(found, rng, (&image, &capture), (steps, 2), (Accepted, steps.into()));
            expect_run(found, rng, (&image, &capture), (steps - 1, 2), (Spent, steps as u64 - 1));
            expect_run(found, rng, (&image, &capture), (steps, 1), (Deep, 0));
        });
    }
    edges.add("leading: 65,536 bytes", |found, rng| {
        let capture = vec![b'a'; LONG + 1];
        for image in Matching::BOTH.map(|matching| built(EMPTY, matching)) {
            let got = sides::cells(found, &image, capture.len());
            refused(found, "cells", got, 7, 65_536);
            let got = sides::judge(found, rng, &image, &capture, 1_000_000, 1_000_000);
            refused(found, "judge", got, 7, 65_536);
            let got = sides::plain_run(found, rng, &image, &capture, u32::MAX, 2);
            refused(found, "plain run", got, 7, 65_536);
        }
    });
    edges.add("leading: a byte of every class follows", |found, rng| {
        let (bytes, all) = (widest(), (0..=255).collect::<Vec<u8>>());
        for byte in 0..=255 {
            told(found, rng, (&bytes, &[3, byte]), (Stuck, 4, (2, 2, 0)), (Accepted, 5, (2, 3, 0)));
        }
        let capture = [&[2], &all[..]].concat();
        told(found, rng, (&bytes, &capture), (Stuck, 4, (2, 2, 0)), (Accepted, 260, (2, 258, 0)));
        alike(found, rng, (&bytes, &all), (Stuck, 3, (3, 1, 0)));
    });
    edges.add("leading: no end", |found, rng| {
        for capture in [&b""[..], b"a", b"ab"] {
            alike(found, rng, (&[1, 0, 0, 0], capture), (Looping, 2, (1, 1, 1)));
            alike(found, rng, (&[3, 0, 0, 0], capture), (Looping, 2, (1, 1, 1)));
        }
        // A byte and then itself, or else for ever: with a byte left over too, since no rule comes back.
        let bytes = [2, 1, 3, 0, 1, 2, 0, 0, 5, b'a', b'a', 0, 1, 3, 3, 0];
        for capture in [&b""[..], b"a", b"aab"] {
            for image in Matching::BOTH.map(|matching| built(&bytes, matching)) {
                let got = judge(found, rng, &image, capture).map(|judged| judged.verdict);
                found.note(compare::answers("verdict, as told", &Ok(Looping), &got), &[("capture", capture)]);
            }
            grammar_on(found, rng, &bytes, capture, 1000);
        }
    });
}

/// The image for the whole capture with the rules of a leading match put in, and how many these are.
fn with_row(whole: &[u8]) -> (Vec<u8>, usize) {
    let (mut image, classes, symbols) = (whole.to_vec(), whole[25] as usize, whole[26] as usize);
    for class in 0..classes {
        // State 2 and symbol 0, which no marker's class has.
        let at = 288 + 4 * (2 * (classes + 2) + class) * symbols;
        image[at..at + 4].copy_from_slice(&change(2, 0, RIGHT));
    }
    (image, classes)
}

fn images(edges: &mut Edges) {
    edges.add("leading: one row of the image differs", |found, rng| {
        let some = (0..200).map(|number| grammars::of_rules(rng, 1 + number % 31)).collect::<Vec<_>>();
        let few = [EMPTY, RING, &[5, 0, 255, 0], &[5, 255, 0, 0], &[1, 0, 0, 0], &[5, 0, 0, 0, 5, 255, 255, 0]];
        for bytes in few.map(<[u8]>::to_vec).into_iter().chain([widest(), EMPTY.repeat(31)]).chain(some) {
            let [whole, leading] = Matching::BOTH.map(|matching| image(found, rng, &bytes, matching));
            let (expected, classes) = with_row(&whole);
            found.note(compare::cells("leading image", &expected, &leading), &[("grammar", &bytes)]);
            let rules = |image: &[u8]| image[288..].as_chunks::<4>().0.to_vec();
            let differing = rules(&whole).into_iter().zip(rules(&leading)).filter(|(one, other)| one != other);
            let missing = differing.map(|(one, _)| one).collect::<Vec<_>>();
            found.note(compare::answers("rules", &vec![NONE; classes], &missing), &[("grammar", &bytes)]);
        }
    });
    edges.add("leading: with none chosen", |found, _| {
        for bytes in [EMPTY, RING, &widest()] {
            let mut buffer = vec![9; sejimakpu::MAX_BUILT_IMAGE];
            let length = sejimakpu::build(bytes, sejimakpu::Matching::default(), &mut buffer).unwrap_or(0);
            let told = built(bytes, Matching::default());
            found.note(compare::cells("image", &told, &buffer[..length]), &[("grammar", bytes)]);
            found.note(compare::answers("leading", &true, &(told == built(bytes, Leading))), &[]);
            found.note(compare::answers("whole", &false, &(told == built(bytes, Whole))), &[]);
        }
    });
}

/// Refusals 11 to 13 are the same, on both sides of each limit.
fn refusals(edges: &mut Edges) {
    edges.add("leading: refusals 11 to 13", |found, rng| {
        for rules in [1, 2, 30, 31] {
            let bytes = EMPTY.repeat(rules);
            let needed = 288 + 4 * 5 * 3 * (2 * rules + 1);
            build_refused(found, rng, &bytes, needed - 1, 13, needed);
            build_refused(found, rng, &bytes, 0, 13, needed);
            let lengths =
                Matching::BOTH.map(|matching| sides::build(found, rng, &bytes, matching, needed).map(|of| of.len()));
            found.note(compare::answers("lengths", &[Ok(needed); 2], &lengths), &[]);
            for part in 1..4 {
                build_refused(found, rng, &bytes[..4 * rules - part], needed, 11, 4 * rules - part);
            }
            // The last rule names itself, and the one after it.
            for kind in [1, 2, 3] {
                let mut bytes = bytes.clone();
                bytes[4 * rules - 4..][..2].copy_from_slice(&[kind, rules as u8 - 1]);
                let lengths = Matching::BOTH.map(|matching| image(found, rng, &bytes, matching).len());
                found.note(compare::answers("lengths", &[needed; 2], &lengths), &[]);
                bytes[4 * rules - 3] += 1;
                build_refused(found, rng, &bytes, needed, 12, 4 * rules - 4);
            }
        }
        for bytes in [&[][..], &EMPTY.repeat(32)] {
            build_refused(found, rng, bytes, 90_000, 11, bytes.len());
        }
        let needed = image(found, rng, &widest(), Leading).len();
        build_refused(found, rng, &widest(), needed - 1, 13, needed);
    });
}

/// In a bundle; and the calls and the program that are for the whole capture.
fn elsewhere(edges: &mut Edges) {
    edges.add("leading: a bundle of dumps with banners", |found, rng| {
        let captures = [[FORMED, b"ready"].concat(), BROKEN.to_vec(), b"ready".to_vec(), [BROKEN, b"ready"].concat()];
        let bundle = of(&captures.each_ref().map(Vec::as_slice));
        let line = |(verdict, readings, end): Told| Ok(Judged { verdict, readings, end: config(end) });
        let stuck = (Stuck, 13, (3, 1, 0));
        let whole = [(Stuck, 174, (2, 25, 0)), (Stuck, 105, (2, 13, 0)), stuck, (Stuck, 105, (2, 13, 0))];
        let totals = Totals { stuck: 4, readings: 397, ..Totals::default() };
        let by = image(found, rng, RING, Whole);
        reports::told(found, rng, (&by, &bundle), (5000, 5000), &whole.map(line), totals);
        let leading = [(Accepted, 179, (2, 30, 0)), (Accepted, 117, (2, 25, 0)), stuck, (Accepted, 122, (2, 30, 0))];
        let totals = Totals { accepted: 3, stuck: 1, readings: 431, ..Totals::default() };
        let by = image(found, rng, RING, Leading);
        reports::told(found, rng, (&by, &bundle), (5000, 5000), &leading.map(line), totals);
    });
    edges.add("leading: not by a text, and not by the program", |found, rng| {
        let capture = [FORMED, b"ready"].concat();
        text_on(found, rng, RING_TEXT, &capture);
        let image = sides::build_text(found, rng, RING_TEXT, sejimakpu::MAX_BUILT_IMAGE).unwrap_or_default();
        expect(found, rng, (&image, &capture), Stuck, Some(174), (2, 25, 0));
        program::compare_with(found, &model::program::input(RING, &capture), "stuck 174 2 25 0\n");
        program::compare_with(found, &model::program::input(EMPTY, b"b"), "stuck 3 2 1 0\n");
    });
}
