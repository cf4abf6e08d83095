//! Reports: lines, totals and cells told beforehand, captures that are refused among others, and which refusal comes first.

use super::tools::*;
use super::Edges;
use crate::bundles::deciding;
use crate::findings::Findings;
use crate::rng::Rng;
use crate::{compare, sides};
use model::answer::Verdict::*;
use model::answer::{Judged, Refusal};
use model::building::Matching;
use model::bundle::{write, Line, Report, Totals};

pub fn refusal(number: u32, place: usize) -> Line {
    Err(Refusal { number, place })
}

/// A bundle of these captures, one behind the other.
pub fn of(captures: &[&[u8]]) -> Vec<u8> {
    let mut offset = 4 + 8 * captures.len() as u32;
    let mut pairs = Vec::new();
    for capture in captures {
        pairs.push((offset, capture.len() as u32));
        offset += capture.len() as u32;
    }
    write(captures.len() as u32, &pairs, &captures.concat())
}

/// The report has these lines and these totals.
pub fn told(
    found: &mut Findings,
    rng: &mut Rng,
    (image, bundle): (&[u8], &[u8]),
    (notes, work): (usize, usize),
    lines: &[Line],
    totals: Totals,
) {
    let got = sides::judge_bundle(found, rng, image, bundle, notes, work);
    let told = Ok(Report { lines: lines.to_vec(), totals });
    found.note(compare::answers("report, as told", &told, &got), &[("image", image), ("bundle", bundle)]);
}

pub fn add(edges: &mut Edges) {
    verdicts(edges);
    cells(edges);
    long_captures(edges);
    order(edges);
}

fn verdicts(edges: &mut Edges) {
    edges.add("report: each verdict, and refusals among them", |found, rng| {
        let bundle = of(&[b"aaa", b"e", b"aas", b"l", b"aaaaaa", b"", b"ae", b"aal"]);
        let lines = [
            reported(Accepted, 5, 4),
            reported(Ended, 2, 1),
            reported(Stuck, 4, 3),
            reported(Looping, 2, 1),
            refusal(8, 16),
            reported(Accepted, 2, 1),
            reported(Ended, 3, 2),
            reported(Looping, 4, 3),
        ];
        let totals = Totals { accepted: 2, ended: 2, stuck: 1, looping: 2, halted: 0, refusals: 1, readings: 22 };
        told(found, rng, (&deciding(), &bundle), (15, 16), &lines, totals);
    });
    for (name, byte, verdict) in [("accepted", b'a', Accepted), ("ended", b'e', Ended), ("stuck", b's', Stuck)] {
        edges.add(format!("report: 64 captures, all {name}"), move |found, rng| {
            let captures = [byte; 64];
            let captures: Vec<&[u8]> = captures.chunks(1).collect();
            let (readings, head) = if byte == b'a' { (3, 2) } else { (2, 1) };
            let lines = [reported(verdict, readings, head); 64];
            let sum = 64 * readings as u64;
            let mut totals = Totals { readings: sum, ..Totals::default() };
            *match verdict {
                Accepted => &mut totals.accepted,
                Ended => &mut totals.ended,
                _ => &mut totals.stuck,
            } = 64;
            told(found, rng, (&deciding(), &of(&captures)), (6, 6), &lines, totals);
            // Each is refused with a cell less.
            let totals = Totals { refusals: 64, ..Totals::default() };
            told(found, rng, (&deciding(), &of(&captures)), (5, 6), &[refusal(8, 6); 64], totals);
            told(found, rng, (&deciding(), &of(&captures)), (6, 5), &[refusal(9, 6); 64], totals);
        });
    }
    edges.add("report: captures of the document", |found, rng| {
        // C1 and C2, C3 and C4, C7 and C8: two captures of one grammar each, for the whole capture.
        let built = |bytes: &[u8]| built(bytes, Matching::Whole);
        let line = |verdict, readings, end| Ok(Judged { verdict, readings, end: config(end) });
        let both = |readings| Totals { accepted: 1, stuck: 1, readings, ..Totals::default() };
        let lines = [line(Accepted, 3, (2, 1, 0)), line(Stuck, 3, (2, 1, 0))];
        told(found, rng, (&built(&[4, 0, 0, 0]), &of(&[b"", b"a"])), (45, 45), &lines, both(6));
        let lines = [line(Accepted, 4, (2, 2, 0)), line(Stuck, 3, (3, 1, 0))];
        told(found, rng, (&built(&[5, 97, 97, 0]), &of(&[b"a", b"b"])), (45, 45), &lines, both(7));
        let lines = [line(Accepted, 5, (2, 1, 0)), line(Stuck, 6, (3, 1, 0))];
        let not = built(&[3, 1, 0, 0, 5, 97, 97, 0]);
        told(found, rng, (&not, &of(&[b"", b"a"])), (75, 75), &lines, both(11));
        let looping = Totals { looping: 64, readings: 128, ..Totals::default() };
        let lines = [line(Looping, 2, (1, 1, 1)); 64];
        told(found, rng, (&built(&[1, 0, 0, 0]), &of(&[&b""[..]; 64])), (30, 30), &lines, looping);
    });
    edges.add("report: captures of the document, for a leading match", |found, rng| {
        // By one image C1, C2 and a longer capture; by one C3, C4 and a capture that goes on after its match.
        let line = |verdict, readings, end| Ok(Judged { verdict, readings, end: config(end) });
        let built = |bytes: &[u8]| built(bytes, Matching::Leading);
        let lines = [line(Accepted, 3, (2, 1, 0)), line(Accepted, 4, (2, 2, 0)), line(Accepted, 6, (2, 4, 0))];
        let totals = Totals { accepted: 3, readings: 13, ..Totals::default() };
        told(found, rng, (&built(&[4, 0, 0, 0]), &of(&[b"", b"a", b"abc"])), (75, 75), &lines, totals);
        let lines = [line(Accepted, 4, (2, 2, 0)), line(Stuck, 3, (3, 1, 0)), line(Accepted, 6, (2, 4, 0))];
        let totals = Totals { accepted: 2, stuck: 1, readings: 13, ..Totals::default() };
        told(found, rng, (&built(&[5, 97, 97, 0]), &of(&[b"a", b"b", b"abc"])), (75, 75), &lines, totals);
    });
}

/// N and N - 1 cells, for some captures and not for others.
fn cells(edges: &mut Edges) {
    for (notes, work) in [(10, 10), (9, 10), (10, 9), (9, 9), (7, 10), (10, 7), (4, 4), (3, 4), (4, 3), (0, 0)] {
        edges.add(format!("report: {notes} notes and {work} work cells"), move |found, rng| {
            let captures: [&[u8]; 6] = [b"", b"aaa", b"a", b"aaa", b"aa", b""];
            let line = |capture: &&[u8]| {
                let needed = 2 * (capture.len() + 2);
                if notes < needed {
                    refusal(8, needed)
                } else if work < needed {
                    refusal(9, needed)
                } else {
                    reported(Accepted, capture.len() + 2, capture.len() + 1)
                }
            };
            let lines: Vec<Line> = captures.iter().map(line).collect();
            let judged = lines.iter().flatten();
            let totals = Totals {
                accepted: judged.clone().count() as u64,
                refusals: lines.iter().filter(|line| line.is_err()).count() as u64,
                readings: judged.map(|judged| judged.readings as u64).sum(),
                ..Totals::default()
            };
            told(found, rng, (&deciding(), &of(&captures)), (notes, work), &lines, totals);
        });
    }
    edges.add("report: many cells more than needed", |found, rng| {
        let lines = [reported(Accepted, 3, 2), reported(Ended, 2, 1)];
        let totals = Totals { accepted: 1, ended: 1, readings: 5, ..Totals::default() };
        told(found, rng, (&deciding(), &of(&[b"a", b"e"])), (5000, 7000), &lines, totals);
    });
}

/// Captures of 65,535 and 65,536 bytes among short ones.
fn long_captures(edges: &mut Edges) {
    let (longest, over) = (vec![b'a'; 65_535], vec![b'a'; 65_536]);
    let captures = [b"a".to_vec(), over, longest, vec![b'e'; 70_000], b"e".to_vec()];
    let bundle = of(&captures.iter().map(Vec::as_slice).collect::<Vec<_>>());
    for (cells, line) in [(131_074, reported(Accepted, 65_537, 65_536)), (131_073, refusal(8, 131_074))] {
        let bundle = bundle.clone();
        edges.add(format!("report: long captures, {cells} cells"), move |found, rng| {
            let refused = [refusal(7, 65_536), refusal(7, 70_000)];
            let lines = [reported(Accepted, 3, 2), refused[0], line, refused[1], reported(Ended, 2, 1)];
            let judged = line.is_ok();
            let totals = Totals {
                accepted: 1 + judged as u64,
                ended: 1,
                refusals: 3 - judged as u64,
                readings: 5 + line.map_or(0, |judged| judged.readings as u64),
                ..Totals::default()
            };
            told(found, rng, (&deciding(), &bundle), (cells, cells), &lines, totals);
        });
    }
    edges.add("report: 64 captures of 65,535 bytes", |found, rng| {
        let capture = vec![b'a'; 65_535];
        let totals = Totals { accepted: 64, readings: 64 * 65_537, ..Totals::default() };
        let lines = [reported(Accepted, 65_537, 65_536); 64];
        told(found, rng, (&deciding(), &of(&[&capture[..]; 64])), (131_074, 131_074), &lines, totals);
    });
    edges.add("report: a long capture first is refused before cells are looked at", |found, rng| {
        let totals = Totals { refusals: 2, ..Totals::default() };
        let lines = [refusal(7, 65_536), refusal(8, 4)];
        told(found, rng, (&deciding(), &of(&[&[b'a'; 65_536], b""])), (0, 0), &lines, totals);
    });
}

/// The image's refusals come first, then 18, and then nothing more refuses the call.
fn order(edges: &mut Edges) {
    let wrong: [(&str, Vec<u8>); 4] = [
        ("no bundle", vec![]),
        ("a wrong count", write(65, &[(12, 0); 65], b"")),
        ("a wrong pair", write(2, &[(20, 0), (19, 0)], b"")),
        ("a long capture", of(&[&[0; 65_536]])),
    ];
    for (name, bundle) in wrong {
        edges.add(format!("report: a bad image before {name}"), move |found, rng| {
            let good = deciding();
            bundle_refused(found, rng, &[], &bundle, 1, 0);
            bundle_refused(found, rng, &good[..31], &bundle, 1, 31);
            for (at, byte, number, place) in [
                (0, 0, 2, 0),
                (8, 0, 2, 8),
                (20, 0, 2, 16),
                (24, 33, 3, 24),
                (28, 4, 3, 28),
                (24, 3, 4, 20),
                (32, 4, 5, 32),
                (287, 255, 5, 287),
                (288, 5, 6, 288),
                (good.len() - 1, 1, 6, good.len() - 4),
            ] {
                let mut image = good.clone();
                image[at] = byte;
                bundle_refused(found, rng, &image, &bundle, number, place);
            }
        });
    }
    edges.add("report: 18 before the captures' own refusals", |found, rng| {
        // The first capture is too long, or has too few cells; the second pair is wrong.
        for first in [0, 1, 65_536] {
            let bundle = write(2, &[(20, first), (19, 0)], &vec![b'a'; first as usize]);
            bundle_refused(found, rng, &deciding(), &bundle, 18, 12);
        }
    });
}
