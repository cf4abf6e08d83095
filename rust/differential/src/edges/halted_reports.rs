//! Bundles of which some lines, or all, are halted: the lines, and the count of their own in the totals.

use super::reports::{of, refusal, told};
use super::tools::*;
use super::Edges;
use crate::bundles::deciding_to_halt;
use crate::compare;
use crate::stops::{other, swapped};
use model::answer::Judged;
use model::answer::Verdict::*;
use model::bundle::{Line, Totals};

pub fn add(edges: &mut Edges) {
    edges.add("report: halted among every other verdict", |found, rng| {
        let bundle = of(&[b"aaa", b"h", b"e", b"s", b"aah", b"l", b"aaaaaa", b"", b"ahs", b"ash"]);
        let lines = [
            reported(Accepted, 5, 4),
            reported(Halted, 2, 1),
            reported(Ended, 2, 1),
            reported(Stuck, 2, 1),
            reported(Halted, 4, 3),
            reported(Looping, 2, 1),
            refusal(8, 16),
            reported(Accepted, 2, 1),
            reported(Halted, 3, 2),
            reported(Stuck, 3, 2),
        ];
        let totals = Totals { accepted: 2, ended: 1, stuck: 2, looping: 1, halted: 3, refusals: 1, readings: 25 };
        told(found, rng, (&deciding_to_halt(), &bundle), (15, 16), &lines, totals);
        // With its stops swapped the two counts and the lines are too; a refused line stays one.
        let other = |line: &Line| line.map(|judged| Judged { verdict: other(judged.verdict), ..judged });
        let totals = Totals { stuck: 3, halted: 2, ..totals };
        told(found, rng, (&swapped(&deciding_to_halt()), &bundle), (15, 16), &lines.each_ref().map(other), totals);
    });
    edges.add("report: 64 captures, all halted", |found, rng| {
        let image = deciding_to_halt();
        for (capture, readings, head) in [(&b"h"[..], 2, 1), (b"ah", 3, 2), (b"haa", 2, 1)] {
            let (bundle, needed) = (of(&[capture; 64]), 2 * (capture.len() + 2));
            let totals = Totals { halted: 64, readings: 64 * readings as u64, ..Totals::default() };
            let lines = [reported(Halted, readings, head); 64];
            for spare in [0, 7] {
                told(found, rng, (&image, &bundle), (needed + spare, needed), &lines, totals);
            }
            let totals = Totals { refusals: 64, ..Totals::default() };
            told(found, rng, (&image, &bundle), (needed - 1, needed), &[refusal(8, needed); 64], totals);
        }
    });
    edges.add("report: 64 captures, stuck and halted in turn", |found, rng| {
        let captures: Vec<&[u8]> = [&b"s"[..], b"h"].into_iter().cycle().take(64).collect();
        let lines: Vec<Line> =
            [Stuck, Halted].into_iter().cycle().take(64).map(|verdict| reported(verdict, 2, 1)).collect();
        let totals = Totals { stuck: 32, halted: 32, readings: 128, ..Totals::default() };
        told(found, rng, (&deciding_to_halt(), &of(&captures)), (9, 8), &lines, totals);
    });
    edges.add("report: a bad halting rule refuses the call", |found, rng| {
        let good = deciding_to_halt();
        let place = 288 + 4 * 4;
        found.note(compare::cells("the halting rule", &HALT, &good[place..place + 4]), &[]);
        for (at, byte) in [(0, 5), (0, 255), (1, 1), (1, 255), (2, 1), (2, 255), (3, 1), (3, 255)] {
            let mut image = good.clone();
            image[place + at] = byte;
            bundle_refused(found, rng, &image, &of(&[b"h"]), 6, place);
            bundle_refused(found, rng, &image, &[], 6, place);
        }
    });
}
