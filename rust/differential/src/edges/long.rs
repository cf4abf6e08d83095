//! The longest captures, under grammars that nest and under random machines and grammars that do a lot.

use super::tools::*;
use super::Edges;
use crate::lively::{liveliest, Drawn};
use crate::parsing::{few_readings, leads_on};
use crate::rng::Rng;
use crate::{grammars, machines, sides};
use model::answer::Verdict::{self, *};
use model::building::Matching;

/// The longest capture.
const LONG: usize = 65_535;

const SEED: u64 = 0x5e71_0030;

/// A choice of "(", itself, ")", itself; or nothing.
const NESTED: &[u8] = &[2, 1, 5, 0, 1, 2, 3, 0, 5, b'(', b'(', 0, 1, 0, 4, 0, 1, 6, 0, 0, 4, 0, 0, 0, 5, b')', b')', 0];

/// The capture and the answer, by the count of opening and closing ones.
fn nested(open: usize, close: usize) -> (Vec<u8>, Verdict, (usize, usize, usize)) {
    let capture = [vec![b'('; open], vec![b')'; close]].concat();
    if open == close {
        (capture, Accepted, (2, 2 * open + 1, 0))
    } else if open > close {
        // The outermost one is not closed, so all is tried as nothing, which consumes nothing.
        (capture, Stuck, (2, 1, 0))
    } else {
        (capture, Stuck, (2, 2 * open + 1, 0))
    }
}

fn of_letters(rng: &mut Rng, letters: &[u8], length: usize) -> Vec<u8> {
    (0..length).map(|_| rng.pick(letters)).collect()
}

pub fn add(edges: &mut Edges) {
    for (open, close) in
        [(0, 0), (1, 1), (1, 0), (0, 1), (20, 20), (32_767, 32_767), (32_768, 32_767), (32_767, 32_768)]
    {
        edges.add(format!("{open} opening and {close} closing"), move |found, rng| {
            let (capture, verdict, end) = nested(open, close);
            let judged = Matching::BOTH.map(|matching| {
                let image = built(NESTED, matching);
                // It may match nothing, and so never fails.
                let (verdict, end) = match matching {
                    Matching::Whole => (verdict, end),
                    Matching::Leading => (Accepted, (2, capture.len() + 1, 0)),
                };
                expect(found, rng, (&image, &capture), verdict, None, end);
                let _ = sides::plain_run(found, rng, &image, &capture, 1_000_000, 300_000);
                let judged = judge(found, rng, &image, &capture).ok()?;
                few_readings(found, matching, NESTED, &capture, judged);
                Some(judged)
            });
            if let [Some(whole), Some(leading)] = judged {
                leads_on(found, NESTED, &capture, whole, leading);
            }
        });
    }
    for number in 0..16 {
        edges.add(format!("a machine on the longest capture, {number}"), move |found, _| {
            let rng = &mut Rng::of_case(SEED, number);
            let sizes = (rng.within(2..=4), rng.within(1..=3), rng.within(2..=4));
            let letters = rng.bytes(3);
            let drawn = liveliest(rng, &[200], |rng| {
                let image = machines::image_of(rng, sizes);
                Drawn { image, capture: of_letters(rng, &letters, 200), from: () }
            });
            let capture = of_letters(rng, &letters, LONG);
            let _ = judge(found, rng, &drawn.image, &capture);
            let _ = sides::plain_run(found, rng, &drawn.image, &capture, 200_000, 50_000);
        });
    }
    for number in 0..8 {
        edges.add(format!("a grammar on the longest capture, {number}"), move |found, _| {
            let rng = &mut Rng::of_case(SEED + 1, number);
            let matching = Matching::BOTH[number as usize % 2];
            let drawn = liveliest(rng, &[200], |rng| {
                let bytes = grammars::of_rules(rng, 6);
                Drawn { image: built(&bytes, matching), capture: of_letters(rng, b"abcd", 200), from: bytes }
            });
            // The short capture again and again, so that what was found on it is found here.
            let capture: Vec<u8> = drawn.capture.iter().copied().cycle().take(LONG).collect();
            if let Ok(judged) = judge(found, rng, &drawn.image, &capture) {
                few_readings(found, matching, &drawn.from, &capture, judged);
            }
            let _ = sides::plain_run(found, rng, &drawn.image, &capture, 200_000, 50_000);
        });
    }
}
