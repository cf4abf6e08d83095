//! Missing and halting rules beside each other: with the one in the place of the other a machine is judged and run alike,
//! but that it is halted where it was stuck, and stuck where it was halted.

use crate::compare::{self, Judging, Running};
use crate::findings::Findings;
use crate::kinds::{judge_with_spare_cells, some_plain_run, LONG};
use crate::rng::Rng;
use crate::{machines, sides};
use model::answer::{Judged, Ran, Verdict};
use model::image;

/// The image with each missing rule halting, and each halting one missing.
pub fn swapped(image: &[u8]) -> Vec<u8> {
    let mut image = image.to_vec();
    for rule in image[288..].chunks_exact_mut(4) {
        rule[0] = match rule[0] {
            0 => 4,
            4 => 0,
            kind => kind,
        };
    }
    image
}

/// The verdict of the same run with its stop swapped.
pub fn other(verdict: Verdict) -> Verdict {
    match verdict {
        Verdict::Stuck => Verdict::Halted,
        Verdict::Halted => Verdict::Stuck,
        verdict => verdict,
    }
}

/// The library says the same of two images that differ in the kinds of their stops, but for these verdicts; over the same
/// cells, and with these budgets and numbers of stack cells.
pub fn alike(found: &mut Findings, rng: &mut Rng, [image, second]: [&[u8]; 2], capture: &[u8], runs: &[(u32, usize)]) {
    let inputs: &[(&str, &[u8])] = &[("image", image), ("second image", second), ("capture", capture)];
    let needed = sejimakpu::cells(image, capture.len()).expect("it is made to be good");
    let (notes, work) = (rng.cells(needed + 2), rng.cells(needed + 3));
    let judged = |image: &[u8]| sides::judged_by_library(image, capture, notes.clone(), work.clone());
    found.note(compare::judging(&judged_otherwise(judged(image)), &judged(second)), inputs);
    for &(budget, cells) in runs {
        let stack = rng.cells(cells);
        let ran = |image: &[u8]| sides::run_by_library(image, capture, budget, stack.clone());
        found.note(compare::running(&run_otherwise(ran(image)), &ran(second)), inputs);
    }
}

fn judged_otherwise(of: Judging) -> Judging {
    Judging { answer: of.answer.map(|judged| Judged { verdict: other(judged.verdict), ..judged }), ..of }
}

fn run_otherwise(of: Running) -> Running {
    Running { answer: of.answer.map(|ran| Ran { verdict: other(ran.verdict), ..ran }), ..of }
}

/// A machine with a capture and the same with its stops swapped: alike, and the second as the model has it.
pub fn case(found: &mut Findings, rng: &mut Rng) {
    let (image, capture) = machines::with_capture(rng);
    let machine = image::read(&image).expect("it is made to be good");
    let (steps, height, _) = sides::measure(machine, &capture, LONG);
    let some = (rng.within(0..=steps) as u32, rng.within(1..=height));
    let (steps, swapped) = (steps as u32, swapped(&image));
    let runs = [(steps, height), (steps.saturating_sub(1), height), some];
    alike(found, rng, [&image, &swapped], &capture, &runs);
    judge_with_spare_cells(found, rng, &swapped, &capture);
    some_plain_run(found, rng, &swapped, &capture, LONG);
}
