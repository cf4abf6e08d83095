//! The two sides of a comparison: each function here calls the library and the model with the same inputs and the same
//! lent cells, and notes a difference.

mod bundle;
mod owned;
pub mod raw;
mod recursion;

use crate::compare::{self, Building, Judging, Running, TextJudging};
use crate::findings::Findings;
use crate::rng::Rng;
use model::answer::{Config, Judged, Ran, Refusal, Verdict};
use model::building::Matching;
use model::machine::Machine;
use model::run::{Run, Step};
use model::{calls, image, summary, walk};

pub use bundle::{judge_bundle, pack_bundle};
#[cfg(test)]
pub use bundle::{old_bundling, put};
pub use recursion::{check_recursion, check_text_recursion};
#[cfg(test)]
pub use recursion::{old_checking, put_checked};

/// Runs up to so many steps are judged by walking too.
const WALK_LIMIT: usize = 100_000;

/// The library's refusal as the model's. Any other error says that the comparison is with the wrong archive.
fn refusal(of: sejimakpu::Error) -> Refusal {
    let refusal = of.refusal().unwrap_or_else(|| panic!("{of}"));
    assert_eq!(refusal.name(), None, "one call alone tells a name");
    Refusal { number: refusal.number(), place: refusal.place() }
}

fn verdict(of: sejimakpu::Verdict) -> Verdict {
    match of {
        sejimakpu::Verdict::Accepted => Verdict::Accepted,
        sejimakpu::Verdict::Ended => Verdict::Ended,
        sejimakpu::Verdict::Stuck => Verdict::Stuck,
        sejimakpu::Verdict::Looping => Verdict::Looping,
        sejimakpu::Verdict::Spent => Verdict::Spent,
        sejimakpu::Verdict::Deep => Verdict::Deep,
        sejimakpu::Verdict::Halted => Verdict::Halted,
        other => panic!("the model has no verdict {other}"),
    }
}

fn config(of: sejimakpu::Config) -> Config {
    Config { state: of.state as usize, head: of.head as usize, symbol: of.symbol as usize }
}

fn judged(of: sejimakpu::Judged) -> Judged {
    Judged { verdict: verdict(of.verdict), readings: of.readings as usize, end: config(of.end) }
}

/// Checking alone.
pub fn check(found: &mut Findings, image: &[u8]) -> Result<(), Refusal> {
    let expected = image::read(image).map(|_| ());
    let got = sejimakpu::check(image).map_err(refusal);
    found.note(compare::answers("check", &expected, &got), &[("image", image)]);
    got
}

/// The number of cells.
pub fn cells(found: &mut Findings, image: &[u8], capture_length: usize) -> Result<usize, Refusal> {
    let expected = calls::cells(image::read(image), capture_length);
    let got = sejimakpu::cells(image, capture_length).map_err(refusal);
    let name = format!("cells for {capture_length}");
    found.note(compare::answers(&name, &expected, &got), &[("image", image)]);
    got
}

/// Judging, with so many notes and work cells lent; answers what the library did.
pub fn judge(
    found: &mut Findings,
    rng: &mut Rng,
    image: &[u8],
    capture: &[u8],
    notes: usize,
    work: usize,
) -> Result<Judged, Refusal> {
    let (notes, work) = (rng.cells(notes), rng.cells(work));
    let got = judged_by_library(image, capture, notes.clone(), work.clone());
    let expected = judged_by_model(found, image, capture, notes, work);
    found.note(compare::judging(&expected, &got), &[("image", image), ("capture", capture)]);
    owned::judge(found, image, capture, &expected);
    got.answer
}

/// Judging by the library, over these cells.
pub fn judged_by_library(image: &[u8], capture: &[u8], mut notes: Vec<u32>, mut work: Vec<u32>) -> Judging {
    let answer = sejimakpu::judge(image, capture, &mut notes, &mut work).map_err(refusal).map(judged);
    Judging { answer, notes, work }
}

/// Judging by the model, in both of its ways where the run is short enough; these are compared too.
fn judged_by_model(
    found: &mut Findings,
    image: &[u8],
    capture: &[u8],
    mut notes: Vec<u32>,
    mut work: Vec<u32>,
) -> Judging {
    let answer = calls::judge_checks(image::read(image), capture.len(), notes.len(), work.len());
    let answer = answer.map(|(machine, _)| judge_machine(found, machine, capture, &mut notes, &mut work));
    Judging { answer, notes, work }
}

fn judge_machine(
    found: &mut Findings,
    machine: Machine,
    capture: &[u8],
    notes: &mut [u32],
    work: &mut [u32],
) -> Judged {
    let outcome = summary::judge(machine, capture);
    if let Some(walked) = walk::judge(machine, capture, WALK_LIMIT) {
        let agree = compare::answers("the model's two ways agree", &true, &(walked.outcome == outcome));
        found.note(agree, &[("image", machine.bytes()), ("capture", capture)]);
        found.walked += 1;
        let entered = outcome.notes.iter().filter(|&&note| note != 0).count();
        found.repeating += (walked.steps > entered) as usize;
    }
    let judged = calls::judge_answer(&outcome, notes, work);
    found.verdicts.push(judged.verdict);
    found.readings.push(judged.readings);
    judged
}

/// The plain run, with so many stack cells lent.
pub fn plain_run(
    found: &mut Findings,
    rng: &mut Rng,
    image: &[u8],
    capture: &[u8],
    budget: u32,
    cells: usize,
) -> Result<Ran, Refusal> {
    let mut stack = rng.cells(cells);
    let got = run_by_library(image, capture, budget, stack.clone());
    let answer = calls::plain_run(image::read(image), capture, budget, &mut stack);
    if let Ok(ran) = answer {
        found.verdicts.push(ran.verdict);
    }
    let expected = Running { answer, stack };
    let inputs: &[(&str, &[u8])] = &[("image", image), ("capture", capture), ("budget", &budget.to_le_bytes())];
    found.note(compare::running(&expected, &got), inputs);
    got.answer
}

/// The plain run by the library, over these cells.
pub fn run_by_library(image: &[u8], capture: &[u8], budget: u32, mut stack: Vec<u32>) -> Running {
    let answer = sejimakpu::plain_run(image, capture, budget, &mut stack).map_err(refusal).map(|ran| {
        let (verdict, steps) = (verdict(ran.verdict), ran.steps as u64);
        Ran { verdict, steps, reached: config(ran.reached) }
    });
    Running { answer, stack }
}

/// Building into a buffer of so many bytes; answers what the library built, if it did.
pub fn build(
    found: &mut Findings,
    rng: &mut Rng,
    grammar: &[u8],
    matching: Matching,
    buffer: usize,
) -> Result<Vec<u8>, Refusal> {
    let mut buffer = rng.bytes(buffer);
    let mut got_buffer = buffer.clone();
    let (name, of_library) = match matching {
        Matching::Whole => ("build whole", sejimakpu::Matching::Whole),
        Matching::Leading => ("build leading", sejimakpu::Matching::Leading),
    };
    let answer = sejimakpu::build(grammar, of_library, &mut got_buffer).map_err(refusal);
    let got = Building { answer, buffer: got_buffer };
    let answer = calls::build(grammar, matching, &mut buffer);
    found.note(compare::building(name, &Building { answer, buffer }, &got), &[("grammar", grammar)]);
    got.answer.map(|length| got.buffer[..length].to_vec())
}

/// Bytes on both sides of a lent buffer, which no call may change.
const FENCE: usize = 8;

/// The part of a fenced buffer that is lent.
fn inside(fenced: &mut [u8]) -> &mut [u8] {
    let end = fenced.len() - FENCE;
    &mut fenced[FENCE..end]
}

/// Old contents for the array that a text is read into, with its fences.
pub type OldGrammar = [u8; sejimakpu::MAX_GRAMMAR + 2 * FENCE];

pub fn old_grammar(rng: &mut Rng) -> OldGrammar {
    std::array::from_fn(|_| rng.byte())
}

/// Reading a text over old contents; answers the bytes that the library read, if it did.
pub fn read_grammar(found: &mut Findings, old: &OldGrammar, text: &[u8]) -> Result<Vec<u8>, Refusal> {
    let (mut expected, mut got) = (*old, *old);
    let lent = inside(&mut got).try_into().expect("124 bytes are lent");
    let got_answer = sejimakpu::read_grammar(text, lent).map_err(refusal);
    let answer = calls::read_grammar(text, inside(&mut expected));
    if answer != got_answer || expected != got {
        let expected = Building { answer, buffer: expected.to_vec() };
        let got = Building { answer: got_answer, buffer: got.to_vec() };
        found.note(compare::building("read grammar", &expected, &got), &[("text", text)]);
    }
    if got_answer.is_ok() {
        owned::grammar_of_text(found, text);
    }
    got_answer.map(|length| got[FENCE..FENCE + length].to_vec())
}

/// Building from a text into a buffer of so many bytes; answers what the library built, if it did.
pub fn build_text(found: &mut Findings, rng: &mut Rng, text: &[u8], buffer: usize) -> Result<Vec<u8>, Refusal> {
    let mut buffer = rng.bytes(buffer + 2 * FENCE);
    let mut got_buffer = buffer.clone();
    let answer = sejimakpu::build_text(text, inside(&mut got_buffer)).map_err(refusal);
    let got = Building { answer, buffer: got_buffer };
    let answer = calls::build_text(text, inside(&mut buffer));
    found.note(compare::building("build text", &Building { answer, buffer }, &got), &[("text", text)]);
    got.answer.map(|length| got.buffer[FENCE..FENCE + length].to_vec())
}

/// What judging by a text is lent: bytes for the image, notes and work cells.
#[derive(Clone, Copy)]
pub struct Lent {
    pub image: usize,
    pub notes: usize,
    pub work: usize,
}

/// Judging by a text; answers what the library did.
pub fn judge_text(
    found: &mut Findings,
    rng: &mut Rng,
    text: &[u8],
    capture: &[u8],
    lent: Lent,
) -> Result<Judged, Refusal> {
    let (mut notes, mut work) = (rng.cells(lent.notes), rng.cells(lent.work));
    let mut buffer = rng.bytes(lent.image + 2 * FENCE);
    let (mut got_notes, mut got_work, mut got_buffer) = (notes.clone(), work.clone(), buffer.clone());
    let answer = sejimakpu::judge_text(text, capture, inside(&mut got_buffer), &mut got_notes, &mut got_work);
    let judging = Judging { answer: answer.map_err(refusal).map(judged), notes: got_notes, work: got_work };
    let got = TextJudging { judging, buffer: got_buffer };
    let checked = calls::judge_text_checks(text, capture.len(), inside(&mut buffer), lent.notes, lent.work);
    let answer = checked.map(|image| {
        let machine = image::read(&image).expect("a built image is good");
        judge_machine(found, machine, capture, &mut notes, &mut work)
    });
    let expected = TextJudging { judging: Judging { answer, notes, work }, buffer };
    found.note(compare::text_judging(&expected, &got), &[("text", text), ("capture", capture)]);
    got.judging.answer
}

/// How long a run is and how high its stack gets, if it ends within the limit; by the model's run.
pub fn measure(machine: Machine, capture: &[u8], limit: usize) -> (usize, usize, bool) {
    let mut run = Run::start(machine, capture);
    let (mut steps, mut height) = (0, 1);
    while steps < limit {
        match run.step() {
            Step::Stuck | Step::Halted => return (steps, height, true),
            Step::Over(_) => return (steps + 1, height, true),
            Step::Changed | Step::Pushed | Step::Popped => {
                steps += 1;
                height = height.max(run.stack.len());
            }
        }
    }
    (steps, height, false)
}
