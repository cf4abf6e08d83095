//! Judging a bundle, four times over: by the model, by the archive's own function, by the wrapper, and capture by capture.

use super::raw::{self, Line, LINES};
use super::{judge_machine, judged, refusal};
use crate::compare::{self, Bundling};
use crate::findings::Findings;
use crate::rng::Rng;
use model::answer::{Judged, Refusal, Verdict};
use model::bundle::{self, Report, Totals};
use model::image;

/// Lines and totals are lent with one of their kind on either side, which no call may change.
const FENCE: usize = 1;

/// What stood in everything that is lent, before a call.
pub fn old_bundling(rng: &mut Rng, notes: usize, work: usize) -> Bundling {
    Bundling {
        returned: 0,
        answer: std::array::from_fn(|_| rng.next()),
        lines: (0..LINES + 2 * FENCE).map(|_| std::array::from_fn(|_| rng.next())).collect(),
        totals: (0..10 + 2 * FENCE).map(|_| rng.next()).collect(),
        notes: rng.cells(notes),
        work: rng.cells(work),
    }
}

/// Judging a bundle, with so many notes and work cells lent; answers what the library reported.
pub fn judge_bundle(
    found: &mut Findings,
    rng: &mut Rng,
    image: &[u8],
    bundle: &[u8],
    notes: usize,
    work: usize,
) -> Result<Report, Refusal> {
    let old = old_bundling(rng, notes, work);
    let inputs: &[(&str, &[u8])] = &[("image", image), ("bundle", bundle)];
    let (report, expected) = by_model(found, &old, image, bundle);
    found.note(compare::bundling(&expected, &by_archive(&old, image, bundle)), inputs);

    let (mut got_notes, mut got_work) = (old.notes.clone(), old.work.clone());
    let got = sejimakpu::judge_bundle(image, bundle, &mut got_notes, &mut got_work).map_err(refusal).map(reported);
    found.note(compare::answers("report", &report, &got), inputs);
    found.note(compare::cells("notes of the wrapper", &expected.notes, &got_notes), inputs);
    found.note(compare::cells("work of the wrapper", &expected.work, &got_work), inputs);

    if let Ok(report) = &report {
        one_by_one(found, &old, (image, bundle), report, &expected);
    }
    got
}

/// The model's report, and what it leaves in everything that was lent.
fn by_model(found: &mut Findings, old: &Bundling, image: &[u8], bundle: &[u8]) -> (Result<Report, Refusal>, Bundling) {
    let mut left = old.clone();
    let report =
        bundle::judge(image::read(image), bundle, &mut left.notes, &mut left.work, |machine, capture, notes, work| {
            judge_machine(found, machine, capture, notes, work)
        });
    put(&mut left, &report);
    (report, left)
}

/// Puts a report down as the archive's function does. A refused call writes its answer alone.
pub fn put(left: &mut Bundling, report: &Result<Report, Refusal>) {
    match report {
        Err(Refusal { number, place }) => {
            left.returned = *number;
            left.answer = [*place as u64, 0, 0, 0, 0, 0];
        }
        Ok(Report { lines, totals }) => {
            left.returned = 0;
            left.answer = [0, 0, lines.len() as u64, 0, 0, 0];
            for (at, line) in left.lines[FENCE..].iter_mut().zip(lines) {
                *at = numbers(line);
            }
            let Totals { accepted, ended, stuck, looping, halted, refusals, readings } = *totals;
            left.totals[FENCE..][..10]
                .copy_from_slice(&[0, accepted, ended, stuck, looping, 0, 0, halted, refusals, readings]);
        }
    }
}

/// A line as seven numbers; the verdicts that judging gives are 1 to 4, and 7.
fn numbers(line: &bundle::Line) -> Line {
    match line {
        Err(Refusal { number, place }) => [(*number).into(), *place as u64, 0, 0, 0, 0, 0],
        Ok(Judged { verdict, readings, end }) => {
            let verdict = match verdict {
                Verdict::Accepted => 1,
                Verdict::Ended => 2,
                Verdict::Stuck => 3,
                Verdict::Looping => 4,
                Verdict::Halted => 7,
                other => panic!("judging never says {other}"),
            };
            [0, 0, verdict, *readings as u64, end.state as u64, end.head as u64, end.symbol as u64]
        }
    }
}

fn by_archive(old: &Bundling, image: &[u8], bundle: &[u8]) -> Bundling {
    let mut left = old.clone();
    let Bundling { answer, lines, totals, notes, work, .. } = &mut left;
    let lines = lines[FENCE..].first_chunk_mut().expect("64 lines are lent");
    let totals = totals[FENCE..].first_chunk_mut().expect("ten numbers are lent");
    left.returned = raw::judge_bundle(image, bundle, notes, work, lines, totals, answer);
    left
}

/// The wrapper's report as the model's.
fn reported(of: sejimakpu::Report) -> Report {
    let line = |line: Result<sejimakpu::Judged, sejimakpu::Refusal>| {
        line.map(judged).map_err(|of| Refusal { number: of.number(), place: of.place() })
    };
    let totals = of.totals();
    for verdict in [sejimakpu::Verdict::Spent, sejimakpu::Verdict::Deep] {
        assert_eq!(totals.of(verdict), 0, "judging never says {verdict}");
    }
    Report {
        lines: of.lines().map(line).collect(),
        totals: Totals {
            accepted: totals.of(sejimakpu::Verdict::Accepted),
            ended: totals.of(sejimakpu::Verdict::Ended),
            stuck: totals.of(sejimakpu::Verdict::Stuck),
            looping: totals.of(sejimakpu::Verdict::Looping),
            halted: totals.of(sejimakpu::Verdict::Halted),
            refusals: totals.refusals(),
            readings: totals.readings(),
        },
    }
}

/// Each line is what the library answers for the capture alone, and the cells are those after judging them in order.
fn one_by_one(
    found: &mut Findings,
    old: &Bundling,
    (image, bundle): (&[u8], &[u8]),
    report: &Report,
    expected: &Bundling,
) {
    let (mut notes, mut work) = (old.notes.clone(), old.work.clone());
    let captures = bundle::read(bundle).expect("it was judged");
    for (capture, line) in captures.into_iter().zip(&report.lines) {
        let answer = sejimakpu::judge(image, capture, &mut notes, &mut work).map_err(refusal).map(judged);
        found.note(compare::answers("judged alone", line, &answer), &[("image", image), ("capture", capture)]);
    }
    let inputs: &[(&str, &[u8])] = &[("image", image), ("bundle", bundle)];
    found.note(compare::cells("notes of judging in order", &expected.notes, &notes), inputs);
    found.note(compare::cells("work of judging in order", &expected.work, &work), inputs);
}

/// Packing by the wrapper, read back by the model.
pub fn pack_bundle(found: &mut Findings, captures: &[Vec<u8>]) -> Vec<u8> {
    let packed = sejimakpu::pack_bundle(captures).expect("so many captures can be packed");
    let read: Result<Vec<Vec<u8>>, Refusal> =
        bundle::read(&packed).map(|captures| captures.into_iter().map(<[u8]>::to_vec).collect());
    found.note(compare::answers("packed captures", &Ok(captures.to_vec()), &read), &[("bundle", &packed)]);
    packed
}
