//! The tests can fail: wrong answers made on purpose are told apart from right ones by the comparing functions.

mod halting;
mod leading;
mod recursion;

use crate::compare::{
    answers, building, bundling, judging, running, text_judging, Building, Bundling, Judging, Running, TextJudging,
};
use crate::findings::{Findings, Tally};
use crate::rng::Rng;
use crate::sides::{old_bundling, put};
use model::answer::{Config, Judged, Ran, Refusal, Verdict};
use model::building::{self as model_building, Matching};
use model::bundle::{self, Report};
use model::{calls, grammar, image, plain, walk};
use std::time::Duration;

/// C3, judged with two cells more than needed.
fn right_judging() -> Judging {
    let image = model_building::build(&grammar::read(&[5, 0x61, 0x61, 0]).unwrap(), Matching::Whole);
    let outcome = walk::judge(image::read(&image).unwrap(), b"a", 100).unwrap().outcome;
    let (mut notes, mut work) = (vec![7; outcome.notes.len() + 2], vec![9; outcome.notes.len() + 2]);
    let answer = Ok(calls::judge_answer(&outcome, &mut notes, &mut work));
    Judging { answer, notes, work }
}

/// Spoils a right judging and asks whether that is seen.
fn seen(spoil: impl Fn(&mut Judging)) -> bool {
    let right = right_judging();
    let mut wrong = right.clone();
    assert_eq!(judging(&right, &wrong), None);
    spoil(&mut wrong);
    judging(&right, &wrong).is_some()
}

fn spoil_answer(spoil: impl Fn(&mut Judged)) -> impl Fn(&mut Judging) {
    move |judging| spoil(judging.answer.as_mut().unwrap())
}

#[test]
fn a_wrong_judging_is_seen() {
    assert!(seen(spoil_answer(|judged| judged.verdict = Verdict::Stuck)));
    assert!(seen(spoil_answer(|judged| judged.readings += 1)));
    assert!(seen(spoil_answer(|judged| judged.end.state += 1)));
    assert!(seen(spoil_answer(|judged| judged.end.head -= 1)));
    assert!(seen(spoil_answer(|judged| judged.end.symbol += 1)));
    assert!(seen(|judging| judging.answer = Err(Refusal { number: 8, place: 45 })));
}

#[test]
fn every_wrong_cell_is_seen() {
    let count = right_judging().notes.len();
    for at in 0..count {
        assert!(seen(|judging| judging.notes[at] ^= 1));
        assert!(seen(|judging| judging.work[at] ^= 1 << 31));
    }
    assert!(seen(|judging| judging.notes.truncate(count - 1)));
}

#[test]
fn a_wrong_refusal_is_seen() {
    let mut right = right_judging();
    right.answer = Err(Refusal { number: 8, place: 45 });
    for (number, place) in [(9, 45), (8, 44)] {
        let mut wrong = right.clone();
        wrong.answer = Err(Refusal { number, place });
        assert!(judging(&right, &wrong).is_some());
    }
}

#[test]
fn a_wrong_plain_run_is_seen() {
    let image = model_building::build(&grammar::read(&[4, 0, 0, 0]).unwrap(), Matching::Whole);
    let ran = plain::run(image::read(&image).unwrap(), b"", 2, 2);
    let right = Running { answer: Ok(ran), stack: vec![0; 2] };
    assert_eq!(running(&right, &right.clone()), None);
    let reached = Config { head: 0, ..ran.reached };
    for answer in [Ran { verdict: Verdict::Deep, ..ran }, Ran { steps: 3, ..ran }, Ran { reached, ..ran }] {
        assert!(running(&right, &Running { answer: Ok(answer), stack: vec![0; 2] }).is_some());
    }
    assert!(running(&right, &Running { answer: Ok(ran), stack: vec![0, 1] }).is_some());
}

#[test]
fn a_wrong_image_is_seen() {
    let right = Building { answer: Ok(3), buffer: vec![1, 2, 3, 4] };
    assert_eq!(building("build", &right, &right.clone()), None);
    for at in 0..4 {
        let mut wrong = right.clone();
        wrong.buffer[at] ^= 1;
        assert!(building("build", &right, &wrong).is_some());
    }
    assert!(building("build", &right, &Building { answer: Ok(4), ..right.clone() }).is_some());
}

#[test]
fn a_wrong_judging_by_a_text_is_seen() {
    let right = TextJudging { judging: right_judging(), buffer: vec![1, 2, 3, 4] };
    assert_eq!(text_judging(&right, &right.clone()), None);
    for at in 0..4 {
        let mut wrong = right.clone();
        wrong.buffer[at] ^= 1;
        assert!(text_judging(&right, &wrong).is_some());
    }
    let mut wrong = right.clone();
    wrong.judging.work[0] ^= 1;
    assert!(text_judging(&right, &wrong).is_some());
}

/// C3 and C4 in one bundle with a capture for which there are too few cells, judged over old contents.
fn right_bundling() -> (Report, Bundling) {
    let image = model_building::build(&grammar::read(&[5, 0x61, 0x61, 0]).unwrap(), Matching::Whole);
    let bundle = bundle::write(3, &[(28, 1), (29, 1), (30, 2)], b"abaa");
    let mut left = old_bundling(&mut Rng::of_case(1, 2), 47, 46);
    let report = bundle::judge(
        image::read(&image),
        &bundle,
        &mut left.notes,
        &mut left.work,
        |machine, capture, notes, work| {
            calls::judge_answer(&walk::judge(machine, capture, 100).unwrap().outcome, notes, work)
        },
    );
    put(&mut left, &report);
    (report.unwrap(), left)
}

#[test]
fn every_wrong_number_of_a_bundle_is_seen() {
    let (report, right) = right_bundling();
    assert_eq!((report.totals.accepted, report.totals.stuck, report.totals.refusals), (1, 1, 1));
    assert_eq!(right.lines[1..4], [[0, 0, 1, 4, 2, 2, 0], [0, 0, 3, 3, 3, 1, 0], [8, 60, 0, 0, 0, 0, 0]]);
    assert_eq!(right.totals[1..11], [0, 1, 0, 1, 0, 0, 0, 0, 1, 7]);
    let seen = |spoil: &dyn Fn(&mut Bundling)| {
        let mut wrong = right.clone();
        assert_eq!(bundling(&right, &wrong), None);
        spoil(&mut wrong);
        bundling(&right, &wrong).is_some()
    };
    assert!(seen(&|wrong| wrong.returned = 18));
    for field in 0..6 {
        assert!(seen(&|wrong| wrong.answer[field] ^= 1));
    }
    // Those of the captures, those behind them, and one on either side of what was lent.
    assert_eq!((right.lines.len(), right.totals.len()), (66, 12));
    for (line, field) in (0..66).flat_map(|line| (0..7).map(move |field| (line, field))) {
        assert!(seen(&|wrong| wrong.lines[line][field] ^= 1 << 63));
    }
    for field in 0..12 {
        assert!(seen(&|wrong| wrong.totals[field] ^= 1 << 32));
    }
    for at in 0..47 {
        assert!(seen(&|wrong| wrong.notes[at] ^= 1));
        assert!(at == 46 || seen(&|wrong| wrong.work[at] ^= 1));
    }
    assert!(seen(&|wrong| wrong.lines.truncate(65)));
}

#[test]
fn a_wrong_report_is_seen() {
    let (right, _) = right_bundling();
    let seen = |spoil: &dyn Fn(&mut Report)| {
        let mut wrong = right.clone();
        assert_eq!(answers("report", &right, &wrong), None);
        spoil(&mut wrong);
        answers("report", &right, &wrong).is_some()
    };
    assert!(seen(&|wrong| wrong.lines[1].as_mut().unwrap().readings += 1));
    assert!(seen(&|wrong| wrong.lines[2] = Err(Refusal { number: 9, place: 60 })));
    assert!(seen(&|wrong| wrong.lines.swap(0, 1)));
    assert!(seen(&|wrong| wrong.lines.truncate(2)));
    assert!(seen(&|wrong| wrong.totals.looping += 1));
    assert!(seen(&|wrong| wrong.totals.refusals -= 1));
    assert!(seen(&|wrong| wrong.totals.readings += 1 << 32));
}

#[test]
fn a_refused_bundle_leaves_all_but_the_answer() {
    let old = old_bundling(&mut Rng::of_case(3, 4), 9, 9);
    let mut left = old.clone();
    put(&mut left, &Err(Refusal { number: 18, place: 12 }));
    assert_eq!((left.returned, left.answer), (18, [12, 0, 0, 0, 0, 0]));
    (left.returned, left.answer) = (old.returned, old.answer);
    assert_eq!(bundling(&old, &left), None);
}

#[test]
fn a_difference_is_counted() {
    let mut tally = Tally::start();
    tally.add("edges", "good", Findings::default(), Duration::ZERO);
    assert_eq!(tally.failed(), 0);
    let mut found = Findings::default();
    found.note(Some("on purpose".into()), &[("bytes", b"x")]);
    tally.add("edges", "bad", found, Duration::ZERO);
    assert_eq!(tally.failed(), 1);
}
