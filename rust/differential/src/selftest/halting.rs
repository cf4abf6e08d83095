//! A wrong way with halting rules is seen: one mistake each, over images and bundles of the kinds that are compared.

use crate::bundles::deciding_to_halt;
use crate::compare::{answers, bundling, judging, running, Bundling, Judging, Running};
use crate::edges::tools::blank;
use crate::exhaustive::{Machines, MACHINES};
use crate::findings::Findings;
use crate::lively::{each_often, VERDICTS};
use crate::rng::Rng;
use crate::sides::{old_bundling, put};
use crate::stops::{other, swapped};
use model::answer::{Ran, Refusal, Verdict};
use model::bundle::{self, Report, Totals};
use model::image;
use model::machine::Machine;
use model::walk::Outcome;
use model::{calls, plain, summary};

/// How many of the small machines show a mistake on their captures.
fn small_machines_that_show(shows: impl Fn(Machine, &[u8]) -> bool) -> usize {
    let numbers = MACHINES.iter().flat_map(|machines| (0..machines.count()).map(move |number| (machines, number)));
    let shows = |&(machines, number): &(&Machines, usize)| {
        let (image, capture) = (machines.image(number), vec![b'x'; machines.length]);
        shows(image::read(&image).unwrap(), &capture)
    };
    numbers.filter(shows).count()
}

/// A mistake in what is said of a halted run, whose end has this number.
type Misjudging = fn(&mut Outcome, usize);

/// Whether the comparison tells the mistake from what is right.
fn judged_apart(machine: Machine, capture: &[u8], mistake: Misjudging) -> bool {
    let right = summary::judge(machine, capture);
    let mut wrong = right.clone();
    if right.verdict == Verdict::Halted {
        mistake(&mut wrong, machine.number(capture, right.end));
    }
    let left = |outcome: &Outcome| {
        let (mut notes, mut work) = (vec![7; outcome.notes.len() + 2], vec![9; outcome.notes.len() + 2]);
        let answer = Ok(calls::judge_answer(outcome, &mut notes, &mut work));
        Judging { answer, notes, work }
    };
    judging(&left(&right), &left(&wrong)).is_some()
}

#[test]
fn a_wrong_judging_of_a_halted_run_is_seen() {
    let shown =
        |mistake: Misjudging| small_machines_that_show(|machine, capture| judged_apart(machine, capture, mistake));
    assert_eq!(shown(|_, _| ()), 0);
    let halted = shown(|wrong, _| wrong.verdict = Verdict::Stuck);
    assert!(halted > 1000, "{halted}");
    let mistakes: [Misjudging; 5] = [
        |wrong, _| wrong.verdict = Verdict::Ended,
        |wrong, _| wrong.verdict = Verdict::Looping,
        // The halting configuration is not entered, or it removes an entry.
        |wrong, end| wrong.notes[end] = 0,
        |wrong, end| wrong.notes[end] = 2 + end as u32,
        |wrong, _| wrong.end.head += 1,
    ];
    for mistake in mistakes {
        assert_eq!(shown(mistake), halted, "every halted run shows it");
    }
}

/// Plain runs of the small machines, by budget and cells.
const RUNS: [(u32, usize); 5] = [(0, 1), (0, 4), (1, 2), (2, 2), (9, 4)];

/// How many of the small machines show a mistake, made of the right answer and the budget, in one of the runs.
fn runs_that_show(mistake: fn(Ran, u32) -> Ran) -> usize {
    small_machines_that_show(|machine, capture| {
        RUNS.iter().any(|&(budget, cells)| {
            let right = plain::run(machine, capture, budget, cells);
            let left = |ran| Running { answer: Ok(ran), stack: vec![0; cells] };
            running(&left(right), &left(mistake(right, budget))).is_some()
        })
    })
}

/// The answer, with the mistake where the run is halted.
fn halted(ran: Ran, mistake: impl Fn(Ran) -> Ran) -> Ran {
    if ran.verdict == Verdict::Halted {
        mistake(ran)
    } else {
        ran
    }
}

#[test]
fn a_wrong_plain_run_to_a_halting_rule_is_seen() {
    assert_eq!(runs_that_show(|ran, _| ran), 0);
    assert_eq!(runs_that_show(|ran, _| halted(ran, |ran| ran)), 0);
    let stuck = runs_that_show(|ran, _| halted(ran, |ran| Ran { verdict: Verdict::Stuck, ..ran }));
    let counted = runs_that_show(|ran, _| halted(ran, |ran| Ran { steps: ran.steps + 1, ..ran }));
    assert!(stuck > 1000 && counted == stuck, "{stuck} and {counted}");
    // Halted after spent: with the budget used up at the halting rule.
    let spent = runs_that_show(|ran, budget| {
        halted(ran, |ran| if ran.steps == budget.into() { Ran { verdict: Verdict::Spent, ..ran } } else { ran })
    });
    assert!(spent > 1000, "{spent}");
    let missing = runs_that_show(|ran, _| match ran.verdict {
        Verdict::Stuck => Ran { verdict: Verdict::Halted, ..ran },
        _ => ran,
    });
    assert!(missing > 1000, "{missing}");
}

/// An image with one rule, its first or its last, and no other.
fn image_with(index: usize, rule: [u8; 4]) -> Vec<u8> {
    let mut parts = blank(2, 1, 2, 1);
    parts.rules[index] = rule;
    image::write(&parts)
}

/// A mistake of the check, made as a change of a rule before it is looked at.
#[derive(Clone, Copy, Debug)]
enum Mischeck {
    Nowhere,
    /// Of a halting rule this byte is not looked at.
    Unlooked(usize),
    /// A kind is taken for another.
    Taken(u8, u8),
}

impl Mischeck {
    fn of(self, mut rule: [u8; 4]) -> [u8; 4] {
        match self {
            Mischeck::Unlooked(at) if rule[0] == 4 => rule[at] = 0,
            Mischeck::Taken(kind, other) if rule[0] == kind => rule[0] = other,
            _ => {}
        }
        rule
    }

    /// Whether the comparison of checks shows it, for the first rule and for the last.
    fn is_shown_by(self, rule: [u8; 4]) -> bool {
        let apart = [0, 11].map(|index| {
            let checked = |rule| image::read(&image_with(index, rule)).map(|_| ());
            answers("check", &checked(rule), &checked(self.of(rule))).is_some()
        });
        assert_eq!(apart[0], apart[1], "{self:?} of {rule:?}");
        apart[0]
    }
}

#[test]
fn a_wrong_check_of_a_halting_rule_is_seen() {
    use Mischeck::{Nowhere, Taken, Unlooked};
    for at in 1..4 {
        for byte in [1, 255] {
            let mut rule = [4, 0, 0, 0];
            rule[at] = byte;
            assert!(Unlooked(at).is_shown_by(rule) && !Nowhere.is_shown_by(rule), "{rule:?}");
        }
    }
    assert!(Taken(5, 4).is_shown_by([5, 0, 0, 0]), "kind 5 taken as good");
    assert!(Taken(4, 5).is_shown_by([4, 0, 0, 0]), "kind 4 taken as bad");
    assert!(!Nowhere.is_shown_by([4, 0, 0, 0]) && !Nowhere.is_shown_by([5, 0, 0, 0]));
}

/// A bundle of halted lines, a stuck one and a refused one, judged over old contents.
fn right_bundling() -> (Report, Bundling) {
    let bundle = bundle::write(4, &[(36, 1), (37, 2), (39, 1), (40, 3)], b"hahsaaa");
    let image = deciding_to_halt();
    let mut left = old_bundling(&mut Rng::of_case(1, 2), 9, 8);
    let (notes, work) = (&mut left.notes, &mut left.work);
    let report = bundle::judge(image::read(&image), &bundle, notes, work, |machine, capture, notes, work| {
        calls::judge_answer(&summary::judge(machine, capture), notes, work)
    });
    put(&mut left, &report);
    (report.unwrap(), left)
}

#[test]
fn a_wrong_count_of_halted_lines_is_seen() {
    let (right, left) = right_bundling();
    let told = Totals { stuck: 1, halted: 2, refusals: 1, readings: 7, ..Totals::default() };
    assert_eq!((right.totals, right.lines[3]), (told, Err(Refusal { number: 8, place: 10 })));
    assert_eq!(left.lines[1..4].iter().map(|line| line[2]).collect::<Vec<_>>(), [7, 7, 3]);
    assert_eq!(left.totals[1..11], [0, 0, 0, 1, 0, 0, 0, 2, 1, 7]);
    let seen = |totals: Totals| {
        let wrong = Report { totals, ..right.clone() };
        let mut other = left.clone();
        put(&mut other, &Ok(wrong.clone()));
        let seen = bundling(&left, &other).is_some();
        assert_eq!(answers("report", &right, &wrong).is_some(), seen);
        seen
    };
    assert!(!seen(told));
    assert!(seen(Totals { stuck: 3, halted: 0, ..told }), "counted as stuck");
    assert!(seen(Totals { stuck: 3, ..told }), "counted twice");
    assert!(seen(Totals { halted: 0, ..told }), "not counted");
    assert!(seen(Totals { stuck: 0, halted: 3, ..told }), "stuck counted as halted");
    assert!(seen(Totals { halted: 0, refusals: 3, ..told }), "counted as refused");
    // In another of the totals' ten cells.
    for cell in [0, 1, 2, 3, 4, 5, 6, 8, 9] {
        let mut other = left.clone();
        other.totals[1 + 7] = 0;
        other.totals[1 + cell] += 2;
        assert!(bundling(&left, &other).is_some(), "{cell}");
    }
}

#[test]
fn swapping_is_its_own_inverse() {
    let image = deciding_to_halt();
    assert_ne!(swapped(&image), image);
    assert_eq!(swapped(&swapped(&image)), image);
    let swaps = VERDICTS.iter().filter(|&&verdict| other(verdict) != verdict);
    assert_eq!(swaps.copied().collect::<Vec<_>>(), [Verdict::Stuck, Verdict::Halted]);
    assert!(VERDICTS.iter().all(|&verdict| other(other(verdict)) == verdict));
}

#[test]
fn a_rare_verdict_is_seen() {
    let seen = |runs| {
        let mut found = Findings::default();
        each_often(&mut found, runs);
        found.differences.len()
    };
    assert_eq!(seen([10, 60, 10, 10, 10]), 0);
    for rare in 0..VERDICTS.len() {
        let mut runs = [30; 5];
        runs[rare] = 9;
        assert_eq!(seen(runs), 1);
    }
    assert_eq!(seen([0; 5]), 5);
}
