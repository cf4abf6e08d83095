//! Rules that halt on purpose: which are good, where a run comes to one, and the same run with a missing rule in its place.

use super::tools::*;
use super::Edges;
use crate::findings::Findings;
use crate::rng::Rng;
use crate::stops::{alike, swapped};
use crate::{compare, grammars, sides};
use model::answer::Ran;
use model::answer::Verdict::{self, *};
use model::building::Matching;
use model::image::write;

/// The longest capture.
const LONG: usize = 65_535;

pub fn add(edges: &mut Edges) {
    kinds(edges);
    for stop in stops() {
        edges.add(format!("a rule that stops {}", stop.name), move |found, rng| stop.compare(found, rng));
    }
    long_stops(edges);
    doubled(edges);
    unreached(edges);
}

/// Kinds 0 to 4 are good and 5 to 255 are not, at the first rule, in the middle and at the last one.
fn kinds(edges: &mut Edges) {
    edges.add("every kind of rule", |found, _| {
        for kind in 0..=255 {
            for index in [0, 7, 19] {
                let mut parts = blank(2, 3, 2, 0b11);
                parts.rules[index] = [kind, 0, 0, 0];
                let got = sides::check(found, &write(&parts));
                match kind {
                    0..=4 => found.note(compare::answers("check, as told", &Ok(()), &got), &[]),
                    _ => refused(found, "check", got, 6, 288 + 4 * index),
                }
            }
        }
    });
    edges.add("every byte beside kinds 0 and 4", |found, _| {
        for rule in [NONE, HALT] {
            for (at, byte) in (1..4).flat_map(|at| (1..=255).map(move |byte| (at, byte))) {
                let mut parts = blank(2, 3, 2, 0b11);
                parts.rules[19] = rule;
                parts.rules[19][at] = byte;
                let got = sides::check(found, &write(&parts));
                refused(found, "check", got, 6, 288 + 4 * 19);
            }
        }
    });
    edges.add("a good halting rule before a bad one", |found, _| {
        for (good, bad) in [(0, 1), (0, 19), (18, 19)] {
            let mut parts = blank(2, 3, 2, 0b11);
            (parts.rules[good], parts.rules[bad]) = (HALT, [4, 0, 1, 0]);
            let got = sides::check(found, &write(&parts));
            refused(found, "check", got, 6, 288 + 4 * bad);
        }
    });
    edges.add("every rule halts", |found, rng| {
        let mut parts = blank(2, 3, 2, 0b11);
        parts.rules.fill(HALT);
        expect(found, rng, (&write(&parts), b"abc"), Halted, Some(1), (0, 0, 0));
    });
    edges.add("no grammar's image has a rule that halts", |found, rng| {
        for rules in 1..=31 {
            let bytes = grammars::of_rules(rng, rules);
            for matching in Matching::BOTH {
                let Ok(image) = sides::build(found, rng, &bytes, matching, sejimakpu::MAX_BUILT_IMAGE) else { return };
                let halts = image[288..].chunks(4).any(|rule| rule[0] == 4);
                found.note(compare::answers("a rule that halts", &false, &halts), &[("grammar", &bytes)]);
            }
        }
    });
}

/// State, class, symbol, and what is done.
type Rule = (usize, usize, usize, [u8; 4]);

/// A machine whose run comes to one rule that stops it, and what is told of that run.
struct Stop {
    name: String,
    states: u8,
    symbols: u8,
    rules: Vec<Rule>,
    /// State, class and symbol of the rule that stops.
    at: (usize, usize, usize),
    capture: Vec<u8>,
    readings: usize,
    /// How many of these have no terminator.
    open: usize,
    end: (usize, usize, usize),
    steps: u32,
    /// The most entries on the stack.
    height: usize,
}

impl Stop {
    fn image(&self, rule: [u8; 4]) -> Vec<u8> {
        let (state, class, symbol) = self.at;
        machine(self.states, self.symbols, 1, &[&self.rules[..], &[(state, class, symbol, rule)]].concat())
    }

    /// Judged and run as told, stuck with a missing rule there and halted with a halting one, and all else alike.
    fn compare(&self, found: &mut Findings, rng: &mut Rng) {
        for (rule, verdict) in [(NONE, Stuck), (HALT, Halted)] {
            let image = self.image(rule);
            expect(found, rng, (&image, &self.capture), verdict, Some(self.readings), self.end);
            self.notes_stay(found, rng, &image);
            self.runs(found, rng, &image, verdict);
        }
        let runs = [(u32::MAX, self.height), (self.steps, self.height), (self.steps / 2, self.height), (u32::MAX, 1)];
        let images = [&self.image(NONE)[..], &self.image(HALT)];
        alike(found, rng, images, &self.capture, &runs);
        // With every other stop of the machine swapped too.
        alike(found, rng, [images[1], &swapped(images[1])], &self.capture, &runs);
    }

    /// As many notes as told are 1, the end's among them; N cells are needed, and no later one changes.
    fn notes_stay(&self, found: &mut Findings, rng: &mut Rng, image: &[u8]) {
        let (places, symbols) = (self.capture.len() + 2, self.symbols as usize);
        let needed = self.states as usize * places * symbols;
        let (notes, work) = (rng.cells(needed + 9), rng.cells(needed + 9));
        let left = sides::judged_by_library(image, &self.capture, notes.clone(), work.clone());
        let open = left.notes[..needed].iter().filter(|&&note| note == 1).count();
        found.note(compare::answers("notes of 1", &self.open, &open), &[("image", image)]);
        let (state, head, symbol) = self.end;
        let end = left.notes[(state * places + head) * symbols + symbol];
        found.note(compare::answers("the end's note", &1, &end), &[("image", image)]);
        found.note(compare::cells("later notes", &notes[needed..], &left.notes[needed..]), &[("image", image)]);
        found.note(compare::cells("later work", &work[needed..], &left.work[needed..]), &[("image", image)]);
        for (notes, work, number) in [(needed - 1, needed, 8), (needed, needed - 1, 9)] {
            let got = sides::judge(found, rng, image, &self.capture, notes, work);
            refused(found, "judge", got, number, needed);
        }
    }

    /// With its budget spent and its cells full at the rule that stops, the run is stopped. Of the budget and the cells
    /// the first that is one too few is told instead.
    fn runs(&self, found: &mut Findings, rng: &mut Rng, image: &[u8], verdict: Verdict) {
        let stopped = Ran { verdict, steps: self.steps.into(), reached: config(self.end) };
        for budget in [self.steps, self.steps + 1, u32::MAX] {
            for cells in [self.height, self.height + 1, self.height + 50] {
                let got = sides::plain_run(found, rng, image, &self.capture, budget, cells);
                found.note(compare::answers("plain run, as told", &Ok(stopped), &got), &[("image", image)]);
            }
        }
        if let Some(budget) = self.steps.checked_sub(1) {
            let capture = &self.capture;
            expect_run(found, rng, (image, capture), (budget, self.height), (Spent, budget.into()));
            expect_run(found, rng, (image, capture), (0, 1), (Spent, 0));
        }
        if self.height > 1 {
            let got = sides::plain_run(found, rng, image, &self.capture, u32::MAX, self.height - 1);
            let got = got.map(|ran| ran.verdict);
            found.note(compare::answers("plain run, as told", &Ok(Deep), &got), &[("image", image)]);
        }
    }
}

/// Walks right by changes over bytes.
fn walking() -> Vec<Rule> {
    vec![(0, LEFT_MARKER, 0, change(0, 0, RIGHT)), (0, BYTE, 0, change(0, 0, RIGHT))]
}

/// Walks right and pushes at each place.
fn pushing() -> Vec<Rule> {
    vec![(0, LEFT_MARKER, 0, push(0, 0, RIGHT)), (0, BYTE, 0, push(0, 0, RIGHT))]
}

/// A stop of a machine of one state and one symbol, at a place of the tape that all before it lead to.
fn of_one_state(name: &str, rules: Vec<Rule>, class: usize, capture: &[u8], head: usize) -> Stop {
    let height = 1 + if rules.iter().any(|rule| rule.3[0] == 2) { head } else { 0 };
    Stop {
        name: name.into(),
        states: 1,
        symbols: 1,
        rules,
        at: (0, class, 0),
        capture: capture.to_vec(),
        readings: head + 1,
        open: head + 1,
        end: (0, head, 0),
        steps: head as u32,
        height,
    }
}

fn stops() -> Vec<Stop> {
    vec![
        of_one_state("on the left marker, with no byte", vec![], LEFT_MARKER, b"", 0),
        of_one_state("on the left marker, with bytes", vec![], LEFT_MARKER, b"abc", 0),
        of_one_state("on the first byte", walking()[..1].to_vec(), BYTE, b"abc", 1),
        of_one_state("on the right marker", walking(), RIGHT_MARKER, b"abc", 4),
        of_one_state("on the right marker, with no byte", walking(), RIGHT_MARKER, b"", 1),
        of_one_state("on the first byte, above an entry", pushing()[..1].to_vec(), BYTE, b"abc", 1),
        of_one_state("on the right marker, above five entries", pushing(), RIGHT_MARKER, b"abcd", 5),
        Stop {
            name: "after a return".into(),
            states: 2,
            symbols: 2,
            // The entry that is pushed walks to the right marker; its removal returns to 1, where the rule is.
            rules: vec![
                (0, LEFT_MARKER, 0, push(0, 1, RIGHT)),
                (0, BYTE, 1, change(0, 1, RIGHT)),
                (0, RIGHT_MARKER, 1, pop_return(1)),
            ],
            at: (1, BYTE, 0),
            capture: b"ab".to_vec(),
            readings: 5,
            open: 2,
            end: (1, 1, 0),
            steps: 4,
            height: 2,
        },
        Stop {
            name: "after an entry that was pushed before and whose note is known".into(),
            states: 4,
            symbols: 3,
            // The left marker pushes symbol 2 twice; the second time what that comes to is in the notes.
            rules: vec![
                (0, LEFT_MARKER, 0, push(1, 2, RIGHT)),
                (1, RIGHT_MARKER, 2, pop_return(2)),
                (2, RIGHT_MARKER, 0, change(3, 1, LEFT)),
                (3, LEFT_MARKER, 1, push(1, 2, RIGHT)),
            ],
            at: (2, RIGHT_MARKER, 1),
            capture: vec![],
            readings: 5,
            open: 4,
            end: (2, 1, 1),
            steps: 5,
            height: 2,
        },
        Stop {
            name: "in the last state and symbol".into(),
            states: 32,
            symbols: 128,
            rules: vec![(0, LEFT_MARKER, 0, push(31, 127, RIGHT))],
            at: (31, BYTE, 127),
            capture: b"a".to_vec(),
            readings: 2,
            open: 2,
            end: (31, 1, 127),
            steps: 1,
            height: 2,
        },
    ]
}

/// At the end of captures of all lengths, at one height and above an entry a place.
fn long_stops(edges: &mut Edges) {
    for length in [1, 40, LONG] {
        edges.add(format!("a rule that stops after {length} bytes"), move |found, rng| {
            let capture = vec![b'x'; length];
            of_one_state("", walking(), RIGHT_MARKER, &capture, length + 1).compare(found, rng);
            of_one_state("", pushing(), RIGHT_MARKER, &capture, length + 1).compare(found, rng);
        });
    }
}

/// The accepting rule of a grammar's machine made to halt: one step less, at the configuration that would have accepted.
fn doubled(edges: &mut Edges) {
    for (rules, matching) in for_both(&[1, 2, 5, 15, 31]) {
        let name = format!("halts after a run of 5 times 2 to the {} steps, {matching:?}", rules - 1);
        edges.add(name, move |found, rng| {
            let mut image = built(&doubling(rules, 1, [4, 0, 0, 0]), matching);
            // State 2 on the right marker with symbol 0: of one class and 2 m + 1 symbols.
            let at = 288 + 4 * (2 * 3 + 2) * (2 * rules as usize + 1);
            found.note(compare::cells("the accepting rule", &pop(4), &image[at..at + 4]), &[]);
            image[at..at + 4].copy_from_slice(&HALT);
            expect(found, rng, (&image, b""), Halted, None, (2, 1, 0));
            let steps = (5 << (rules - 1)) - 3;
            let told = if steps > 100_000 { (Spent, 100_000) } else { (Halted, steps) };
            expect_run(found, rng, (&image, b""), (100_000, 40), told);
            if steps <= 100_000 {
                expect_run(found, rng, (&image, b""), (steps as u32, 40), (Halted, steps));
                expect_run(found, rng, (&image, b""), (steps as u32 - 1, 40), (Spent, steps - 1));
            }
            alike(found, rng, [&image, &swapped(&image)], b"", &[(100_000, 40), (50, 40), (100_000, 2)]);
        });
    }
}

/// Runs that never come to a missing rule: with all of these halting nothing differs.
fn unreached(edges: &mut Edges) {
    let looping = vec![(0, LEFT_MARKER, 0, change(0, 0, RIGHT)), (0, BYTE, 0, change(0, 0, LEFT))];
    let growing = vec![(0, LEFT_MARKER, 0, push(0, 0, STAY))];
    let accepts = [walking(), vec![(0, RIGHT_MARKER, 0, pop(1))]].concat();
    let returns = [walking(), vec![(0, RIGHT_MARKER, 0, pop_return(1))]].concat();
    for (name, rules, verdict, readings, end) in [
        ("looping", looping, Looping, 2, (0, 0, 0)),
        ("looping higher and higher", growing, Looping, 1, (0, 0, 0)),
        ("accepted", accepts, Accepted, 4, (0, 3, 0)),
        ("ended", returns, Ended, 4, (0, 3, 0)),
    ] {
        edges.add(format!("halting rules that are never reached, {name}"), move |found, rng| {
            let missing = machine(2, 2, 0b10, &rules);
            let halting = swapped(&missing);
            for image in [&missing, &halting] {
                expect(found, rng, (image, b"xx"), verdict, Some(readings), end);
            }
            alike(found, rng, [&missing, &halting], b"xx", &[(0, 1), (3, 1), (3, 9), (4, 1), (1000, 9)]);
        });
    }
}
