//! C1 to C10 of the document, and the numbers told beside them.

use super::tools::{built, expect, expect_run, judge, machine, pop, LEFT_MARKER};
use super::Edges;
use crate::parsing::{leads_on, parses_so};
use crate::{compare, program, sides};
use model::answer::Verdict::{self, *};
use model::building::Matching::{Leading, Whole};

/// The document's rows are for the whole capture. What is said of a leading match stands in a column of its own.
struct Row {
    name: &'static str,
    grammar: &'static [u8],
    capture: &'static [u8],
    verdict: Verdict,
    readings: usize,
    end: (usize, usize, usize),
    steps: u64,
    leading: Verdict,
}

const ROWS: &[Row] = &[
    Row {
        name: "C1",
        grammar: &[4, 0, 0, 0],
        capture: b"",
        verdict: Accepted,
        readings: 3,
        end: (2, 1, 0),
        steps: 3,
        leading: Accepted,
    },
    // Nothing is matched, and then there is a byte: the one row for which the matching makes a difference.
    Row {
        name: "C2",
        grammar: &[4, 0, 0, 0],
        capture: b"a",
        verdict: Stuck,
        readings: 3,
        end: (2, 1, 0),
        steps: 2,
        leading: Accepted,
    },
    Row {
        name: "C3",
        grammar: &[5, 97, 97, 0],
        capture: b"a",
        verdict: Accepted,
        readings: 4,
        end: (2, 2, 0),
        steps: 4,
        leading: Accepted,
    },
    Row {
        name: "C4",
        grammar: &[5, 97, 97, 0],
        capture: b"b",
        verdict: Stuck,
        readings: 3,
        end: (3, 1, 0),
        steps: 2,
        leading: Stuck,
    },
    // No end: a plain run takes whatever it is given.
    Row {
        name: "C5",
        grammar: &[1, 0, 0, 0],
        capture: b"",
        verdict: Looping,
        readings: 2,
        end: (1, 1, 1),
        steps: 1000,
        leading: Looping,
    },
    Row {
        name: "C6",
        grammar: &[1, 1, 1, 0, 1, 2, 2, 0, 4, 0, 0, 0],
        capture: b"",
        verdict: Accepted,
        readings: 11,
        end: (2, 1, 0),
        steps: 18,
        leading: Accepted,
    },
    Row {
        name: "C7",
        grammar: &[3, 1, 0, 0, 5, 97, 97, 0],
        capture: b"",
        verdict: Accepted,
        readings: 5,
        end: (2, 1, 0),
        steps: 5,
        leading: Accepted,
    },
    Row {
        name: "C8",
        grammar: &[3, 1, 0, 0, 5, 97, 97, 0],
        capture: b"a",
        verdict: Stuck,
        readings: 6,
        end: (3, 1, 0),
        steps: 5,
        leading: Stuck,
    },
    Row {
        name: "C9",
        grammar: &[2, 1, 2, 0, 5, 97, 97, 0, 4, 0, 0, 0],
        capture: b"",
        verdict: Accepted,
        readings: 8,
        end: (2, 1, 0),
        steps: 8,
        leading: Accepted,
    },
];

pub fn add(edges: &mut Edges) {
    for row in ROWS {
        edges.add(row.name, |found, rng| {
            let room = built(row.grammar, Whole).len() + 5;
            let Ok(image) = sides::build(found, rng, row.grammar, Whole, room) else { return };
            expect(found, rng, (&image, row.capture), row.verdict, Some(row.readings), row.end);
            let ran = if row.verdict == Looping { Spent } else { row.verdict };
            expect_run(found, rng, (&image, row.capture), (1000, 2000), (ran, row.steps));
            let judged = judge(found, rng, &image, row.capture);
            let Ok(image) = sides::build(found, rng, row.grammar, Leading, room) else { return };
            let leading = judge(found, rng, &image, row.capture);
            let got = leading.map(|judged| judged.verdict);
            found.note(compare::answers("leading, as told", &Ok(row.leading), &got), &[("grammar", row.grammar)]);
            if let (Ok(judged), Ok(leading)) = (judged, leading) {
                parses_so(found, Whole, row.grammar, row.capture, judged);
                parses_so(found, Leading, row.grammar, row.capture, leading);
                leads_on(found, row.grammar, row.capture, judged, leading);
            }
            let end = row.end;
            let line = format!("{} {} {} {} {}\n", row.verdict, row.readings, end.0, end.1, end.2);
            program::compare_with(found, &model::program::input(row.grammar, row.capture), &line);
        });
    }
    edges.add("C10", |found, rng| {
        let image = machine(1, 1, 0, &[(0, LEFT_MARKER, 0, pop(0))]);
        expect(found, rng, (&image, b""), Ended, Some(1), (0, 0, 0));
        expect_run(found, rng, (&image, b""), (1, 1), (Ended, 1));
    });
    edges.add("C1: 468 bytes, 30 cells, three plain runs", |found, rng| {
        let image = sides::build(found, rng, &[4, 0, 0, 0], Whole, 468).unwrap_or_default();
        found.note(compare::answers("image length", &468, &image.len()), &[]);
        let cells = sides::cells(found, &image, 0);
        found.note(compare::answers("cells", &Ok(30), &cells), &[]);
        expect_run(found, rng, (&image, b""), (3, 2), (Accepted, 3));
        expect_run(found, rng, (&image, b""), (2, 2), (Spent, 2));
        expect_run(found, rng, (&image, b""), (3, 1), (Deep, 0));
        expect_run(found, rng, (&image, b""), (0, 2), (Spent, 0));
        expect_run(found, rng, (&image, b""), (0, 1), (Spent, 0));
    });
    edges.add("a stuck run with no budget is stuck", |found, rng| {
        let image = machine(1, 1, 0, &[]);
        expect_run(found, rng, (&image, b""), (0, 1), (Stuck, 0));
        expect(found, rng, (&image, b""), Stuck, Some(1), (0, 0, 0));
    });
}
