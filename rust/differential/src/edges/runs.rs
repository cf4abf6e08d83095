//! Runs of special shapes: of exponential length, with high stacks, endless in several ways, returning far.

use super::tools::*;
use super::Edges;
use crate::parsing::parses_so;
use crate::sides;
use model::answer::Verdict::*;
use model::building::Matching::{self, *};
use model::image::write;

/// The longest capture.
const LONG: usize = 65_535;

pub fn add(edges: &mut Edges) {
    exponential(edges);
    high_stacks(edges);
    loops(edges);
    growing_loops(edges);
    pointers(edges);
}

fn exponential(edges: &mut Edges) {
    for rules in 15..=31u8 {
        edges.add(format!("a run of 5 times 2 to the {} steps", rules - 1), move |found, rng| {
            let bytes = doubling(rules, 1, [4, 0, 0, 0]);
            for image in Matching::BOTH.map(|matching| built(&bytes, matching)) {
                expect(found, rng, (&image, b""), Accepted, None, (2, 1, 0));
                let steps = (5 << (rules - 1)) - 2;
                let told = if steps > 100_000 { (Spent, 100_000) } else { (Accepted, steps) };
                expect_run(found, rng, (&image, b""), (100_000, 40), told);
            }
        });
        edges.add(format!("{rules} rules that fail twice each"), move |found, rng| {
            let bytes = doubling(rules, 2, [5, b'a', b'a', 0]);
            for image in Matching::BOTH.map(|matching| built(&bytes, matching)) {
                expect(found, rng, (&image, b"b"), Stuck, None, (3, 1, 0));
                let _ = sides::plain_run(found, rng, &image, b"b", 100_000, 40);
            }
        });
    }
    for (length, verdict, end) in
        [(32_768, Accepted, (2, 32_769, 0)), (32_769, Stuck, (2, 32_769, 0)), (32_767, Stuck, (3, 1, 0))]
    {
        edges.add(format!("doubling that takes 32,768 bytes, on {length}"), move |found, rng| {
            let bytes = doubling(16, 1, [5, b'a', b'a', 0]);
            expect(found, rng, (&built(&bytes, Whole), &vec![b'a'; length]), verdict, None, end);
            // A byte too many is left over, which a leading match passes.
            let (verdict, end) = if length > 32_768 { (Accepted, (2, length + 1, 0)) } else { (verdict, end) };
            expect(found, rng, (&built(&bytes, Leading), &vec![b'a'; length]), verdict, None, end);
        });
    }
    edges.add("a choice that is tried again from the same place", |found, rng| {
        let bytes = [2, 1, 2, 0, 1, 3, 4, 0, 1, 3, 5, 0, 5, b'a', b'a', 0, 5, b'b', b'b', 0, 5, b'c', b'c', 0];
        for (capture, matching, verdict) in [
            (&b"ab"[..], Whole, Accepted),
            (b"ac", Whole, Accepted),
            (b"aa", Whole, Stuck),
            (b"acc", Whole, Stuck),
            (b"ac", Leading, Accepted),
            (b"aa", Leading, Stuck),
            (b"acc", Leading, Accepted),
        ] {
            if let Ok(judged) = judge(found, rng, &built(&bytes, matching), capture) {
                found.note(crate::compare::answers("verdict", &verdict, &judged.verdict), &[("capture", capture)]);
                parses_so(found, matching, &bytes, capture, judged);
            }
        }
    });
}

/// Walks right and pushes at each place; what happens at the right marker is told.
fn pushing_right(states: u8, finals: u32, more: &[(usize, usize, usize, [u8; 4])]) -> Vec<u8> {
    let mut rules = vec![(0, LEFT_MARKER, 0, push(0, 0, RIGHT)), (0, BYTE, 0, push(0, 0, RIGHT))];
    rules.extend(more);
    machine(states, 1, finals, &rules)
}

fn high_stacks(edges: &mut Edges) {
    for length in [0, 1, 40, LONG] {
        edges.add(format!("pushes over {length} bytes, then removes all where it stands"), move |found, rng| {
            let image = pushing_right(2, 2, &[(0, RIGHT_MARKER, 0, pop(1)), (1, RIGHT_MARKER, 0, pop(1))]);
            let capture = vec![b'x'; length];
            let (pushes, n) = (length as u64 + 1, length);
            expect(found, rng, (&image, &capture), Accepted, Some(n + 3), (1, n + 1, 0));
            expect_run(found, rng, (&image, &capture), (u32::MAX, n + 2), (Accepted, 2 * pushes + 1));
            expect_run(found, rng, (&image, &capture), (u32::MAX, n + 9), (Accepted, 2 * pushes + 1));
            expect_run(found, rng, (&image, &capture), (u32::MAX, n + 1), (Deep, pushes - 1));
            expect_run(found, rng, (&image, &capture), (2 * pushes as u32, n + 2), (Spent, 2 * pushes));
            expect_run(found, rng, (&image, &capture), (u32::MAX, 1), (Deep, 0));
        });
        edges.add(format!("pushes over {length} bytes, then removes all and returns each time"), move |found, rng| {
            let back = [(1, BYTE, 0, pop_return(1)), (1, RIGHT_MARKER, 0, pop_return(1))];
            let image = pushing_right(2, 2, &[(0, RIGHT_MARKER, 0, pop_return(1)), back[0], back[1]]);
            let capture = vec![b'x'; length];
            // A removal brings the head to where its entry was pushed: to 1 before the last one, then to 0.
            expect(found, rng, (&image, &capture), Ended, None, (1, 1, 0));
            let _ = sides::plain_run(found, rng, &image, &capture, u32::MAX, length + 2);
        });
        edges.add(format!("pushes over {length} bytes, then is stuck"), move |found, rng| {
            let (image, capture) = (pushing_right(1, 1, &[]), vec![b'x'; length]);
            expect(found, rng, (&image, &capture), Stuck, Some(length + 2), (0, length + 1, 0));
            expect_run(found, rng, (&image, &capture), (u32::MAX, length + 2), (Stuck, length as u64 + 1));
            // Stuck comes before spent.
            expect_run(found, rng, (&image, &capture), (length as u32 + 1, length + 2), (Stuck, length as u64 + 1));
        });
    }
}

/// Loops at one height.
fn loops(edges: &mut Edges) {
    edges.add("a change to itself", |found, rng| {
        let image = machine(1, 1, 1, &[(0, LEFT_MARKER, 0, change(0, 0, STAY))]);
        expect(found, rng, (&image, b""), Looping, Some(1), (0, 0, 0));
        expect_run(found, rng, (&image, b""), (1000, 1), (Spent, 1000));
    });
    edges.add("a loop at one height, entered after a while", |found, rng| {
        let rules = [(0, LEFT_MARKER, 0, change(1, 1, RIGHT)), (1, BYTE, 1, change(1, 2, RIGHT))];
        let round = [(1, BYTE, 2, change(1, 3, LEFT)), (1, BYTE, 3, change(1, 2, RIGHT))];
        let image = machine(2, 4, 1, &[rules, round].concat());
        expect(found, rng, (&image, b"abc"), Looping, Some(4), (1, 2, 2));
    });
    edges.add("a loop through all states and symbols", |found, rng| {
        let mut parts = blank(32, 1, 128, 0);
        for number in 0..32 * 128 {
            let next = (number + 1) % (32 * 128);
            let rule = change((next / 128) as u8, (next % 128) as u8, STAY);
            set(&mut parts, number / 128, LEFT_MARKER, number % 128, rule);
        }
        expect(found, rng, (&write(&parts), b""), Looping, Some(4096), (0, 0, 0));
    });
    for length in [0, 1, 40, LONG] {
        edges.add(format!("back and forth over {length} bytes"), move |found, rng| {
            let right = [(0, LEFT_MARKER, 0, change(0, 0, RIGHT)), (0, BYTE, 0, change(0, 0, RIGHT))];
            let left = [(0, RIGHT_MARKER, 0, change(1, 0, LEFT)), (1, BYTE, 0, change(1, 0, LEFT))];
            let turn = [(1, LEFT_MARKER, 0, change(0, 0, STAY))];
            let image = machine(2, 1, 3, &[&right[..], &left, &turn].concat());
            expect(found, rng, (&image, &vec![b'x'; length]), Looping, Some(2 * length + 3), (0, 0, 0));
            let _ = sides::plain_run(found, rng, &image, &vec![b'x'; length], 200_000, 1);
        });
    }
    edges.add("a push that is removed, again and again", |found, rng| {
        let image = machine(
            2,
            2,
            1,
            &[
                (0, LEFT_MARKER, 0, push(0, 1, RIGHT)),
                (0, RIGHT_MARKER, 1, pop(1)),
                (1, RIGHT_MARKER, 0, change(0, 0, LEFT)),
            ],
        );
        expect(found, rng, (&image, b""), Looping, Some(3), (0, 0, 0));
        let image = machine(1, 2, 1, &[(0, LEFT_MARKER, 0, push(0, 1, STAY)), (0, LEFT_MARKER, 1, pop_return(0))]);
        expect(found, rng, (&image, b""), Looping, Some(2), (0, 0, 0));
    });
    edges.add("the same configuration again after its entry is gone is no loop", |found, rng| {
        // The left marker pushes symbol 2 twice, each time entering state 1 at place 1.
        let first = [(0, LEFT_MARKER, 0, push(1, 2, RIGHT)), (1, RIGHT_MARKER, 2, pop_return(2))];
        let again = [(2, RIGHT_MARKER, 0, change(3, 1, LEFT)), (3, LEFT_MARKER, 1, push(1, 2, RIGHT))];
        let last = [(2, RIGHT_MARKER, 1, pop(4))];
        let image = machine(5, 3, 16, &[&first[..], &again, &last].concat());
        expect(found, rng, (&image, b""), Accepted, Some(5), (2, 1, 1));
        expect_run(found, rng, (&image, b""), (6, 2), (Accepted, 6));
    });
}

/// Loops whose stack grows.
fn growing_loops(edges: &mut Edges) {
    edges.add("one higher with each step", |found, rng| {
        let image = machine(1, 1, 1, &[(0, LEFT_MARKER, 0, push(0, 0, STAY))]);
        expect(found, rng, (&image, b""), Looping, Some(1), (0, 0, 0));
        expect_run(found, rng, (&image, b""), (1000, 10), (Deep, 9));
        expect_run(found, rng, (&image, b""), (9, 10), (Spent, 9));
        expect_run(found, rng, (&image, b""), (u32::MAX, 500_000), (Deep, 499_999));
    });
    edges.add("one higher with each step, after a while", |found, rng| {
        let rules = [
            (0, LEFT_MARKER, 0, push(0, 1, RIGHT)),
            (0, BYTE, 1, push(0, 2, RIGHT)),
            (0, RIGHT_MARKER, 2, push(0, 3, STAY)),
        ];
        let round = [(0, RIGHT_MARKER, 3, push(0, 4, LEFT)), (0, BYTE, 4, push(0, 2, RIGHT))];
        let image = machine(1, 5, 1, &[&rules[..], &round].concat());
        expect(found, rng, (&image, b"a"), Looping, Some(5), (0, 2, 2));
    });
    edges.add("one higher by way of a removed entry", |found, rng| {
        // Push and remove, then push for good; this round is entered one higher.
        let sub = [(0, LEFT_MARKER, 0, push(0, 1, STAY)), (0, LEFT_MARKER, 1, pop(1))];
        let image = machine(2, 2, 1, &[sub[0], sub[1], (1, LEFT_MARKER, 0, push(0, 0, STAY))]);
        expect(found, rng, (&image, b""), Looping, Some(3), (0, 0, 0));
        expect_run(found, rng, (&image, b""), (1000, 5), (Deep, 12));
    });
    for length in [0, 1, 40, LONG] {
        edges.add(format!("back and forth over {length} bytes, pushing"), move |found, rng| {
            let right = [(0, LEFT_MARKER, 0, push(0, 0, RIGHT)), (0, BYTE, 0, push(0, 0, RIGHT))];
            let left = [(0, RIGHT_MARKER, 0, push(1, 0, LEFT)), (1, BYTE, 0, push(1, 0, LEFT))];
            let turn = [(1, LEFT_MARKER, 0, push(0, 0, STAY))];
            let image = machine(2, 1, 3, &[&right[..], &left, &turn].concat());
            expect(found, rng, (&image, &vec![b'x'; length]), Looping, Some(2 * length + 3), (0, 0, 0));
            let _ = sides::plain_run(found, rng, &image, &vec![b'x'; length], 150_000, 200_000);
            expect_run(found, rng, (&image, &vec![b'x'; length]), (u32::MAX, 100_000), (Deep, 99_999));
        });
    }
    edges.add("left recursion of each kind", |found, rng| {
        for bytes in [
            &[1, 0, 0, 0][..],
            &[2, 0, 0, 0],
            &[3, 0, 0, 0],
            &[1, 1, 0, 0, 4, 0, 0, 0],
            &[2, 1, 0, 0, 5, 98, 98, 0],
            &[1, 1, 0, 0, 3, 2, 0, 0, 5, 98, 98, 0],
        ] {
            for (capture, matching) in for_both(&[&b""[..], b"a", b"aa"]) {
                if let Ok(judged) = judge(found, rng, &built(bytes, matching), capture) {
                    found.note(crate::compare::answers("verdict", &Looping, &judged.verdict), &[("grammar", bytes)]);
                    parses_so(found, matching, bytes, capture, judged);
                }
            }
        }
    });
}

fn pointers(edges: &mut Edges) {
    for length in [1, 2, 40, LONG] {
        edges.add(format!("changes over {length} bytes keep the pointer"), move |found, rng| {
            // The entry pushed at 1 is changed at every place; removed at the right marker it returns to 1.
            let there = [
                (0, LEFT_MARKER, 0, push(0, 1, RIGHT)),
                (0, BYTE, 1, change(0, 2, RIGHT)),
                (0, BYTE, 2, change(0, 1, RIGHT)),
            ];
            let back = [(0, RIGHT_MARKER, 1, pop_return(1)), (0, RIGHT_MARKER, 2, pop_return(1))];
            let stop = machine(2, 3, 0, &[&there[..], &back].concat());
            let capture = vec![b'x'; length];
            expect(found, rng, (&stop, &capture), Stuck, Some(length + 3), (1, 1, 0));
            expect_run(found, rng, (&stop, &capture), (u32::MAX, 2), (Stuck, length as u64 + 2));
            let on = [(1, BYTE, 0, change(1, 0, RIGHT)), (1, RIGHT_MARKER, 0, pop(1))];
            let on = machine(2, 3, 2, &[&there[..], &back, &on].concat());
            expect(found, rng, (&on, &capture), Accepted, Some(2 * length + 3), (1, length + 1, 0));
        });
        edges.add(format!("one note, {length} pointers and more"), move |found, rng| {
            // Each place pushes an entry that walks to the right marker and returns; the walks share their notes.
            let walk = [
                (0, LEFT_MARKER, 0, push(1, 1, RIGHT)),
                (1, BYTE, 1, change(1, 1, RIGHT)),
                (1, RIGHT_MARKER, 1, pop_return(2)),
            ];
            let next = [(2, BYTE, 0, push(1, 1, RIGHT)), (2, RIGHT_MARKER, 0, pop(2))];
            let image = machine(3, 2, 4, &[&walk[..], &next].concat());
            let capture = vec![b'x'; length];
            expect(found, rng, (&image, &capture), Accepted, Some(2 * length + 3), (2, length + 1, 0));
            let _ = sides::plain_run(found, rng, &image, &capture, 100_000, 2);
        });
    }
    edges.add("the first entry's pointer is 0", |found, rng| {
        let image = machine(
            1,
            1,
            1,
            &[
                (0, LEFT_MARKER, 0, change(0, 0, RIGHT)),
                (0, BYTE, 0, change(0, 0, RIGHT)),
                (0, RIGHT_MARKER, 0, pop_return(0)),
            ],
        );
        expect(found, rng, (&image, b"abc"), Ended, Some(5), (0, 4, 0));
    });
}
