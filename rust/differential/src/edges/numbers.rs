//! Configuration numbers at their limits: the most symbols, the longest capture, the last configuration of all. What a note
//! tells of an open configuration, how a closed one is taken apart, and each move are tried there.

use super::tools::*;
use super::Edges;
use model::answer::Verdict::*;
use model::image::write;

/// The lengths of capture: none, one byte, and the longest.
const LENGTHS: [usize; 3] = [0, 1, 65_535];

/// The greatest symbol.
const LAST: u8 = 127;

pub fn add(edges: &mut Edges) {
    returns(edges);
    moves(edges);
    last_configuration(edges);
}

/// An entry is pushed at every place, with the greatest symbol, and each pop returns to its own pointer.
fn returns(edges: &mut Edges) {
    for length in LENGTHS {
        edges.add(format!("a return to each of {length} places, with symbol {LAST}"), move |found, rng| {
            let mut parts = blank(2, 1, 128, 0);
            let last = usize::from(LAST);
            for (state, class, symbol, rule) in [
                (0, LEFT_MARKER, 0, push(0, LAST, RIGHT)),
                (0, BYTE, last, push(0, LAST, RIGHT)),
                (0, RIGHT_MARKER, last, pop_return(1)),
                (1, RIGHT_MARKER, last, pop_return(1)),
                (1, BYTE, last, pop_return(1)),
                (1, RIGHT_MARKER, 0, pop(1)),
                (1, BYTE, 0, pop(0)),
            ] {
                set(&mut parts, state, class, symbol, rule);
            }
            let readings = 2 * length + 3;
            expect(found, rng, (&write(&parts), &vec![b'a'; length]), Ended, Some(readings), (1, 1, 0));
        });
    }
}

/// To the right marker and back to the left one, with the greatest symbol.
fn moves(edges: &mut Edges) {
    for length in LENGTHS {
        edges.add(format!("over {length} places and back, with symbol {LAST}"), move |found, rng| {
            let far = if length > 1 { 1 } else { 31 };
            let mut parts = blank(far + 1, 1, 128, 0);
            let last = usize::from(LAST);
            for (state, class, symbol, rule) in [
                (0, LEFT_MARKER, 0, change(far, LAST, RIGHT)),
                (usize::from(far), BYTE, last, change(far, LAST, RIGHT)),
                (usize::from(far), RIGHT_MARKER, last, change(0, LAST, LEFT)),
                (0, BYTE, last, change(0, LAST, LEFT)),
                (0, LEFT_MARKER, last, pop(0)),
            ] {
                set(&mut parts, state, class, symbol, rule);
            }
            let readings = 2 * length + 3;
            expect(found, rng, (&write(&parts), &vec![b'a'; length]), Ended, Some(readings), (0, 0, LAST.into()));
        });
    }
}

/// The last configuration of all is a terminator, which is looked up again: its note holds the greatest number there is.
fn last_configuration(edges: &mut Edges) {
    for length in [0, 1, 1000] {
        edges.add(format!("the last configuration as a terminator, of {length} bytes"), move |found, rng| {
            let mut parts = blank(32, 1, 128, 0);
            let last = usize::from(LAST);
            for (state, class, symbol, rule) in [
                (0, LEFT_MARKER, 0, push(1, LAST, STAY)),
                (1, LEFT_MARKER, last, change(31, LAST, RIGHT)),
                (31, BYTE, last, change(31, LAST, RIGHT)),
                (31, RIGHT_MARKER, last, pop_return(2)),
                (2, LEFT_MARKER, 0, push(1, LAST, STAY)),
            ] {
                set(&mut parts, state, class, symbol, rule);
            }
            let readings = length + 4;
            expect(found, rng, (&write(&parts), &vec![b'a'; length]), Looping, Some(readings), (2, 0, 0));
        });
    }
}
