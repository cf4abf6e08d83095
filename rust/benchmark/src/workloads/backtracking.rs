//! (b) Going back: each level parses the rest of the capture twice, so a parser without memory doubles its work a byte.
use super::rule::{choice, range, sequence, EMPTY};
use super::{image_of, Workload};
use sejimakpu::{Matching, Verdict};

pub const NAME: &str = "backtracking";

/// a = b a 'x' / b a / empty, with b one byte 'a'. No capture of a's has an x: every first alternative fails at its end.
pub const GRAMMAR: [[u8; 4]; 8] = [
    choice(1, 5),      // 0 a     = first / again
    sequence(3, 2),    // 1 first = b (a x)
    sequence(0, 4),    // 2 (a x)
    range(b'a', b'a'), // 3 b
    range(b'x', b'x'), // 4 x
    choice(6, 7),      // 5 again = (b a) / empty
    sequence(3, 0),    // 6 (b a)
    EMPTY,             // 7 empty
];

pub fn workload() -> Workload {
    Workload {
        name: NAME,
        about: "exponential without memory, by a grammar of 8 rules",
        image: image_of(&GRAMMAR, Matching::Whole),
        verdict: Verdict::Accepted,
        capture,
        wrong_byte: b'#',
    }
}

pub fn capture(n: usize) -> Vec<u8> {
    vec![b'a'; n]
}
