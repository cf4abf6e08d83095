//! (c) Looping: all bytes are passed, one level of the stack a byte, and then a rule calls itself for ever.
use super::rule::{choice, range, sequence};
use super::{image_of, Workload};
use sejimakpu::{Matching, Verdict};

/// s = letter s / for ever. The loop comes on the deepest level, so all levels are open when it is found.
pub const GRAMMAR: [[u8; 4]; 4] = [
    choice(1, 3),      // 0 s        = (letter s) / for ever
    sequence(2, 0),    // 1 (letter s)
    range(b'a', b'z'), // 2 letter
    sequence(3, 3),    // 3 for ever = for ever, for ever
];

pub fn workload() -> Workload {
    Workload {
        name: "looping",
        about: "passes all bytes, then calls itself for ever, by a grammar of 4 rules",
        image: image_of(&GRAMMAR, Matching::Whole),
        verdict: Verdict::Looping,
        capture,
        wrong_byte: b'#',
    }
}

fn capture(n: usize) -> Vec<u8> {
    (0..n).map(|i| b'a' + (i % 26) as u8).collect()
}
