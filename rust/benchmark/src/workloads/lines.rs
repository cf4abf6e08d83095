//! (a) Lines of words: what a console capture looks like, parsed without going back.
use super::rule::{choice, range, sequence, EMPTY};
use super::{image_of, Workload};
use sejimakpu::{Matching, Verdict};

/// Lines of words of letters, one space between two words, a line feed after each line.
pub const GRAMMAR: [[u8; 4]; 12] = [
    choice(1, 2),        // 0 lines  = some / empty
    sequence(3, 0),      // 1 some   = line lines
    EMPTY,               // 2 empty
    sequence(5, 4),      // 3 line   = words feed
    range(b'\n', b'\n'), // 4 feed
    sequence(6, 9),      // 5 words  = word more
    sequence(8, 7),      // 6 word   = letter rest
    choice(6, 2),        // 7 rest   = word / empty
    range(b'a', b'z'),   // 8 letter
    choice(10, 2),       // 9 more   = next / empty
    sequence(11, 5),     // 10 next  = space words
    range(b' ', b' '),   // 11 space
];

pub fn workload() -> Workload {
    Workload {
        name: "lines",
        about: "lines of words, by a grammar of 12 rules",
        image: image_of(&GRAMMAR, Matching::Whole),
        verdict: Verdict::Accepted,
        capture,
        wrong_byte: b'#',
    }
}

/// Words of 1 to 9 letters, 9 words a line, by a fixed sequence of numbers.
pub fn capture(n: usize) -> Vec<u8> {
    let mut bytes = Vec::with_capacity(n + 10);
    let mut number: u32 = 1;
    for word in 1.. {
        if bytes.len() >= n {
            break;
        }
        number = number.wrapping_mul(1_664_525).wrapping_add(1_013_904_223);
        for i in 0..1 + (number >> 16) % 9 {
            bytes.push(b'a' + ((number >> 8) + 7 * i) as u8 % 26);
        }
        bytes.push(if word % 9 == 0 { b'\n' } else { b' ' });
    }
    // The last line ends with a word and its line feed, wherever the cut falls.
    bytes.truncate(n);
    if let [.., letter, feed] = bytes.as_mut_slice() {
        (*letter, *feed) = (b'a', b'\n');
    }
    bytes
}
