//! (e) A banner: lines of words, and behind them what firmware prints, which a leading match passes byte by byte.
use super::rule::{choice, range, sequence, EMPTY};
use super::{image_of, lines, Workload};
use sejimakpu::{Matching, Verdict};

/// The grammar of lines, but that there is one line or more: a first byte that is wrong is a failure.
pub const GRAMMAR: [[u8; 4]; 12] = [
    sequence(3, 1),      // 0 some   = line lines
    choice(0, 2),        // 1 lines  = some / empty
    EMPTY,               // 2 empty
    sequence(5, 4),      // 3 line   = words feed
    range(b'\n', b'\n'), // 4 feed
    sequence(6, 9),      // 5 words  = word more
    sequence(8, 7),      // 6 word   = letter rest
    choice(6, 2),        // 7 rest   = word / empty
    range(b'a', b'z'),   // 8 letter
    choice(10, 2),       // 9 more   = next / empty
    sequence(11, 5),     // 10 next  = space words
    range(b' ', b' '),   // 11 space
];

/// It begins as no line does, so that the match ends before it.
const BANNER: &[u8] = b"** ring firmware 2.1, ready **\n";

pub fn workload() -> Workload {
    Workload {
        name: "banner",
        about: "lines of words and as long a banner, by a grammar of 12 rules for a leading match",
        image: image_of(&GRAMMAR, Matching::Leading),
        verdict: Verdict::Accepted,
        capture,
        wrong_byte: b'#',
    }
}

/// Lines in the first half, at least one of them, and the banner again and again in the second.
fn capture(n: usize) -> Vec<u8> {
    let mut bytes = lines::capture(n.div_ceil(2).max(2));
    let banner = BANNER.iter().copied().cycle().take(n - bytes.len());
    bytes.extend(banner);
    bytes
}
