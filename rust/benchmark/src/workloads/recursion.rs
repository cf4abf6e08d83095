//! Grammars and texts that are checked for left recursion: some that pass, and some that lead back at the end of a long way.
use super::rule::{choice, not, range, sequence, EMPTY};
use super::texts::{blanks, operators, RING};
use super::{building, lines};

/// The number of the last of 31 rules.
const LAST: u8 = 30;

pub struct Grammar {
    pub name: &'static str,
    pub rules: Vec<[u8; 4]>,
    /// The rule that leads back, if one does.
    pub named: Option<usize>,
}

/// All grammars, in the order of the table.
pub fn grammars() -> Vec<Grammar> {
    let all = |rule: fn(u8) -> [u8; 4]| (0..=LAST).map(rule).collect();
    let passing = |name, rules| Grammar { name, rules, named: None };
    vec![
        passing("lines", lines::GRAMMAR.to_vec()),
        passing("ranges", building::widest().as_chunks().0.to_vec()),
        passing("alternatives", all(alternative)),
        passing("next", all(|k| if k < LAST { sequence(k + 1, k + 1) } else { EMPTY })),
        passing("before", all(|k| if k > 0 { sequence(k - 1, k - 1) } else { EMPTY })),
        Grammar { name: "first", rules: all(|k| if k < LAST { choice(k + 1, k + 1) } else { not(0) }), named: Some(0) },
        Grammar {
            name: "last",
            rules: all(|k| if k < LAST { choice(k + 1, k + 1) } else { not(LAST) }),
            named: Some(LAST.into()),
        },
    ]
}

/// Ten times: a byte and then rule 0 again, or else the next; and nothing at the end.
fn alternative(k: u8) -> [u8; 4] {
    match k % 3 {
        _ if k == LAST => EMPTY,
        0 => choice(k + 1, k + 3),
        1 => sequence(k + 1, 0),
        _ => range(b'a' + k / 3, b'a' + k / 3),
    }
}

pub struct Text {
    pub name: &'static str,
    pub text: Vec<u8>,
    /// The number of the refusal, or 0.
    pub refusal: u32,
}

/// The length of the long texts.
const LONG: usize = 16_000;

/// All texts, in the order of the table.
pub fn texts() -> Vec<Text> {
    let named = |more: &[u8]| [RING, more].concat();
    vec![
        Text { name: "ring", text: RING.to_vec(), refusal: 0 },
        Text { name: "blanks", text: blanks(LONG), refusal: 0 },
        Text { name: "operators", text: operators(LONG), refusal: 16 },
        // A line that leads back behind the ring's, and a repetition of nothing in one.
        Text { name: "ring, and a name", text: named(b"again = !again;\n"), refusal: 19 },
        Text { name: "ring, and a star", text: named(b"again = port (port?)*;\n"), refusal: 19 },
    ]
}
