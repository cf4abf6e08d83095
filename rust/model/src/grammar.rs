//! Grammars and their check: refusals 11 and 12.

use crate::answer::{refuse, Refusal};

#[derive(Clone, Copy, Debug, PartialEq, Eq)]
pub enum Part {
    /// One rule, then another.
    Sequence(usize, usize),
    /// One rule, or another if it fails.
    Choice(usize, usize),
    /// Not a rule: nothing is consumed.
    Not(usize),
    Empty,
    /// One byte in a range; with its first byte above its last there is none, and it always fails.
    Byte(u8, u8),
}

/// The rules of a good grammar, or the refusal with the lowest number.
pub fn read(bytes: &[u8]) -> Result<Vec<Part>, Refusal> {
    if bytes.is_empty() || bytes.len() > 124 || !bytes.len().is_multiple_of(4) {
        return refuse(11, bytes.len());
    }
    let rules = bytes.len() / 4;
    let part = |(index, rule)| read_rule(rule, rules).ok_or(Refusal { number: 12, place: 4 * index });
    bytes.chunks(4).enumerate().map(part).collect()
}

fn read_rule(rule: &[u8], rules: usize) -> Option<Part> {
    let (kind, b, c, fourth) = (rule[0], rule[1], rule[2], rule[3]);
    let (first, second) = (b as usize, c as usize);
    let part = match kind {
        1 if first < rules && second < rules => Part::Sequence(first, second),
        2 if first < rules && second < rules => Part::Choice(first, second),
        3 if first < rules && c == 0 => Part::Not(first),
        4 if b == 0 && c == 0 => Part::Empty,
        5 => Part::Byte(b, c),
        _ => return None,
    };
    (fourth == 0).then_some(part)
}
