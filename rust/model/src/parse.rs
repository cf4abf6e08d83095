//! Parsing itself, by direct recursion: what a grammar's machine should come to, without any machine.

use crate::answer::Verdict;
use crate::building::Matching;
use crate::grammar::Part;

#[derive(Clone, Copy, Debug, PartialEq, Eq)]
pub enum Parsed {
    /// Success, with the place where the rest of the capture begins.
    Rest(usize),
    Failure,
    /// The recursion has no end.
    NoResult,
}

impl Parsed {
    /// What judging by the grammar's image should say, of a capture of so many bytes.
    pub fn verdict(self, matching: Matching, length: usize) -> Verdict {
        match (self, matching) {
            (Parsed::NoResult, _) => Verdict::Looping,
            (Parsed::Failure, _) => Verdict::Stuck,
            (Parsed::Rest(_), Matching::Leading) => Verdict::Accepted,
            (Parsed::Rest(rest), Matching::Whole) if rest == length => Verdict::Accepted,
            (Parsed::Rest(_), Matching::Whole) => Verdict::Stuck,
        }
    }
}

/// The most readings of the image of so many rules on so many bytes. Bytes that are left over are read once each.
pub fn most_readings(matching: Matching, rules: usize, length: usize) -> usize {
    let parsing = 6 * rules * (length + 1) + 2;
    match matching {
        Matching::Whole => parsing,
        Matching::Leading => parsing + length,
    }
}

struct Parser<'a> {
    grammar: &'a [Part],
    capture: &'a [u8],
    /// The rules that are being parsed, each with the place where it began.
    open: Vec<(usize, usize)>,
    calls_left: usize,
}

/// What rule 0 makes of the capture, or none where that takes more calls than allowed.
pub fn parse(grammar: &[Part], capture: &[u8], calls: usize) -> Option<Parsed> {
    parse_from(grammar, capture, (0, 0), calls)
}

/// What a rule makes of the capture from a place on, or none where that takes more calls than allowed.
pub fn parse_from(grammar: &[Part], capture: &[u8], (rule, place): (usize, usize), calls: usize) -> Option<Parsed> {
    Parser { grammar, capture, open: Vec::new(), calls_left: calls }.rule(rule, place)
}

impl Parser<'_> {
    /// A rule that is open at the same place already will come to itself again and again.
    fn rule(&mut self, rule: usize, place: usize) -> Option<Parsed> {
        if self.open.contains(&(rule, place)) {
            return Some(Parsed::NoResult);
        }
        self.calls_left = self.calls_left.checked_sub(1)?;
        self.open.push((rule, place));
        let parsed = self.part(self.grammar[rule], place);
        self.open.pop();
        parsed
    }

    fn part(&mut self, part: Part, place: usize) -> Option<Parsed> {
        match part {
            Part::Sequence(b, c) => match self.rule(b, place)? {
                Parsed::Rest(rest) => self.rule(c, rest),
                other => Some(other),
            },
            Part::Choice(b, c) => match self.rule(b, place)? {
                Parsed::Failure => self.rule(c, place),
                other => Some(other),
            },
            Part::Not(b) => Some(match self.rule(b, place)? {
                Parsed::Rest(_) => Parsed::Failure,
                Parsed::Failure => Parsed::Rest(place),
                Parsed::NoResult => Parsed::NoResult,
            }),
            Part::Empty => Some(Parsed::Rest(place)),
            Part::Byte(low, high) => Some(match self.capture.get(place) {
                Some(byte) if (low..=high).contains(byte) => Parsed::Rest(place + 1),
                _ => Parsed::Failure,
            }),
        }
    }
}
