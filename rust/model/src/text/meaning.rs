//! What a typed grammar means, on its expressions, by the equations of paper 004, and never through rules.
//!
//! The equations are taken as they are: what they give is entered in a table, place by place from the capture's end, until
//! they give nothing more. An expression at a place for which nothing was entered has no result.

use super::{Node, Prefix, Suffix, Typed};
use crate::parse::Parsed::{self, *};

/// What each part makes of the capture from each place on.
pub struct Meaning<'a> {
    typed: &'a Typed,
    capture: &'a [u8],
    /// By place and part.
    of: Vec<Vec<Option<Parsed>>>,
    /// For the suffixes star and plus, e* of their operand e.
    repeated: Vec<Vec<Option<Parsed>>>,
}

pub fn of<'a>(typed: &'a Typed, capture: &'a [u8]) -> Meaning<'a> {
    let blank = vec![vec![None; typed.nodes.len()]; capture.len() + 1];
    let mut meaning = Meaning { typed, capture, of: blank.clone(), repeated: blank };
    for place in (0..=capture.len()).rev() {
        // A result at a place comes from results at this place and later ones.
        while meaning.sweep(place) {}
    }
    meaning
}

impl Meaning<'_> {
    /// What a line makes of the capture from a place on.
    pub fn line(&self, line: usize, place: usize) -> Parsed {
        self.of[place][self.typed.bodies[line]].unwrap_or(NoResult)
    }

    /// Takes each part's equation once; whether that gave anything new.
    fn sweep(&mut self, place: usize) -> bool {
        let mut found = false;
        for (part, &node) in self.typed.nodes.iter().enumerate() {
            if let Node::Suffixed(Suffix::Star | Suffix::Plus, operand) = node {
                let result = self.repeat(operand, part, place);
                found |= enter(&mut self.repeated[place][part], result);
            }
            let result = self.equation(node, part, place);
            found |= enter(&mut self.of[place][part], result);
        }
        found
    }

    fn equation(&self, node: Node, part: usize, place: usize) -> Option<Parsed> {
        let at_place = |part: usize| self.of[place][part];
        match node {
            Node::Name(line) => at_place(self.typed.bodies[line]),
            Node::Any => Some(self.byte(0, 255, place)),
            Node::Range(low, high) => Some(self.byte(low, high, place)),
            Node::Empty => Some(Rest(place)),
            Node::Fail => not(Rest(place), place),
            Node::Sequence(one, other) => after(at_place(one)?, |rest| self.of[rest][other]),
            Node::Choice(one, other) => or_else(at_place(one)?, || at_place(other)),
            Node::Prefixed(Prefix::Not, operand) => not(at_place(operand)?, place),
            Node::Prefixed(Prefix::And, operand) => not(not(at_place(operand)?, place)?, place),
            Node::Suffixed(Suffix::Optional, operand) => or_else(at_place(operand)?, || Some(Rest(place))),
            Node::Suffixed(Suffix::Star, _) => self.repeated[place][part],
            Node::Suffixed(Suffix::Plus, operand) => after(at_place(operand)?, |rest| self.repeated[rest][part]),
        }
    }

    /// A = eA / empty.
    fn repeat(&self, operand: usize, part: usize, place: usize) -> Option<Parsed> {
        let once_and_again = after(self.of[place][operand]?, |rest| self.repeated[rest][part])?;
        or_else(once_and_again, || Some(Rest(place)))
    }

    fn byte(&self, low: u8, high: u8, place: usize) -> Parsed {
        match self.capture.get(place) {
            Some(byte) if (low..=high).contains(byte) => Rest(place + 1),
            _ => Failure,
        }
    }
}

/// Enters a result; whether there was none. No equation takes a result back.
fn enter(cell: &mut Option<Parsed>, result: Option<Parsed>) -> bool {
    assert!(cell.is_none() || *cell == result, "two results");
    let found = cell.is_none() && result.is_some();
    *cell = result;
    found
}

/// A sequence, of what its first part comes to.
fn after(one: Parsed, other: impl FnOnce(usize) -> Option<Parsed>) -> Option<Parsed> {
    match one {
        Rest(rest) => other(rest),
        failure => Some(failure),
    }
}

/// A choice, of what its first part comes to.
fn or_else(one: Parsed, other: impl FnOnce() -> Option<Parsed>) -> Option<Parsed> {
    match one {
        Failure => other(),
        success => Some(success),
    }
}

fn not(of: Parsed, place: usize) -> Option<Parsed> {
    Some(match of {
        Rest(_) => Failure,
        _ => Rest(place),
    })
}
