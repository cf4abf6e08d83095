//! The rules of a typed grammar and their numbers: the lines first, in their order, then helper rules in the order in which
//! the parts are listed, parts before what they are parts of. The top operator of a line stands at the line's own number.

use super::{Node, Prefix, Suffix, Typed};
use crate::grammar::Part;

/// A rule, and the line that it is of.
#[derive(Clone, Copy)]
pub struct Rule {
    pub part: Part,
    pub line: usize,
}

/// The rules so far: a line's own is put in its place when its expression is met, which is the last of its parts.
struct Rules {
    rules: Vec<Rule>,
    /// The line that the parts now met are of.
    line: usize,
}

pub fn rules(typed: &Typed) -> Vec<Rule> {
    let of_lines = (0..typed.bodies.len()).map(|line| Rule { part: Part::Empty, line });
    let mut rules = Rules { rules: of_lines.collect(), line: 0 };
    let mut numbers = Vec::new();
    for (index, &node) in typed.nodes.iter().enumerate() {
        let is_last = typed.bodies[rules.line] == index;
        let number = rules.number(&numbers, node, is_last.then_some(rules.line));
        numbers.push(number);
        rules.line += is_last as usize;
    }
    rules.rules
}

impl Rules {
    fn add(&mut self, part: Part) -> usize {
        self.rules.push(Rule { part, line: self.line });
        self.rules.len() - 1
    }

    /// Puts a part's own rules, the last at the line's number where it is all of a line; answers the part's number.
    fn number(&mut self, numbers: &[usize], node: Node, line: Option<usize>) -> usize {
        let of = |part: usize| numbers[part];
        let own = match node {
            Node::Name(named) => match line {
                None => return named,
                // The named rule, then nothing.
                Some(_) => Part::Sequence(named, self.add(Part::Empty)),
            },
            Node::Any => Part::Byte(0, 255),
            Node::Empty => Part::Empty,
            Node::Fail => Part::Byte(1, 0),
            Node::Range(low, high) => Part::Byte(low, high),
            Node::Sequence(one, other) => Part::Sequence(of(one), of(other)),
            Node::Choice(one, other) => Part::Choice(of(one), of(other)),
            Node::Prefixed(Prefix::Not, operand) => Part::Not(of(operand)),
            Node::Prefixed(Prefix::And, operand) => Part::Not(self.add(Part::Not(of(operand)))),
            Node::Suffixed(Suffix::Optional, operand) => Part::Choice(of(operand), self.add(Part::Empty)),
            Node::Suffixed(Suffix::Star, operand) => return self.repetition(of(operand), line),
            Node::Suffixed(Suffix::Plus, operand) => {
                let once = of(operand);
                Part::Sequence(once, self.repetition(once, None))
            }
        };
        match line {
            Some(line) => {
                self.rules[line].part = own;
                line
            }
            None => self.add(own),
        }
    }

    /// A choice of the operand and all again, or nothing: the choice, then the sequence, then the empty rule.
    fn repetition(&mut self, operand: usize, line: Option<usize>) -> usize {
        let choice = line.unwrap_or_else(|| self.add(Part::Empty));
        let sequence = self.add(Part::Sequence(operand, choice));
        let empty = self.add(Part::Empty);
        self.rules[choice].part = Part::Choice(sequence, empty);
        choice
    }
}

/// A rule's four bytes.
pub fn bytes(rule: Part) -> [u8; 4] {
    match rule {
        Part::Sequence(b, c) => [1, b as u8, c as u8, 0],
        Part::Choice(b, c) => [2, b as u8, c as u8, 0],
        Part::Not(b) => [3, b as u8, 0, 0],
        Part::Empty => [4, 0, 0, 0],
        Part::Byte(low, high) => [5, low, high, 0],
    }
}
