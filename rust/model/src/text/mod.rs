//! Grammars as text: what a text says, why it is refused, and the grammar that stands for it.
//!
//! A text is read in one pass, with a stack of open parentheses ([`frames`]). What is made on the way lies in one list, parts
//! before what they are parts of, so that the rules needed, their numbers ([`numbering`]) and what they mean ([`meaning`])
//! need no recursion: a text may be long, and nest prefixes as deep as it is long.

mod frames;
pub mod meaning;
mod numbering;
mod tokens;

use crate::answer::{refuse, Refusal};

#[derive(Clone, Copy, Debug, PartialEq, Eq)]
pub enum Prefix {
    Not,
    And,
}

#[derive(Clone, Copy, Debug, PartialEq, Eq)]
pub enum Suffix {
    Star,
    Plus,
    Optional,
}

/// A part of an expression. Other parts are named by their places in the list, a line by its number.
#[derive(Clone, Copy, Debug, PartialEq, Eq)]
pub enum Node {
    Name(usize),
    Any,
    Empty,
    Fail,
    Range(u8, u8),
    Prefixed(Prefix, usize),
    Suffixed(Suffix, usize),
    Sequence(usize, usize),
    Choice(usize, usize),
}

/// A text whose every name is defined: all parts, the whole expression of each line, and the offset of each line's name.
#[derive(Clone, Debug, PartialEq, Eq)]
pub struct Typed {
    pub nodes: Vec<Node>,
    pub bodies: Vec<usize>,
    pub names: Vec<usize>,
}

/// The most rules that a grammar may have.
const MAX_RULES: usize = 31;

/// A text's lines, or refusal 15 or 17.
pub fn lines(text: &[u8]) -> Result<Typed, Refusal> {
    frames::read(text)
}

/// A text's lines, or refusal 15, 17 or 16.
pub fn read(text: &[u8]) -> Result<Typed, Refusal> {
    let typed = lines(text)?;
    if typed.needs() > MAX_RULES {
        return refuse(16, text.len());
    }
    Ok(typed)
}

impl Typed {
    /// How many rules the text needs, by the request's table: each part's own, and those of lines that are only a name.
    pub fn needs(&self) -> usize {
        let bare = |&&body: &&usize| matches!(self.nodes[body], Node::Name(_));
        let own: usize = self.nodes.iter().map(|&node| need(node)).sum();
        own + 2 * self.bodies.iter().filter(bare).count()
    }

    /// The bytes of the grammar, for a text that needs no more rules than a grammar may have.
    pub fn grammar(&self) -> Vec<u8> {
        numbering::rules(self).into_iter().flat_map(|rule| numbering::bytes(rule.part)).collect()
    }

    /// For each rule of the grammar the line that it is of: its own, or the one whose expression needs it.
    pub fn line_of_each_rule(&self) -> Vec<usize> {
        numbering::rules(self).into_iter().map(|rule| rule.line).collect()
    }
}

/// A part's own rules. A sequence or a choice of k parts is k - 1 of two.
fn need(node: Node) -> usize {
    match node {
        Node::Name(_) => 0,
        Node::Any | Node::Empty | Node::Fail | Node::Range(..) => 1,
        Node::Prefixed(Prefix::Not, _) => 1,
        Node::Prefixed(Prefix::And, _) => 2,
        Node::Suffixed(Suffix::Optional, _) => 2,
        Node::Suffixed(Suffix::Star, _) => 3,
        Node::Suffixed(Suffix::Plus, _) => 4,
        Node::Sequence(..) | Node::Choice(..) => 1,
    }
}
