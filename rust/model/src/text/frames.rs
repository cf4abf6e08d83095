//! Reading a text in one pass: a frame for the line's expression and one for each open parenthesis. A frame holds what may
//! still grow to the right; a token that it has no use for is the earliest fault.

use super::tokens::{self, Token};
use super::{Node, Prefix, Suffix, Typed};
use crate::answer::{refuse, Refusal};
use std::collections::HashMap;

/// The parentheses that may be open at once.
const MAX_OPEN: usize = 16;

/// The number of a refusal, whose place is the token's.
type Fault = u32;

const SYNTAX: Fault = 15;
const DEPTH: Fault = 17;

/// An expression of which the end has not been read.
#[derive(Default)]
struct Frame {
    /// The alternatives before the last slash, and the parts of the sequence after it that are whole.
    alternatives: Vec<usize>,
    parts: Vec<usize>,
    /// The last part: its prefixes, and what they stand before, if that has been read. Suffixes may follow it.
    prefixes: Vec<Prefix>,
    operand: Option<usize>,
}

/// What must come next.
enum Spot {
    Line,
    Equals,
    Expression,
}

struct Reader<'a> {
    /// Until the end of the text a name is its place in `uses`.
    nodes: Vec<Node>,
    uses: Vec<(usize, &'a [u8])>,
    numbers: HashMap<&'a [u8], usize>,
    /// The offset of each line's name.
    names: Vec<usize>,
    bodies: Vec<usize>,
    spot: Spot,
    /// The last one is the innermost. Empty outside of expressions.
    frames: Vec<Frame>,
}

/// A text's lines, the earliest fault, or the earliest name that no line defines.
pub fn read(text: &[u8]) -> Result<Typed, Refusal> {
    let mut reader = Reader {
        nodes: Vec::new(),
        uses: Vec::new(),
        numbers: HashMap::new(),
        names: Vec::new(),
        bodies: Vec::new(),
        spot: Spot::Line,
        frames: Vec::new(),
    };
    for (place, token) in tokens::of(text) {
        reader.take(place, token).map_err(|number| Refusal { number, place })?;
    }
    if !matches!(reader.spot, Spot::Line) || reader.bodies.is_empty() {
        return refuse(SYNTAX, text.len());
    }
    reader.resolved()
}

impl<'a> Reader<'a> {
    fn take(&mut self, offset: usize, token: Token<'a>) -> Result<(), Fault> {
        match (&self.spot, token) {
            (Spot::Line, Token::Name(name)) => self.begin(offset, name),
            (Spot::Equals, Token::Equals) => {
                self.spot = Spot::Expression;
                self.frames.push(Frame::default());
                Ok(())
            }
            (Spot::Expression, token) => self.go_on(offset, token),
            _ => Err(SYNTAX),
        }
    }

    fn begin(&mut self, offset: usize, name: &'a [u8]) -> Result<(), Fault> {
        let number = self.numbers.len();
        if self.numbers.insert(name, number).is_some() {
            return Err(SYNTAX);
        }
        self.names.push(offset);
        self.spot = Spot::Equals;
        Ok(())
    }

    /// A token inside of an expression.
    fn go_on(&mut self, offset: usize, token: Token<'a>) -> Result<(), Fault> {
        match token {
            Token::Name(name) => {
                self.uses.push((offset, name));
                self.operand(Node::Name(self.uses.len() - 1));
            }
            Token::Any => self.operand(Node::Any),
            Token::Empty => self.operand(Node::Empty),
            Token::Fail => self.operand(Node::Fail),
            Token::Range(low, high) => self.operand(Node::Range(low, high)),
            Token::Prefix(prefix) => {
                self.close_part();
                self.frame().prefixes.push(prefix);
            }
            Token::Suffix(suffix) => self.suffix(suffix)?,
            Token::Slash => {
                let alternative = self.close_sequence()?;
                self.frame().alternatives.push(alternative);
            }
            Token::Open => self.open()?,
            Token::Close => self.close()?,
            Token::Semicolon => self.end()?,
            Token::Equals | Token::None => return Err(SYNTAX),
        }
        Ok(())
    }

    fn frame(&mut self) -> &mut Frame {
        self.frames.last_mut().expect("an expression has a frame")
    }

    fn node(&mut self, node: Node) -> usize {
        self.nodes.push(node);
        self.nodes.len() - 1
    }

    /// An operand after a whole part makes a sequence.
    fn operand(&mut self, node: Node) {
        self.close_part();
        let operand = self.node(node);
        self.frame().operand = Some(operand);
    }

    fn suffix(&mut self, suffix: Suffix) -> Result<(), Fault> {
        let operand = self.frame().operand.ok_or(SYNTAX)?;
        let whole = self.node(Node::Suffixed(suffix, operand));
        self.frame().operand = Some(whole);
        Ok(())
    }

    fn open(&mut self) -> Result<(), Fault> {
        // One frame is the line's own.
        if self.frames.len() > MAX_OPEN {
            return Err(DEPTH);
        }
        self.close_part();
        self.frames.push(Frame::default());
        Ok(())
    }

    fn close(&mut self) -> Result<(), Fault> {
        if self.frames.len() == 1 {
            return Err(SYNTAX);
        }
        let inner = self.close_expression()?;
        self.frame().operand = Some(inner);
        Ok(())
    }

    fn end(&mut self) -> Result<(), Fault> {
        if self.frames.len() > 1 {
            return Err(SYNTAX);
        }
        let body = self.close_expression()?;
        self.bodies.push(body);
        self.spot = Spot::Line;
        Ok(())
    }

    /// No suffix will follow the last operand: its prefixes are put before it, the innermost first.
    fn close_part(&mut self) {
        let Some(mut part) = self.frame().operand.take() else { return };
        while let Some(prefix) = self.frame().prefixes.pop() {
            part = self.node(Node::Prefixed(prefix, part));
        }
        self.frame().parts.push(part);
    }

    /// The sequence after the last slash is whole, unless its last part is missing.
    fn close_sequence(&mut self) -> Result<usize, Fault> {
        self.frame().operand.ok_or(SYNTAX)?;
        self.close_part();
        let parts = std::mem::take(&mut self.frame().parts);
        Ok(self.grouped(parts, Node::Sequence))
    }

    /// The innermost expression is whole.
    fn close_expression(&mut self) -> Result<usize, Fault> {
        let last = self.close_sequence()?;
        let mut alternatives = self.frames.pop().expect("an expression has a frame").alternatives;
        alternatives.push(last);
        Ok(self.grouped(alternatives, Node::Choice))
    }

    /// Of two parts each, to the right.
    fn grouped(&mut self, mut parts: Vec<usize>, join: fn(usize, usize) -> Node) -> usize {
        let mut whole = parts.pop().expect("there is a last part");
        while let Some(part) = parts.pop() {
            whole = self.node(join(part, whole));
        }
        whole
    }

    /// Names by the numbers of their lines.
    fn resolved(mut self) -> Result<Typed, Refusal> {
        for node in &mut self.nodes {
            if let Node::Name(place) = node {
                let (offset, name) = self.uses[*place];
                match self.numbers.get(name) {
                    Some(&number) => *place = number,
                    None => return refuse(SYNTAX, offset),
                }
            }
        }
        Ok(Typed { nodes: self.nodes, bodies: self.bodies, names: self.names })
    }
}
