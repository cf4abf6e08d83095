//! The twin's reading of a text: after its check, an expression is read by recursion on its brackets, and rules are put
//! where they belong as they come.
use super::build::{build_checked, Plan};
use super::check::refused;
use super::faults::{check_text, line_of};
use super::judge::judge_checked;
use super::tokens::{Reader, Token};
use sejimakpu::{Error, Judged, Matching, Reason, MAX_CAPTURE, MAX_GRAMMAR};

pub(super) const MAX_RULES: usize = MAX_GRAMMAR / 4;

/// More prefixes, parts or alternatives than this need over 31 rules.
const MAX_PARTS: usize = MAX_RULES + 1;

/// The grammar needs over 31 rules.
struct TooMany;

/// What stands for an expression whose own rule has no number yet: the rule of a name, a rule, or the operand of `*`.
#[derive(Clone, Copy)]
enum Node {
    Numbered(u8),
    Rule([u8; 4]),
    Repetition(u8),
}

/// A line that is read: the offset of its name, and the rules so far, its helper rules the last of them.
#[derive(Clone, Copy, Default)]
pub(super) struct Line {
    pub name: usize,
    pub end: usize,
}

/// A grammar, by value.
pub(super) struct Grammar {
    rules: [[u8; 4]; MAX_RULES],
    count: usize,
}

impl Grammar {
    pub fn rules(&self) -> &[[u8; 4]] {
        &self.rules[..self.count]
    }

    fn put(&mut self, rule: [u8; 4]) -> Result<u8, TooMany> {
        *self.rules.get_mut(self.count).ok_or(TooMany)? = rule;
        self.count += 1;
        Ok(self.count as u8 - 1)
    }

    /// A choice of the operand and all again, or nothing.
    fn repetition(&mut self, operand: u8) -> Result<u8, TooMany> {
        let number = self.count as u8;
        self.put([2, number + 1, number + 2, 0])?;
        self.put([1, operand, number, 0])?;
        self.put([4, 0, 0, 0])?;
        Ok(number)
    }

    /// The number of an expression whose own rule is put next.
    fn place(&mut self, node: Node) -> Result<u8, TooMany> {
        match node {
            Node::Numbered(number) => Ok(number),
            Node::Rule(rule) => self.put(rule),
            Node::Repetition(operand) => self.repetition(operand),
        }
    }

    /// Puts the rule of a whole line at its number.
    fn place_line(&mut self, line: u8, node: Node) -> Result<(), TooMany> {
        self.rules[usize::from(line)] = match node {
            Node::Numbered(number) => [1, number, self.put([4, 0, 0, 0])?, 0],
            Node::Rule(rule) => rule,
            Node::Repetition(operand) => [2, self.put([1, operand, line, 0])?, self.put([4, 0, 0, 0])?, 0],
        };
        Ok(())
    }

    /// Joins placed parts and the last one by rules of two parts each, to the right.
    fn join(&mut self, kind: u8, parts: &Parts, last: Node) -> Result<Node, TooMany> {
        let mut whole = last;
        for &part in parts.numbers[..parts.count].iter().rev() {
            whole = Node::Rule([kind, part, self.place(whole)?, 0]);
        }
        Ok(whole)
    }
}

/// The numbers of the parts before the last.
struct Parts {
    numbers: [u8; MAX_PARTS],
    count: usize,
}

impl Parts {
    fn new() -> Self {
        Parts { numbers: [0; MAX_PARTS], count: 0 }
    }

    fn push(&mut self, number: u8) -> Result<(), TooMany> {
        *self.numbers.get_mut(self.count).ok_or(TooMany)? = number;
        self.count += 1;
        Ok(())
    }
}

/// A text that has passed its check, how far it is read, and the rules put so far.
struct Descent<'a> {
    text: &'a [u8],
    reader: Reader<'a>,
    grammar: Grammar,
}

impl Descent<'_> {
    fn choice(&mut self) -> Result<Node, TooMany> {
        let mut parts = Parts::new();
        loop {
            let part = self.sequence()?;
            if self.reader.peek() != Some(Token::Slash) {
                return self.grammar.join(2, &parts, part);
            }
            self.reader.next();
            parts.push(self.grammar.place(part)?)?;
        }
    }

    fn sequence(&mut self) -> Result<Node, TooMany> {
        let mut parts = Parts::new();
        loop {
            let part = self.prefixed()?;
            if !self.reader.peek().is_some_and(Token::begins_part) {
                return self.grammar.join(1, &parts, part);
            }
            parts.push(self.grammar.place(part)?)?;
        }
    }

    fn prefixed(&mut self) -> Result<Node, TooMany> {
        let mut ands = Parts::new();
        while let Some(Token::Not | Token::And) = self.reader.peek() {
            let token = self.reader.next().map(|(_, token)| token);
            ands.push(u8::from(token == Some(Token::And)))?;
        }
        let mut node = self.suffixed()?;
        for &and in ands.numbers[..ands.count].iter().rev() {
            let mut operand = self.grammar.place(node)?;
            if and == 1 {
                operand = self.grammar.put([3, operand, 0, 0])?;
            }
            node = Node::Rule([3, operand, 0, 0]);
        }
        Ok(node)
    }

    fn suffixed(&mut self) -> Result<Node, TooMany> {
        let mut node = self.operand()?;
        while let Some(suffix @ (Token::Star | Token::Plus | Token::Optional)) = self.reader.peek() {
            self.reader.next();
            let operand = self.grammar.place(node)?;
            node = match suffix {
                Token::Star => Node::Repetition(operand),
                Token::Plus => Node::Rule([1, operand, self.grammar.repetition(operand)?, 0]),
                _ => Node::Rule([2, operand, self.grammar.put([4, 0, 0, 0])?, 0]),
            };
        }
        Ok(node)
    }

    fn operand(&mut self) -> Result<Node, TooMany> {
        let token = self.reader.next().map(|(_, token)| token);
        Ok(match token.expect("a checked text has an operand here") {
            Token::Name(name) => Node::Numbered(line_of(self.text, name).expect("it is defined") as u8),
            Token::Any => Node::Rule([5, 0, 255, 0]),
            Token::Empty => Node::Rule([4, 0, 0, 0]),
            Token::Fail => Node::Rule([5, 1, 0, 0]),
            Token::Range(low, high) => Node::Rule([5, low, high, 0]),
            _ => {
                let inner = self.choice()?;
                self.reader.next();
                inner
            }
        })
    }

    /// A name, =, an expression and ; each.
    fn lines(mut self, lines: u32, mut note: impl FnMut(Line)) -> Result<Grammar, TooMany> {
        if lines as usize > MAX_RULES {
            return Err(TooMany);
        }
        self.grammar.count = lines as usize;
        for line in 0..lines as u8 {
            let name = self.reader.next().map_or(0, |(offset, _)| offset);
            self.reader.next();
            let node = self.choice()?;
            self.grammar.place_line(line, node)?;
            note(Line { name, end: self.grammar.count });
            self.reader.next();
        }
        Ok(self.grammar)
    }
}

fn read(text: &[u8]) -> Result<Grammar, Error> {
    read_lines(text, |_| ())
}

/// Reads a text, and tells of each line as it is read.
pub(super) fn read_lines(text: &[u8], note: impl FnMut(Line)) -> Result<Grammar, Error> {
    let lines = check_text(text)?;
    let grammar = Grammar { rules: [[0; 4]; MAX_RULES], count: 0 };
    let descent = Descent { text, reader: Reader::new(text), grammar };
    descent.lines(lines, note).map_err(|TooMany| refused(Reason::TextRules, text.len()))
}

/// Reads a text, as [`sejimakpu::read_grammar`] does.
pub fn read_grammar(text: &[u8], grammar: &mut [u8; MAX_GRAMMAR]) -> Result<usize, Error> {
    let read = read(text)?;
    let bytes = read.rules().as_flattened();
    grammar[..bytes.len()].copy_from_slice(bytes);
    Ok(bytes.len())
}

/// Builds the image of a text, as [`sejimakpu::build_text`] does. What was read needs no check.
pub fn build_text(text: &[u8], image: &mut [u8]) -> Result<usize, Error> {
    build_checked(read(text)?.rules(), Matching::Whole, image)
}

/// Judges by a text, as [`sejimakpu::judge_text`] does: all checks come before the image is written, each once.
pub fn judge_text(
    text: &[u8],
    capture: &[u8],
    image: &mut [u8],
    notes: &mut [u32],
    work: &mut [u32],
) -> Result<Judged, Error> {
    let grammar = read(text)?;
    let plan = Plan::of(grammar.rules());
    let image = plan.room(image)?;
    if capture.len() > MAX_CAPTURE {
        return Err(refused(Reason::CaptureLong, capture.len()));
    }
    let cells = plan.cells(capture.len());
    let notes = notes.get_mut(..cells).ok_or_else(|| refused(Reason::NotesShort, cells))?;
    let work = work.get_mut(..cells).ok_or_else(|| refused(Reason::WorkShort, cells))?;
    plan.write(Matching::Whole, image);
    Ok(judge_checked(image, capture, notes, work))
}
