//! A grammar that is right: its rules, the names of its lines, and its image.
use crate::{Error, Image, Matching, Reason, Refusal, MAX_GRAMMAR};

/// A rule of a grammar. Other rules are named by their numbers.
#[derive(Clone, Copy, Debug, PartialEq, Eq, Hash)]
pub enum Rule {
    /// The first rule, then the second.
    Sequence(usize, usize),
    /// The first rule, or else the second.
    Choice(usize, usize),
    /// Nothing, where the rule does not match.
    Not(usize),
    /// Nothing.
    Empty,
    /// One byte from the first to the last; none where the first is above the last.
    Range(u8, u8),
}

impl Rule {
    /// Of four bytes of a grammar that is right.
    fn of_bytes(bytes: &[u8]) -> Rule {
        let (b, c) = (bytes[1].into(), bytes[2].into());
        match bytes[0] {
            1 => Rule::Sequence(b, c),
            2 => Rule::Choice(b, c),
            3 => Rule::Not(b),
            4 => Rule::Empty,
            _ => Rule::Range(bytes[1], bytes[2]),
        }
    }

    /// The rules that it names, the first one first.
    pub fn parts(self) -> impl Iterator<Item = usize> {
        let (first, second) = match self {
            Rule::Sequence(b, c) | Rule::Choice(b, c) => (Some(b), Some(c)),
            Rule::Not(b) => (Some(b), None),
            Rule::Empty | Rule::Range(..) => (None, None),
        };
        first.into_iter().chain(second)
    }
}

/// A grammar of 1 to 31 rules, from its bytes or from a text.
///
/// ```
/// use sejimakpu::{Grammar, Matching, Rule, Verdict, Workspace};
///
/// let grammar = Grammar::from_text(b"link = port dash port; port = '1-8'; dash = '---';")?;
/// assert_eq!(grammar.rule_count(), 4);
/// assert_eq!(grammar.rule(1), Some(Rule::Range(b'1', b'8')));
/// assert_eq!(grammar.name(1), Some("port"));
/// // Rule 3 is the rest of a link: a helper rule of the first line.
/// assert_eq!((grammar.rule(3), grammar.name(3)), (Some(Rule::Sequence(2, 1)), Some("link")));
///
/// let image = grammar.image(Matching::Whole)?;
/// assert_eq!(Workspace::new().judge(&image, b"1-2")?.verdict, Verdict::Accepted);
/// # Ok::<(), sejimakpu::Error>(())
/// ```
#[derive(Clone, Debug, PartialEq, Eq)]
pub struct Grammar {
    bytes: Vec<u8>,
    /// The names of a text's lines, which are the first rules; none of a grammar's bytes.
    lines: Vec<String>,
    left_recursion: Option<Refusal>,
}

impl Grammar {
    /// Takes a grammar's bytes, if they are right.
    ///
    /// # Errors
    ///
    /// [`Error::Refused`]: refusals 11 and 12.
    pub fn from_bytes(bytes: &[u8]) -> Result<Grammar, Error> {
        let left_recursion = left_recursion(crate::check_recursion(bytes))?;
        Ok(Grammar { bytes: bytes.to_vec(), lines: Vec::new(), left_recursion })
    }

    /// Reads a typed grammar.
    ///
    /// # Errors
    ///
    /// [`Error::Refused`]: refusals 15 to 17, as of [`read_grammar`](crate::read_grammar).
    pub fn from_text(text: &[u8]) -> Result<Grammar, Error> {
        let mut bytes = [0; MAX_GRAMMAR];
        let length = crate::read_grammar(text, &mut bytes)?;
        let left_recursion = left_recursion(crate::check_text_recursion(text))?;
        Ok(Grammar { bytes: bytes[..length].to_vec(), lines: line_names(text), left_recursion })
    }

    /// The bytes, four a rule.
    #[must_use]
    pub fn bytes(&self) -> &[u8] {
        &self.bytes
    }

    /// How many rules it has, 1 to 31.
    #[must_use]
    pub fn rule_count(&self) -> usize {
        self.bytes.len() / 4
    }

    /// The rule of a number, if there is one.
    #[must_use]
    pub fn rule(&self, number: usize) -> Option<Rule> {
        self.rules().nth(number)
    }

    /// The rules, from rule 0 on, where parsing starts.
    pub fn rules(&self) -> impl ExactSizeIterator<Item = Rule> + '_ {
        self.bytes.chunks_exact(4).map(Rule::of_bytes)
    }

    /// The names of a text's lines, which are its first rules in their order; none of a grammar's bytes.
    #[must_use]
    pub fn lines(&self) -> &[String] {
        &self.lines
    }

    /// The name of the line that a rule is of: its own, and for a helper rule that of the line whose expression needs it.
    /// None of a grammar's bytes.
    #[must_use]
    pub fn name(&self, rule: usize) -> Option<&str> {
        Some(&self.lines[self.line_of(rule)?])
    }

    /// The line that a rule is of. A helper rule stands in one line's expression alone, below no other line's name.
    fn line_of(&self, rule: usize) -> Option<usize> {
        (0..self.lines.len()).find(|&line| self.own_rules(line).contains(&rule))
    }

    /// The rule of a line, and its helper rules: those that it comes to without passing another line.
    fn own_rules(&self, line: usize) -> Vec<usize> {
        let (mut own, mut followed) = (vec![line], 0);
        while let Some(&rule) = own.get(followed) {
            for part in self.rule(rule).into_iter().flat_map(Rule::parts) {
                if part >= self.lines.len() && !own.contains(&part) {
                    own.push(part);
                }
            }
            followed += 1;
        }
        own
    }

    /// Refusal 19, where a rule leads back to itself before anything is consumed: a capture may then be judged
    /// [`Looping`](crate::Verdict::Looping), and else none is. See [`check_recursion`](crate::check_recursion).
    #[must_use]
    pub fn left_recursion(&self) -> Option<Refusal> {
        self.left_recursion
    }

    /// The image of the grammar, by which captures are judged.
    ///
    /// # Errors
    ///
    /// None of this archive: a grammar that is right is not refused. [`Error::Mismatch`] of another archive.
    pub fn image(&self, matching: Matching) -> Result<Image, Error> {
        Image::of_grammar(&self.bytes, matching)
    }

    /// The grammar as text, a line for each rule: reading it gives the same bytes. Lines keep their names; a helper rule has
    /// its line's name and letters after it, and the rules of a grammar's bytes have letters alone.
    ///
    /// ```
    /// use sejimakpu::Grammar;
    ///
    /// let grammar = Grammar::from_text(b"link = port '---' port; port = '1-8';")?;
    /// let text = grammar.to_text();
    /// assert_eq!(text, b"link = port linkb;\nport = '1-8';\nlinka = '---';\nlinkb = linka port;\n");
    /// assert_eq!(Grammar::from_text(&text)?.bytes(), grammar.bytes());
    /// # Ok::<(), sejimakpu::Error>(())
    /// ```
    #[must_use]
    pub fn to_text(&self) -> Vec<u8> {
        let names = self.rule_names();
        let mut text = Vec::new();
        for (rule, name) in self.rules().zip(&names) {
            text.extend_from_slice(name.as_bytes());
            text.extend_from_slice(b" = ");
            match rule {
                Rule::Sequence(b, c) => text.extend_from_slice(format!("{} {}", names[b], names[c]).as_bytes()),
                Rule::Choice(b, c) => text.extend_from_slice(format!("{} / {}", names[b], names[c]).as_bytes()),
                Rule::Not(b) => text.extend_from_slice(format!("!{}", names[b]).as_bytes()),
                Rule::Empty => text.extend_from_slice(b"empty"),
                Rule::Range(low, high) => text.extend_from_slice(&[b'\'', low, b'-', high, b'\'']),
            }
            text.extend_from_slice(b";\n");
        }
        text
    }

    /// A name for each rule, no two the same, and none a word of the notation.
    fn rule_names(&self) -> Vec<String> {
        let mut names = self.lines.clone();
        for rule in self.lines.len()..self.rule_count() {
            let line = self.name(rule).unwrap_or_default();
            let free = |name: &String| !names.contains(name) && name != "empty" && name != "fail";
            names.extend((0..).map(|number| format!("{line}{}", letters(number))).find(free));
        }
        names
    }
}

/// Refusal 19 apart from what refuses a grammar.
fn left_recursion(checked: Result<(), Error>) -> Result<Option<Refusal>, Error> {
    match checked {
        Ok(()) => Ok(None),
        Err(Error::Refused(refusal)) if refusal.reason() == Reason::LeftRecursion => Ok(Some(refusal)),
        Err(error) => Err(error),
    }
}

/// a to z, then aa and on.
fn letters(number: usize) -> String {
    let last = char::from(b'a' + (number % 26) as u8);
    match number / 26 {
        0 => last.to_string(),
        more => letters(more - 1) + &last.to_string(),
    }
}

/// The names before each `=` of a text that is right. A range has five bytes, and the two at its ends may be any.
fn line_names(text: &[u8]) -> Vec<String> {
    let (mut names, mut name, mut place) = (Vec::new(), String::new(), 0);
    while let Some(&byte) = text.get(place) {
        match byte {
            b'\'' => place += 4,
            b'=' => names.push(std::mem::take(&mut name)),
            b'a'..=b'z' => name.push(byte.into()),
            // A name before `=` begins after the `;` of the line before.
            b';' => name.clear(),
            _ => {}
        }
        place += 1;
    }
    names
}

#[cfg(test)]
mod tests {
    use super::*;

    #[test]
    fn names_of_lines() {
        let names = |text: &[u8]| Grammar::from_text(text).unwrap().lines().to_vec();
        assert_eq!(names(b"a='=-;';b = a b / ';-='\n;\n cc\n=\n. ;"), ["a", "b", "cc"]);
        assert_eq!(names(b"a = 'x-;' !b; b = '---' / ''-=' / '=-'';"), ["a", "b"]);
    }

    /// As the archive tells lines: the name that it gives for a rule that leads back to itself.
    #[test]
    fn helper_rules_are_of_their_lines() {
        for text in ["a = 'x-x'; b = (a?)+ a; c = b;", "a = b 'x-x'; b = 'y-y'; c = ('z-z' / empty)*;"] {
            let grammar = Grammar::from_text(text.as_bytes()).unwrap();
            let refusal = grammar.left_recursion().unwrap();
            let name = grammar.name(refusal.place()).unwrap();
            assert!(text[refusal.name().unwrap()..].starts_with(&format!("{name} =")), "{text}");
        }
        let grammar = Grammar::from_text(b"a = b; b = 'x-y'* 'z-z';").unwrap();
        let names: Vec<_> = (0..grammar.rule_count()).map(|rule| grammar.name(rule).unwrap()).collect();
        assert!(names[2..].iter().all(|name| ["a", "b"].contains(name)));
        assert_eq!(grammar.name(grammar.rule_count()), None);
        assert_eq!(Grammar::from_bytes(grammar.bytes()).unwrap().name(0), None);
    }

    /// Every kind of rule, every byte at a range's ends, the most rules: the text reads as the same bytes.
    #[test]
    fn texts_read_as_the_same_bytes() {
        let same = |grammar: &Grammar| {
            let text = grammar.to_text();
            assert_eq!(Grammar::from_text(&text).unwrap().bytes(), grammar.bytes(), "{}", text.escape_ascii());
        };
        for byte in 0..=255 {
            same(&Grammar::from_bytes(&[5, byte, 255 - byte, 0]).unwrap());
        }
        let kinds = [[1, 1, 2, 0], [2, 3, 4, 0], [3, 0, 0, 0], [4, 0, 0, 0], [5, 255, 0, 0]];
        same(&Grammar::from_bytes(kinds.as_flattened()).unwrap());
        let most: Vec<u8> = (0..31).flat_map(|rule| [1, rule, 30 - rule, 0]).collect();
        same(&Grammar::from_bytes(&most).unwrap());
        // A helper rule of `fai` may not be called fail, nor one of `a` as the line `aa`.
        let words = b"fai = ('a-a' / 'b-b' 'c-c' / 'd-d' 'e-e' 'f-f')* 'g-g'; a = 'h-h' / 'i-i'; aa = empty;";
        let grammar = Grammar::from_text(words).unwrap();
        assert!(grammar.rule_names().iter().all(|name| name != "fail" && name != "empty"));
        assert!(grammar.rule_names().contains(&"faim".to_string()));
        same(&grammar);
    }

    #[test]
    fn bad_grammars_are_refused() {
        let number = |refused: Result<Grammar, Error>| refused.unwrap_err().refusal().unwrap().number();
        assert_eq!(number(Grammar::from_bytes(&[])), 11);
        assert_eq!(number(Grammar::from_bytes(&[1, 0, 1, 0])), 12);
        assert_eq!(number(Grammar::from_text(b"a = ;")), 15);
        assert_eq!(
            number(Grammar::from_text(&b"a = ('x-x' / 'y-y')* ('z-z' 'x-x')* 'y-y'+ 'z-z'+ 'q-q'+ 'r-r'+;"[..])),
            16
        );
        assert_eq!(number(Grammar::from_text(b"a = (((((((((((((((((.)))))))))))))))));")), 17);
    }
}
