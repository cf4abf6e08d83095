//! The twin's scanner: the text that it was lent, and how far it has read.

/// A range is a quote, its low byte, a minus, its high byte and a quote.
const RANGE_BYTES: usize = 5;

#[derive(Clone, Copy, PartialEq, Eq)]
pub(super) enum Token<'a> {
    Name(&'a [u8]),
    Any,
    Empty,
    Fail,
    Range(u8, u8),
    Not,
    And,
    Star,
    Plus,
    Optional,
    Slash,
    Opening,
    Closing,
    Equals,
    Semicolon,
    Unknown,
}

impl Token<'_> {
    /// Whether a part of a sequence begins with it.
    pub fn begins_part(self) -> bool {
        use Token::*;
        matches!(self, Name(_) | Any | Empty | Fail | Range(..) | Not | And | Opening)
    }
}

pub(super) struct Reader<'a> {
    text: &'a [u8],
    at: usize,
}

impl<'a> Reader<'a> {
    pub fn new(text: &'a [u8]) -> Self {
        Reader { text, at: 0 }
    }

    /// The next token, which stays unread.
    pub fn peek(&self) -> Option<Token<'a>> {
        Reader { ..*self }.next().map(|(_, token)| token)
    }

    /// The name that a line begins with: no other token is read.
    pub fn line_name(&mut self) -> Option<&'a [u8]> {
        self.skip();
        let name = letters(self.text.get(self.at..)?);
        self.at += name.len();
        is_name(name).then_some(name)
    }

    /// Passes the rest of a line, its semicolon included.
    pub fn pass_line(&mut self) {
        self.at = after_line(self.text, self.at);
    }

    /// The next name with its offset: no other token is read.
    pub fn next_name(&mut self) -> Option<(usize, &'a [u8])> {
        loop {
            self.at = next_letter(self.text, self.at);
            let offset = self.at;
            let word = letters(self.text.get(offset..)?);
            if word.is_empty() {
                return None;
            }
            self.at += word.len();
            if is_name(word) {
                return Some((offset, word));
            }
        }
    }

    #[inline]
    fn skip(&mut self) {
        while let Some(b' ' | b'\n') = self.text.get(self.at) {
            self.at += 1;
        }
    }
}

impl<'a> Iterator for Reader<'a> {
    type Item = (usize, Token<'a>);

    #[inline]
    fn next(&mut self) -> Option<(usize, Token<'a>)> {
        self.skip();
        let offset = self.at;
        let (token, width) = token_of(self.text.get(offset..)?)?;
        self.at += width;
        Some((offset, token))
    }
}

/// The place after the next semicolon that is in no range, or the text's end: byte by byte, but a range at once.
#[inline]
fn after_line(text: &[u8], mut at: usize) -> usize {
    while let Some(&byte) = text.get(at) {
        at += match byte {
            b';' => return at + 1,
            b'\'' if range_of(&text[at..]).is_some() => RANGE_BYTES,
            _ => 1,
        };
    }
    at
}

/// The place of the next letter that is in no range, or the text's end.
#[inline]
fn next_letter(text: &[u8], mut at: usize) -> usize {
    while let Some(&byte) = text.get(at) {
        at += match byte {
            b'a'..=b'z' => return at,
            b'\'' if range_of(&text[at..]).is_some() => RANGE_BYTES,
            _ => 1,
        };
    }
    at
}

/// The letters at the front.
#[inline]
fn letters(text: &[u8]) -> &[u8] {
    let end = text.iter().position(|byte| !byte.is_ascii_lowercase()).unwrap_or(text.len());
    &text[..end]
}

/// Whether letters are a name: some, and no reserved word.
#[inline]
fn is_name(letters: &[u8]) -> bool {
    !letters.is_empty() && letters != b"empty" && letters != b"fail"
}

/// The low and the high byte of a range at the front.
#[inline]
fn range_of(text: &[u8]) -> Option<(u8, u8)> {
    match *text {
        [b'\'', low, b'-', high, b'\'', ..] => Some((low, high)),
        _ => None,
    }
}

/// The token at the front, and how many bytes it has.
#[inline]
fn token_of(text: &[u8]) -> Option<(Token<'_>, usize)> {
    let &byte = text.first()?;
    if byte.is_ascii_lowercase() {
        let letters = letters(text);
        return Some((word(letters), letters.len()));
    }
    if let Some((low, high)) = range_of(text) {
        return Some((Token::Range(low, high), RANGE_BYTES));
    }
    Some((sign(byte), 1))
}

fn word(letters: &[u8]) -> Token<'_> {
    match letters {
        b"empty" => Token::Empty,
        b"fail" => Token::Fail,
        _ => Token::Name(letters),
    }
}

fn sign(byte: u8) -> Token<'static> {
    match byte {
        b'=' => Token::Equals,
        b';' => Token::Semicolon,
        b'/' => Token::Slash,
        b'(' => Token::Opening,
        b')' => Token::Closing,
        b'.' => Token::Any,
        b'!' => Token::Not,
        b'&' => Token::And,
        b'*' => Token::Star,
        b'+' => Token::Plus,
        b'?' => Token::Optional,
        _ => Token::Unknown,
    }
}
