//! The tokens of a text, each with its offset.

use super::{Prefix, Suffix};

#[derive(Clone, Copy, Debug, PartialEq, Eq)]
pub enum Token<'a> {
    Name(&'a [u8]),
    Any,
    Empty,
    Fail,
    Range(u8, u8),
    Prefix(Prefix),
    Suffix(Suffix),
    Slash,
    Open,
    Close,
    Equals,
    Semicolon,
    /// A byte with which no token begins.
    None,
}

/// What is left of a text.
pub struct Tokens<'a> {
    text: &'a [u8],
    at: usize,
}

pub fn of(text: &[u8]) -> Tokens<'_> {
    Tokens { text, at: 0 }
}

impl<'a> Iterator for Tokens<'a> {
    type Item = (usize, Token<'a>);

    fn next(&mut self) -> Option<Self::Item> {
        let blank = |byte: &&u8| matches!(byte, b' ' | b'\n');
        self.at += self.text[self.at..].iter().take_while(blank).count();
        let (offset, rest) = (self.at, &self.text[self.at..]);
        let (token, width) = first(rest)?;
        self.at += width;
        Some((offset, token))
    }
}

/// The first token of a text that does not begin with a blank, and how many bytes it has.
fn first(text: &[u8]) -> Option<(Token<'_>, usize)> {
    let letters = text.iter().take_while(|byte| byte.is_ascii_lowercase()).count();
    Some(match text {
        [] => return None,
        _ if letters > 0 => (word(&text[..letters]), letters),
        &[b'\'', low, b'-', high, b'\'', ..] => (Token::Range(low, high), 5),
        [byte, ..] => (sign(*byte), 1),
    })
}

fn word(letters: &[u8]) -> Token<'_> {
    match letters {
        b"empty" => Token::Empty,
        b"fail" => Token::Fail,
        name => Token::Name(name),
    }
}

fn sign(byte: u8) -> Token<'static> {
    match byte {
        b'.' => Token::Any,
        b'!' => Token::Prefix(Prefix::Not),
        b'&' => Token::Prefix(Prefix::And),
        b'*' => Token::Suffix(Suffix::Star),
        b'+' => Token::Suffix(Suffix::Plus),
        b'?' => Token::Suffix(Suffix::Optional),
        b'/' => Token::Slash,
        b'(' => Token::Open,
        b')' => Token::Close,
        b'=' => Token::Equals,
        b';' => Token::Semicolon,
        _ => Token::None,
    }
}
