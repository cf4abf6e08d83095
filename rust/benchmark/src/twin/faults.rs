//! The twin's check of a text: refusals 15 and 17, by a pass that counts brackets, and then names that no line defines.
use super::check::refused;
use super::tokens::{Reader, Token};
use sejimakpu::{Error, Reason};

const MAX_OPENED: u32 = 16;

/// Where in a text: a line begins, its = must come, or an expression goes on with so many brackets open.
#[derive(Clone, Copy)]
enum Spot {
    Line,
    Equals,
    Inside { complete: bool, opened: u32 },
}

impl Spot {
    /// Where a token leads to, but for a name at a line's start.
    fn after(self, token: Token) -> Result<Spot, Reason> {
        match (self, token) {
            (Spot::Line, Token::Name(_)) => Ok(Spot::Equals),
            (Spot::Equals, Token::Equals) => Ok(Spot::Inside { complete: false, opened: 0 }),
            (Spot::Inside { complete, opened }, token) => inside(complete, opened, token),
            _ => Err(Reason::TextSyntax),
        }
    }
}

fn inside(complete: bool, opened: u32, token: Token) -> Result<Spot, Reason> {
    use Token::*;
    let go_on = |complete, opened| Ok(Spot::Inside { complete, opened });
    match token {
        Name(_) | Any | Empty | Fail | Range(..) => go_on(true, opened),
        Not | And => go_on(false, opened),
        Star | Plus | Optional if complete => go_on(true, opened),
        Slash if complete => go_on(false, opened),
        Opening if opened < MAX_OPENED => go_on(false, opened + 1),
        Opening => Err(Reason::TextDepth),
        Closing if complete && opened > 0 => go_on(true, opened - 1),
        Semicolon if complete && opened == 0 => Ok(Spot::Line),
        _ => Err(Reason::TextSyntax),
    }
}

/// The number of the line that begins with a name, in a text whose lines are right: only their first tokens are read.
pub(super) fn line_of(text: &[u8], name: &[u8]) -> Option<u32> {
    let mut reader = Reader::new(text);
    let mut line = 0;
    while let Some(head) = reader.line_name() {
        if head == name {
            return Some(line);
        }
        reader.pass_line();
        line += 1;
    }
    None
}

/// How many lines a text has that is right; else its first refusal, but for 16.
pub(super) fn check_text(text: &[u8]) -> Result<u32, Error> {
    let mut spot = Spot::Line;
    let mut lines = 0;
    for (offset, token) in Reader::new(text) {
        if let (Spot::Line, Token::Name(name)) = (spot, token) {
            if line_of(&text[..offset], name).is_some() {
                return Err(refused(Reason::TextSyntax, offset));
            }
            lines += 1;
        }
        spot = spot.after(token).map_err(|reason| refused(reason, offset))?;
    }
    match spot {
        Spot::Line if lines > 0 => check_names(text).map(|()| lines),
        _ => Err(refused(Reason::TextSyntax, text.len())),
    }
}

fn check_names(text: &[u8]) -> Result<(), Error> {
    let mut reader = Reader::new(text);
    while let Some((offset, name)) = reader.next_name() {
        if line_of(text, name).is_none() {
            return Err(refused(Reason::TextSyntax, offset));
        }
    }
    Ok(())
}
