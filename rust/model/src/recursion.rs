//! Left recursion: which rules may match nothing, where a rule leads, and the lowest that leads back to itself.
//!
//! The request's sentences are taken one by one. Sets are lists of yes and no, filled until nothing changes; where a rule
//! leads in many steps is found by going there.

use crate::answer::{refuse, Refusal};
use crate::grammar::{self, Part};
use crate::text;

/// Whether each rule may match nothing: the least set, from none on. What a round finds, it finds of the round before.
pub fn matching_nothing(grammar: &[Part]) -> Vec<bool> {
    let mut nothing = vec![false; grammar.len()];
    loop {
        let may = |part: &Part| match *part {
            Part::Empty | Part::Not(_) => true,
            Part::Sequence(one, other) => nothing[one] && nothing[other],
            Part::Choice(one, other) => nothing[one] || nothing[other],
            // Also one that has no byte: it fails.
            Part::Byte(..) => false,
        };
        let next: Vec<bool> = grammar.iter().map(may).collect();
        if next == nothing {
            return nothing;
        }
        nothing = next;
    }
}

/// Where a part leads in one step.
pub fn leads_to(part: Part, nothing: &[bool]) -> Vec<usize> {
    match part {
        Part::Sequence(one, other) if nothing[one] => vec![one, other],
        Part::Sequence(one, _) | Part::Not(one) => vec![one],
        Part::Choice(one, other) => vec![one, other],
        Part::Empty | Part::Byte(..) => vec![],
    }
}

/// Whether a rule leads back to itself, in one step or more: all that it leads to is gone through, depth first.
fn leads_back(grammar: &[Part], nothing: &[bool], rule: usize) -> bool {
    let mut met = vec![false; grammar.len()];
    let mut waiting = leads_to(grammar[rule], nothing);
    while let Some(next) = waiting.pop() {
        if !met[next] {
            met[next] = true;
            waiting.extend(leads_to(grammar[next], nothing));
        }
    }
    met[rule]
}

/// The lowest rule that leads back to itself, if one does. From where parsing starts makes no difference.
pub fn lowest(grammar: &[Part]) -> Option<usize> {
    let nothing = matching_nothing(grammar);
    (0..grammar.len()).find(|&rule| leads_back(grammar, &nothing, rule))
}

/// The check of a grammar, refusals 11, 12 and 19.
pub fn check(bytes: &[u8]) -> Result<(), Refusal> {
    match lowest(&grammar::read(bytes)?) {
        Some(rule) => refuse(19, rule),
        None => Ok(()),
    }
}

/// Why a text does not pass. For 19 alone with the offset of the name of the line that the rule is of.
#[derive(Clone, Copy, Debug, PartialEq, Eq)]
pub struct TextRefusal {
    pub refusal: Refusal,
    pub name: Option<usize>,
}

impl From<Refusal> for TextRefusal {
    fn from(refusal: Refusal) -> Self {
        TextRefusal { refusal, name: None }
    }
}

/// The check of a text, refusals 15, 17, 16 and 19.
pub fn check_text(text: &[u8]) -> Result<(), TextRefusal> {
    let typed = text::read(text)?;
    let Err(refusal) = check(&typed.grammar()) else { return Ok(()) };
    let line = typed.line_of_each_rule()[refusal.place];
    Err(TextRefusal { refusal, name: Some(typed.names[line]) })
}
