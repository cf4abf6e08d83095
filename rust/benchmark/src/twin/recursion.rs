//! The twin's checks for left recursion: a set of rules is the bits of a number.
use super::build::check_grammar;
use super::check::refused;
use super::read::{read_lines, Line, MAX_RULES};
use sejimakpu::{Error, Reason, Refusal};

/// One bit a rule, and one to spare.
const ROWS: usize = u32::BITS as usize;

/// The rules that may match nothing. A round that finds none more is the last. Parts stand behind what they are parts of, or
/// before it: so the rounds go from the last rule to the first and from the first to the last, in turns.
fn matching_nothing(rules: &[[u8; 4]]) -> u32 {
    let numbered = || rules.iter().enumerate();
    let mut nothing = round(0, numbered().rev());
    loop {
        let known = nothing;
        nothing = round(known, numbered());
        if nothing == known {
            return nothing;
        }
        let known = nothing;
        nothing = round(known, numbered().rev());
        if nothing == known {
            return nothing;
        }
    }
}

/// Each rule once, by those that are known when its turn comes.
fn round<'a>(known: u32, rules: impl Iterator<Item = (usize, &'a [u8; 4])>) -> u32 {
    rules.fold(known, |known, (rule, &[kind, b, c, _])| {
        let may = match kind {
            1 => known >> b & known >> c,
            2 => known >> b | known >> c,
            3 | 4 => 1,
            _ => 0,
        };
        known | (may & 1) << rule
    })
}

/// Where a rule leads in one step.
fn leads_to([kind, b, c, _]: [u8; 4], nothing: u32) -> u32 {
    match kind {
        1 => 1 << b | (nothing >> b & 1) << c,
        2 => 1 << b | 1 << c,
        3 => 1 << b,
        _ => 0,
    }
}

/// The lowest rule that leads back to itself: Warshall's closure, a row at once, and then its diagonal.
fn lowest(rules: &[[u8; 4]]) -> Option<usize> {
    let nothing = matching_nothing(rules);
    let mut leads = [0; ROWS];
    for (row, &rule) in leads.iter_mut().zip(rules) {
        *row = leads_to(rule, nothing);
    }
    for via in 0..rules.len() {
        let further = leads[via];
        if further != 0 {
            for row in &mut leads {
                *row |= further & (*row >> via & 1).wrapping_neg();
            }
        }
    }
    (0..rules.len()).find(|&rule| leads[rule] >> rule & 1 == 1)
}

/// Checks a grammar, as [`sejimakpu::check_recursion`] does.
pub fn check_recursion(grammar: &[u8]) -> Result<(), Error> {
    match lowest(check_grammar(grammar)?) {
        Some(rule) => Err(refused(Reason::LeftRecursion, rule)),
        None => Ok(()),
    }
}

/// Checks a text, as [`sejimakpu::check_text_recursion`] does. What was read needs no check of its rules.
pub fn check_text_recursion(text: &[u8]) -> Result<(), Error> {
    let (mut lines, mut count) = ([Line::default(); MAX_RULES], 0);
    let grammar = read_lines(text, |line| {
        lines[count] = line;
        count += 1;
    })?;
    let Some(rule) = lowest(grammar.rules()) else { return Ok(()) };
    let own = lines[..count].get(rule);
    let line = own.or_else(|| lines.iter().find(|line| rule < line.end)).expect("each rule is of a line");
    Err(Refusal::new(Reason::LeftRecursion, rule).with_name(line.name).into())
}
