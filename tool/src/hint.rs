//! Why a capture is not accepted: a hint from the notes, never a verdict.
//!
//! The notes say of each rule that was tried at a place how that came out, so that the parse can be gone through again
//! without parsing: a range that failed has removed its own entry, and of any other rule the configuration that removed its
//! entry says whether it matched, and up to where. Of the ranges that failed those at the furthest place are what was
//! expected there. What was tried under an odd count of nots is left out: that it fails is what the grammar asks for.
use crate::shown::{self, Place};
use sejimakpu::{Config, Grammar, Judged, Note, Notes, Rule, Verdict};

/// Where a capture that is not accepted is likely wrong.
#[derive(Clone, Debug, PartialEq, Eq)]
pub struct Hint {
    pub place: Place,
    /// What could have stood there, each in words.
    pub expected: Vec<String>,
    /// What stands there.
    pub found: String,
    /// What is said where nothing can be said to be expected.
    pub remark: Option<String>,
}

/// What stands after the last byte.
const END: &str = "the end of the capture";

/// The states of a grammar's machine: a rule is tried, has matched, has failed.
const WORK: u32 = 1;
const OK: u32 = 2;
const FAIL: u32 = 3;

impl Hint {
    /// For a capture that was judged and not accepted, by a grammar or by an image alone.
    pub fn of(grammar: Option<&Grammar>, capture: &[u8], judged: &Judged, notes: &Notes<'_>) -> Hint {
        let (head, expected, remark) = match grammar {
            Some(grammar) if judged.verdict == Verdict::Looping => {
                (judged.end.head, Vec::new(), Some(circle(grammar, judged.end)))
            }
            Some(grammar) => {
                let (head, expected) = Parse { grammar, notes }.expected(capture, judged);
                (head.unwrap_or_else(|| judged.furthest(notes)), expected, None)
            }
            None => (judged.furthest(notes), Vec::new(), Some(stopped(judged))),
        };
        // Place 1 is the first byte; the left marker, place 0, is shown there too.
        let offset = (head as usize).saturating_sub(1);
        let found = capture.get(offset).map_or(END.into(), |&byte| shown::quoted(byte));
        Hint { place: Place::of(capture, offset), expected, found, remark }
    }

    /// In a line: expected these, found that.
    pub fn words(&self) -> String {
        match &self.remark {
            Some(remark) => format!("{remark}, at {}", self.found),
            None if self.expected.is_empty() => format!("found {}", self.found),
            None => format!("expected {}, found {}", shown::list(&self.expected), self.found),
        }
    }
}

/// A rule that came again before anything was read.
fn circle(grammar: &Grammar, end: Config) -> String {
    let rule = (end.symbol as usize).saturating_sub(1) / 2;
    format!("{} goes round in a circle without reading on", called(grammar, rule))
}

/// Where a machine stopped of which only the image is known.
fn stopped(judged: &Judged) -> String {
    let Config { state, head, symbol } = judged.end;
    format!("the machine came this far; {} at place {head} in state {state} with symbol {symbol}", judged.verdict)
}

/// A rule by the name of its line, or by its number.
fn called(grammar: &Grammar, rule: usize) -> String {
    grammar.name(rule).map_or_else(|| format!("rule {rule}"), String::from)
}

/// How a rule came out at a place.
#[derive(Clone, Copy, PartialEq, Eq)]
enum Result {
    /// It matched up to this place.
    Matched(u32),
    Failed,
    /// It was never tried there, or never came to an end.
    None,
}

struct Parse<'a> {
    grammar: &'a Grammar,
    notes: &'a Notes<'a>,
}

/// A rule that was tried at a place, and whether an odd count of nots stands above it.
#[derive(Clone, Copy)]
struct Tried {
    rule: usize,
    head: u32,
    under_not: bool,
}

impl Parse<'_> {
    /// The furthest place at which something failed that no not asks to fail, and what was expected there.
    fn expected(&self, capture: &[u8], judged: &Judged) -> (Option<u32>, Vec<String>) {
        let mut furthest = Furthest::default();
        // A match that is not the whole capture: it could have ended there.
        if judged.end.state == OK && judged.end.symbol == 0 {
            furthest.add(judged.end.head, END.into());
        }
        let rules: Vec<Rule> = self.grammar.rules().collect();
        let mut seen = vec![false; (capture.len() + 2) * rules.len() * 2];
        let mut next = vec![Tried { rule: 0, head: 1, under_not: false }];
        while let Some(tried) = next.pop() {
            let Tried { rule, head, under_not } = tried;
            let index = (head as usize * rules.len() + rule) * 2 + usize::from(under_not);
            if std::mem::replace(&mut seen[index], true) {
                continue;
            }
            let result = self.result(rules[rule], rule, head);
            if result == Result::Failed && !under_not {
                if let Some(words) = self.wanted(&rules, rule) {
                    furthest.add(head, words);
                }
            }
            match rules[rule] {
                // The first part is taken up next, so that what was expected is told in the parse's order.
                Rule::Sequence(b, c) => {
                    if let Result::Matched(end) = self.result(rules[b], b, head) {
                        next.push(Tried { rule: c, head: end, under_not });
                    }
                    next.push(Tried { rule: b, ..tried });
                }
                Rule::Choice(b, c) => {
                    if self.result(rules[b], b, head) == Result::Failed {
                        next.push(Tried { rule: c, ..tried });
                    }
                    next.push(Tried { rule: b, ..tried });
                }
                Rule::Not(b) => next.push(Tried { rule: b, head, under_not: !under_not }),
                Rule::Empty | Rule::Range(..) => {}
            }
        }
        furthest.told()
    }

    /// How a rule came out, by the note of the configuration that tries it and the state of the one that removes its entry.
    fn result(&self, rule: Rule, number: usize, head: u32) -> Result {
        let Some(Note::RemovedBy(by)) = self.notes.get(Config { state: WORK, head, symbol: 1 + 2 * number as u32 })
        else {
            return Result::None;
        };
        match (rule, by.state) {
            (Rule::Not(_), FAIL) | (Rule::Empty, _) => Result::Matched(head),
            (Rule::Not(_), _) => Result::Failed,
            (_, OK) => Result::Matched(by.head),
            _ => Result::Failed,
        }
    }

    /// What a rule that failed by itself wanted: the bytes of a range, or that something else does not stand here.
    fn wanted(&self, rules: &[Rule], rule: usize) -> Option<String> {
        let name = |words: String| Some(format!("{words} ({})", called(self.grammar, rule)));
        match rules[rule] {
            Rule::Range(low, high) if low <= high => name(shown::range(low, high)),
            Rule::Not(other) => match rules[other] {
                // Two nots are an `&`, whose own ranges are told.
                Rule::Not(_) => None,
                Rule::Range(0, 255) => Some(END.into()),
                Rule::Range(low, high) => name(format!("no {}", shown::range(low, high))),
                // A helper rule of a text has no name of its own.
                _ if self.grammar.lines().is_empty() || other < self.grammar.lines().len() => {
                    name(format!("no {}", called(self.grammar, other)))
                }
                _ => name("something else".into()),
            },
            _ => None,
        }
    }
}

/// What was expected at the furthest place met so far.
#[derive(Default)]
struct Furthest {
    head: u32,
    wanted: Vec<String>,
}

impl Furthest {
    fn add(&mut self, head: u32, words: String) {
        if head > self.head {
            self.head = head;
            self.wanted.clear();
        }
        if head == self.head && !self.wanted.contains(&words) {
            self.wanted.push(words);
        }
    }

    /// Any byte is left out beside others: it is what skips up to them.
    fn told(mut self) -> (Option<u32>, Vec<String>) {
        if self.wanted.iter().any(|words| !words.starts_with("any byte")) {
            self.wanted.retain(|words| !words.starts_with("any byte"));
        }
        ((self.head > 0).then_some(self.head), self.wanted)
    }
}
