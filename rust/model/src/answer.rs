//! What calls answer: refusals, verdicts, configurations.

use std::fmt;

/// A refusal by its number in the document's table, with the place it blames.
#[derive(Clone, Copy, Debug, PartialEq, Eq)]
pub struct Refusal {
    pub number: u32,
    pub place: usize,
}

/// Shorthand for the checks, which are long enough as they are.
pub fn refuse<T>(number: u32, place: usize) -> Result<T, Refusal> {
    Err(Refusal { number, place })
}

impl fmt::Display for Refusal {
    fn fmt(&self, f: &mut fmt::Formatter<'_>) -> fmt::Result {
        write!(f, "refused {} {}", self.number, self.place)
    }
}

#[derive(Clone, Copy, Debug, PartialEq, Eq)]
pub enum Verdict {
    Accepted,
    Ended,
    Stuck,
    Looping,
    Spent,
    Deep,
    Halted,
}

impl fmt::Display for Verdict {
    fn fmt(&self, f: &mut fmt::Formatter<'_>) -> fmt::Result {
        f.write_str(match self {
            Verdict::Accepted => "accepted",
            Verdict::Ended => "ended",
            Verdict::Stuck => "stuck",
            Verdict::Looping => "looping",
            Verdict::Spent => "spent",
            Verdict::Deep => "deep",
            Verdict::Halted => "halted",
        })
    }
}

/// State, head and top symbol.
#[derive(Clone, Copy, Debug, PartialEq, Eq, Hash)]
pub struct Config {
    pub state: usize,
    pub head: usize,
    pub symbol: usize,
}

impl fmt::Display for Config {
    fn fmt(&self, f: &mut fmt::Formatter<'_>) -> fmt::Result {
        write!(f, "{},{},{}", self.state, self.head, self.symbol)
    }
}

/// The answer of judging.
#[derive(Clone, Copy, Debug, PartialEq, Eq)]
pub struct Judged {
    pub verdict: Verdict,
    pub readings: usize,
    pub end: Config,
}

/// The answer of a plain run.
#[derive(Clone, Copy, Debug, PartialEq, Eq)]
pub struct Ran {
    pub verdict: Verdict,
    pub steps: u64,
    pub reached: Config,
}
