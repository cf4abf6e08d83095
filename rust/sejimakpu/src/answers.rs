//! What the calls answer: verdicts, configurations, and the answers of judging and of the plain run.
use std::fmt;

/// How a run ends, or why it was broken off. Only `Accepted` passes a unit.
#[must_use = "only an accepted capture passes"]
#[non_exhaustive]
#[derive(Clone, Copy, Debug, PartialEq, Eq, Hash)]
pub enum Verdict {
    /// The run removed its last entry, in a final state, with the head at the end of the capture.
    Accepted = 1,
    /// The run removed its last entry otherwise.
    Ended,
    /// The run came to a configuration that has no rule. Where a rule halts it on purpose it is [`Halted`](Self::Halted).
    Stuck,
    /// The run has no end. Never said by [`plain_run`](crate::plain_run), nor of a grammar that passes
    /// [`check_recursion`](crate::check_recursion).
    Looping,
    /// The budget was used up before the run's end. Said by [`plain_run`](crate::plain_run) alone.
    Spent,
    /// A push found no stack cell. Said by [`plain_run`](crate::plain_run) alone.
    Deep,
    /// The run came to a rule that is written to halt it. Never said of a grammar's image, which has no such rule.
    Halted,
}

impl Verdict {
    /// The verdict of a number, if there is one: 1 to 7.
    pub(crate) fn of_number(number: u64) -> Option<Verdict> {
        Some(match number {
            1 => Verdict::Accepted,
            2 => Verdict::Ended,
            3 => Verdict::Stuck,
            4 => Verdict::Looping,
            5 => Verdict::Spent,
            6 => Verdict::Deep,
            7 => Verdict::Halted,
            _ => return None,
        })
    }

    /// The number of the verdict, by which totals are counted.
    pub(crate) fn number(self) -> usize {
        self as usize
    }
}

impl fmt::Display for Verdict {
    fn fmt(&self, f: &mut fmt::Formatter<'_>) -> fmt::Result {
        f.write_str(match self {
            Verdict::Accepted => "accepted",
            Verdict::Ended => "ended",
            Verdict::Stuck => "stuck",
            Verdict::Looping => "looping",
            Verdict::Spent => "spent",
            Verdict::Deep => "deep",
            Verdict::Halted => "halted",
        })
    }
}

/// A surface configuration: state, place of the head (0 is the left marker), symbol on top of the stack.
#[derive(Clone, Copy, Debug, PartialEq, Eq, Hash)]
pub struct Config {
    /// The state.
    pub state: u32,
    /// The place of the head on the tape.
    pub head: u32,
    /// The symbol on top of the stack.
    pub symbol: u32,
}

/// What judging answers.
#[must_use = "only an accepted capture passes"]
#[derive(Clone, Copy, Debug, PartialEq, Eq, Hash)]
pub struct Judged {
    /// Accepted, ended, stuck, looping or halted.
    pub verdict: Verdict,
    /// How many different configurations the run enters.
    pub readings: u32,
    /// The configuration that removed the last entry, the stuck or halting one, or the first to come again.
    pub end: Config,
}

/// What a plain run answers.
#[must_use = "only an accepted capture passes"]
#[derive(Clone, Copy, Debug, PartialEq, Eq, Hash)]
pub struct Ran {
    /// Accepted, ended, stuck, spent, deep or halted.
    pub verdict: Verdict,
    /// The steps taken.
    pub steps: u32,
    /// The configuration reached; after the last entry was removed, the one that removed it.
    pub reached: Config,
}
