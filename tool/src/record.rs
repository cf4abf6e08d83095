//! The record: what is told of each capture and grammar. docs/RECORD.md has the names of its fields.
use crate::hint::Hint;
use crate::version::JudgedBy;
use sejimakpu::{Config, Refusal, Verdict};
use serde::Serialize;
use std::time::SystemTime;

/// How a capture came out, by one grammar or by all of them. A verdict is the library's.
#[derive(Clone, Copy, Debug, PartialEq, Eq, PartialOrd, Ord, Serialize)]
#[serde(rename_all = "lowercase")]
pub enum Outcome {
    Accepted,
    Ended,
    Stuck,
    Looping,
    Halted,
    /// The library refused the grammar, the image or the capture: nothing was judged.
    Refused,
    /// Something could not be read, or no grammar is named for it: nothing was judged.
    Error,
}

impl Outcome {
    pub const ALL: [Outcome; 7] = [
        Outcome::Accepted,
        Outcome::Ended,
        Outcome::Stuck,
        Outcome::Looping,
        Outcome::Halted,
        Outcome::Refused,
        Outcome::Error,
    ];

    pub fn word(self) -> &'static str {
        match self {
            Outcome::Accepted => "accepted",
            Outcome::Ended => "ended",
            Outcome::Stuck => "stuck",
            Outcome::Looping => "looping",
            Outcome::Halted => "halted",
            Outcome::Refused => "refused",
            Outcome::Error => "error",
        }
    }

    /// Whether there is a verdict.
    pub fn is_judged(self) -> bool {
        self < Outcome::Refused
    }
}

/// What was answered, or why nothing was.
#[derive(Clone, Debug)]
pub enum Answer {
    Judged { verdict: Verdict, readings: u32, end: Config, hint: Option<Hint> },
    Refused(Refusal),
    Error(String),
}

impl Answer {
    pub fn outcome(&self) -> Outcome {
        match self {
            Answer::Judged { verdict, .. } => match verdict {
                Verdict::Accepted => Outcome::Accepted,
                Verdict::Ended => Outcome::Ended,
                Verdict::Stuck => Outcome::Stuck,
                Verdict::Looping => Outcome::Looping,
                Verdict::Halted => Outcome::Halted,
                // Judging gives no other.
                _ => Outcome::Error,
            },
            Answer::Refused(_) => Outcome::Refused,
            Answer::Error(_) => Outcome::Error,
        }
    }

    pub fn hint(&self) -> Option<&Hint> {
        match self {
            Answer::Judged { hint, .. } => hint.as_ref(),
            _ => None,
        }
    }
}

/// A capture by one grammar or image.
#[derive(Clone, Debug)]
pub struct Judgement {
    /// The number of the grammar among those that were given.
    pub machine: usize,
    pub answer: Answer,
}

/// A capture, or a thing in the place of one that could not be judged.
#[derive(Clone, Debug)]
pub struct Capture {
    /// Its name as it is shown; none where no capture was found at all.
    pub file: Option<String>,
    pub bytes: Option<u64>,
    /// None where it was not read to its end.
    pub sha256: Option<String>,
    pub judgements: Vec<Judgement>,
    /// Why it was judged by no grammar, where there is none to say so.
    pub error: Option<String>,
    pub time: SystemTime,
}

impl Capture {
    /// Over all grammars: an error first, then a refusal, then the first verdict that is not accepted.
    pub fn outcome(&self) -> Outcome {
        let outcomes = || self.judgements.iter().map(|judgement| judgement.answer.outcome());
        let has = |outcome| outcomes().any(|other| other == outcome);
        if self.error.is_some() || self.judgements.is_empty() || has(Outcome::Error) {
            Outcome::Error
        } else if has(Outcome::Refused) {
            Outcome::Refused
        } else {
            outcomes().find(|&outcome| outcome != Outcome::Accepted).unwrap_or(Outcome::Accepted)
        }
    }

    /// Its name, or words in its place.
    pub fn name(&self) -> &str {
        self.file.as_deref().unwrap_or("(no capture)")
    }

    /// The judgement that the outcome is of.
    pub fn deciding(&self) -> Option<&Judgement> {
        let outcome = self.outcome();
        self.judgements.iter().find(|judgement| judgement.answer.outcome() == outcome)
    }

    /// Of all grammars together.
    pub fn readings(&self) -> u64 {
        let readings = |judgement: &Judgement| match judgement.answer {
            Answer::Judged { readings, .. } => readings.into(),
            _ => 0,
        };
        self.judgements.iter().map(readings).sum()
    }
}

/// How often each outcome was given, and the sum of the readings.
#[derive(Clone, Debug, Default, Serialize)]
pub struct Totals {
    pub captures: u64,
    pub accepted: u64,
    pub ended: u64,
    pub stuck: u64,
    pub looping: u64,
    pub halted: u64,
    pub refused: u64,
    pub error: u64,
    pub readings: u64,
}

impl Totals {
    pub fn add(&mut self, capture: &Capture) {
        self.captures += u64::from(capture.file.is_some());
        *self.count_mut(capture.outcome()) += 1;
        self.readings += capture.readings();
    }

    pub fn of(&self, outcome: Outcome) -> u64 {
        match outcome {
            Outcome::Accepted => self.accepted,
            Outcome::Ended => self.ended,
            Outcome::Stuck => self.stuck,
            Outcome::Looping => self.looping,
            Outcome::Halted => self.halted,
            Outcome::Refused => self.refused,
            Outcome::Error => self.error,
        }
    }

    fn count_mut(&mut self, outcome: Outcome) -> &mut u64 {
        match outcome {
            Outcome::Accepted => &mut self.accepted,
            Outcome::Ended => &mut self.ended,
            Outcome::Stuck => &mut self.stuck,
            Outcome::Looping => &mut self.looping,
            Outcome::Halted => &mut self.halted,
            Outcome::Refused => &mut self.refused,
            Outcome::Error => &mut self.error,
        }
    }
}

/// A grammar or an image as the record names it.
#[derive(Clone, Debug, Serialize)]
pub struct Machine {
    /// Its name as it is shown.
    pub grammar: String,
    pub kind: Kind,
    /// None of an image, which has its own.
    pub matching: Option<&'static str>,
    pub grammar_bytes: Option<usize>,
    pub grammar_sha256: Option<String>,
    /// How many of the 31 rules it has; none of an image.
    pub rules: Option<usize>,
    /// Whether a rule leads back to itself before anything is consumed, so that a capture may be judged looping.
    pub may_loop: Option<bool>,
    /// Number and place of a refusal of this file, and its line and column in a text.
    pub refusal: Option<u32>,
    pub place: Option<usize>,
    pub line: Option<usize>,
    pub column: Option<usize>,
    /// Why it could not be read.
    pub error: Option<String>,
}

impl Machine {
    /// Whether nothing can be judged by it: told once, and not of each capture.
    pub fn is_wrong(&self) -> bool {
        self.refusal.is_some() || self.error.is_some()
    }
}

#[derive(Clone, Copy, Debug, PartialEq, Eq, Serialize)]
#[serde(rename_all = "lowercase")]
pub enum Kind {
    Text,
    Bytes,
    Image,
}

/// All that was judged in one call of the tool.
pub struct Record {
    pub machines: Vec<Machine>,
    pub captures: Vec<Capture>,
    pub totals: Totals,
    pub started: SystemTime,
    pub finished: SystemTime,
    pub judged_by: JudgedBy,
}

/// RFC 3339, in whole seconds of UTC.
pub fn time(time: SystemTime) -> String {
    humantime::format_rfc3339_seconds(time).to_string()
}
