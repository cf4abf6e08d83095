//! What one case finds, and the count of all cases.

use crate::recursion::Seen;
use model::answer::Verdict;
use std::collections::BTreeMap;
use std::fmt::Write;
use std::time::{Duration, Instant};

/// How many differing cases are printed. More of them seldom say more.
const PRINTED: usize = 10;

/// How many bytes of an input are printed. A longer one is made again from its seed and number.
const SHOWN: usize = 4096;

/// The differences of one case, in words, and what its runs were like.
#[derive(Default)]
pub struct Findings {
    pub differences: Vec<String>,
    pub verdicts: Vec<Verdict>,
    /// The readings of each judging.
    pub readings: Vec<usize>,
    /// How many judgings were walked too, and how many of these took more steps than readings.
    pub walked: usize,
    pub repeating: usize,
    pub parsed: usize,
    pub recursion: Seen,
}

impl Findings {
    /// Notes a difference, if there is one, with the inputs that show it.
    pub fn note(&mut self, difference: Option<String>, inputs: &[(&str, &[u8])]) {
        if let Some(mut text) = difference {
            for (name, bytes) in inputs {
                write!(text, "\n    {name} ({} bytes): {}", bytes.len(), hex(bytes)).unwrap();
            }
            self.differences.push(text);
        }
    }
}

pub fn hex(bytes: &[u8]) -> String {
    let mut text: String = bytes.iter().take(SHOWN).map(|byte| format!("{byte:02x}")).collect();
    if bytes.len() > SHOWN {
        text.push_str("..");
    }
    text
}

/// The count of one kind of case.
#[derive(Default)]
struct Count {
    cases: usize,
    failed: usize,
    verdicts: BTreeMap<String, usize>,
    judgings: usize,
    readings: usize,
    walked: usize,
    repeating: usize,
    parsed: usize,
    recursion: Seen,
    time: Duration,
}

/// The count of all cases, kind by kind.
pub struct Tally {
    kinds: Vec<(&'static str, Count)>,
    started: Instant,
}

impl Tally {
    pub fn start() -> Self {
        Tally { kinds: Vec::new(), started: Instant::now() }
    }

    fn count(&mut self, kind: &'static str) -> &mut Count {
        let at = self.kinds.iter().position(|(name, _)| *name == kind).unwrap_or_else(|| {
            self.kinds.push((kind, Count::default()));
            self.kinds.len() - 1
        });
        &mut self.kinds[at].1
    }

    /// Counts a case; a differing one is printed with what it takes to see it again.
    pub fn add(&mut self, kind: &'static str, case: &str, found: Findings, time: Duration) {
        let failed_before = self.failed();
        let count = self.count(kind);
        count.cases += 1;
        count.judgings += found.readings.len();
        count.readings += found.readings.iter().sum::<usize>();
        count.walked += found.walked;
        count.repeating += found.repeating;
        count.parsed += found.parsed;
        count.recursion.add(&found.recursion);
        count.time += time;
        for verdict in &found.verdicts {
            *count.verdicts.entry(verdict.to_string()).or_default() += 1;
        }
        if found.differences.is_empty() {
            return;
        }
        count.failed += 1;
        if failed_before < PRINTED {
            println!("DIFFERS: {kind} {case}");
            for difference in &found.differences {
                println!("  {difference}");
            }
        }
    }

    pub fn failed(&self) -> usize {
        self.kinds.iter().map(|(_, count)| count.failed).sum()
    }

    pub fn cases(&self) -> usize {
        self.kinds.iter().map(|(_, count)| count.cases).sum()
    }

    /// How many runs of one kind had this verdict.
    pub fn runs(&mut self, kind: &'static str, verdict: Verdict) -> usize {
        self.count(kind).verdicts.get(&verdict.to_string()).copied().unwrap_or(0)
    }

    /// What the checks for left recursion of one kind came to.
    pub fn recursion(&mut self, kind: &'static str) -> Seen {
        self.count(kind).recursion.clone()
    }

    /// The counts, and as the last line those of all kinds together.
    pub fn print(&self) {
        for (name, count) in &self.kinds {
            let mut line = format!("{name}: {} cases, {:.1} s", count.cases, count.time.as_secs_f64());
            for (verdict, runs) in &count.verdicts {
                write!(line, ", {runs} {verdict}").unwrap();
            }
            if let Some(mean) = count.readings.checked_div(count.judgings) {
                write!(line, "; {} judged with {mean} readings on average", count.judgings).unwrap();
                write!(line, ", {} of them walked, {} entering something twice", count.walked, count.repeating)
                    .unwrap();
            }
            if count.parsed > 0 {
                write!(line, "; {} parsed", count.parsed).unwrap();
            }
            if let Some(words) = count.recursion.words() {
                write!(line, "; {words}").unwrap();
            }
            println!("{line}");
        }
        println!("{:.1} s in all", self.started.elapsed().as_secs_f64());
        println!("{} passed, {} failed", self.cases() - self.failed(), self.failed());
    }
}
