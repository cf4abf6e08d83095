//! Judging by the definitions: it walks the run, step by step, with the run's own stack.
//!
//! Nothing learned on the way makes a later part of the walk shorter, so a run of exponential length takes that long;
//! [`judge`] then gives up at its limit, and [`crate::summary`] has to do.

use crate::answer::{Config, Verdict};
use crate::machine::Machine;
use crate::run::{Run, Step};

/// A judged run: verdict, end, and the note of every configuration.
#[derive(Clone, Debug, PartialEq, Eq)]
pub struct Outcome {
    pub verdict: Verdict,
    pub end: Config,
    pub notes: Vec<u32>,
}

/// A walked run: its outcome, and how many steps the walk took to it.
pub struct Walked {
    pub outcome: Outcome,
    pub steps: usize,
}

/// The walk's books. Beside the run's stack lies, for each entry on it, the list of the configurations that were
/// entered while this entry was on top: what removes it is the terminator of all of them.
struct Books {
    notes: Vec<u32>,
    entered_on: Vec<Vec<usize>>,
    /// Whether a configuration is in one of the lists, which is: entered, and the stack not below that entry since.
    listed: Vec<bool>,
}

impl Books {
    /// Notes that a configuration is entered. False if it has come again above its earlier entry.
    fn enter(&mut self, number: usize) -> bool {
        if self.listed[number] {
            return false;
        }
        self.listed[number] = true;
        self.entered_on.last_mut().expect("an entry is on top").push(number);
        if self.notes[number] == 0 {
            self.notes[number] = 1;
        }
        true
    }

    /// The entry on top is removed by this configuration.
    fn remove(&mut self, terminator: usize) {
        for number in self.entered_on.pop().expect("an entry is on top") {
            let note = 2 + terminator as u32;
            assert!(self.notes[number] == 1 || self.notes[number] == note, "two terminators of {number}");
            self.notes[number] = note;
            self.listed[number] = false;
        }
    }

    /// What is still listed when the run is stuck, halted or found to loop has no terminator, this time or any other.
    fn close(&self) {
        for &number in self.entered_on.iter().flatten() {
            assert!(self.notes[number] == 1, "{number} had a terminator and has none now");
        }
    }
}

/// The outcome, or none where the run is longer than the limit.
pub fn judge(machine: Machine, capture: &[u8], limit: usize) -> Option<Walked> {
    let count = machine.configs(capture.len());
    let mut books = Books { notes: vec![0; count], entered_on: vec![Vec::new()], listed: vec![false; count] };
    let mut run = Run::start(machine, capture);
    for steps in 0..=limit {
        let end = run.config();
        let number = machine.number(capture, end);
        let walked = |verdict, books: Books, steps| {
            books.close();
            Some(Walked { outcome: Outcome { verdict, end, notes: books.notes }, steps })
        };
        if !books.enter(number) {
            return walked(Verdict::Looping, books, steps);
        }
        match run.step() {
            Step::Stuck => return walked(Verdict::Stuck, books, steps),
            Step::Halted => return walked(Verdict::Halted, books, steps),
            Step::Over(verdict) => {
                books.remove(number);
                return walked(verdict, books, steps + 1);
            }
            Step::Popped => books.remove(number),
            Step::Pushed => books.entered_on.push(Vec::new()),
            Step::Changed => {}
        }
    }
    None
}
