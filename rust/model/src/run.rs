//! The step-by-step run, with its stack of symbols and pointers.

use crate::answer::{Config, Verdict};
use crate::machine::{Machine, Rule};

#[derive(Clone, Copy, Debug)]
pub struct Entry {
    pub symbol: usize,
    pub pointer: usize,
}

/// A run somewhere on its way: there is at least one entry.
pub struct Run<'a> {
    pub machine: Machine<'a>,
    pub capture: &'a [u8],
    pub state: usize,
    pub head: usize,
    pub stack: Vec<Entry>,
}

/// What a step did.
pub enum Step {
    /// There is no rule: no step was taken.
    Stuck,
    /// The rule halts the run: no step was taken either.
    Halted,
    Changed,
    Pushed,
    /// The top entry was removed and another is on top now.
    Popped,
    /// The last entry was removed: accepted or ended.
    Over(Verdict),
}

impl<'a> Run<'a> {
    pub fn start(machine: Machine<'a>, capture: &'a [u8]) -> Self {
        Run { machine, capture, state: 0, head: 0, stack: vec![Entry { symbol: 0, pointer: 0 }] }
    }

    fn top(&self) -> Entry {
        *self.stack.last().expect("a run on its way has an entry")
    }

    pub fn config(&self) -> Config {
        Config { state: self.state, head: self.head, symbol: self.top().symbol }
    }

    /// The rule that the next step will follow.
    pub fn rule(&self) -> Rule {
        self.machine.rule(self.capture, self.config())
    }

    pub fn step(&mut self) -> Step {
        match self.rule() {
            Rule::None => Step::Stuck,
            Rule::Halt => Step::Halted,
            Rule::Change { state, symbol, go } => {
                let pointer = self.top().pointer;
                self.stack.pop();
                self.stack.push(Entry { symbol, pointer });
                (self.state, self.head) = (state, go.from(self.head));
                Step::Changed
            }
            Rule::Push { state, symbol, go } => {
                (self.state, self.head) = (state, go.from(self.head));
                self.stack.push(Entry { symbol, pointer: self.head });
                Step::Pushed
            }
            Rule::Pop { state, returns } => {
                if returns {
                    self.head = self.top().pointer;
                }
                self.state = state;
                self.stack.pop();
                if self.stack.is_empty() {
                    Step::Over(verdict_at_end(&self.machine, self.capture, self.state, self.head))
                } else {
                    Step::Popped
                }
            }
        }
    }
}

/// The last entry is gone: accepted in a final state at the right marker, else ended.
pub fn verdict_at_end(machine: &Machine, capture: &[u8], state: usize, head: usize) -> Verdict {
    if machine.is_final(state) && head == capture.len() + 1 {
        Verdict::Accepted
    } else {
        Verdict::Ended
    }
}
