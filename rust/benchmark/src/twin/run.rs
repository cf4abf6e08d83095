//! The twin's plain run: step by step, on a stack of lent cells and within a budget.
use super::check::{check, refused};
use super::machine::{Action, Machine};
use sejimakpu::{Config, Error, Ran, Reason, Verdict, MAX_CAPTURE};

/// A cell of the stack holds pointer * CELL_SYMBOLS + symbol.
const CELL_SYMBOLS: u32 = 128;

/// Where a run is. The entry on top is not in a cell: its symbol is `at`'s.
struct Spot {
    at: Config,
    pointer: u32,
    below: usize,
    steps: u32,
}

impl Spot {
    /// Takes one step, or says why there is none after it.
    fn step(&mut self, machine: &Machine, budget: u32, stack: &mut [u32]) -> Option<Verdict> {
        let action = machine.action(self.at);
        match action {
            // It comes before the budget, and takes no step.
            Action::Stop(stop) => return Some(stop.verdict()),
            _ if self.steps == budget => return Some(Verdict::Spent),
            Action::Change(next) => self.at = next,
            Action::Push(next) => {
                if self.below + 1 >= stack.len() {
                    return Some(Verdict::Deep);
                }
                stack[self.below] = self.pointer * CELL_SYMBOLS + self.at.symbol;
                self.below += 1;
                self.at = next;
                self.pointer = next.head;
            }
            Action::Pop { state, returns } => {
                let head = if returns { self.pointer } else { self.at.head };
                if self.below == 0 {
                    self.steps += 1;
                    return Some(machine.verdict(state, head));
                }
                self.below -= 1;
                let cell = stack[self.below];
                self.at = Config { state, head, symbol: cell % CELL_SYMBOLS };
                self.pointer = cell / CELL_SYMBOLS;
            }
        }
        self.steps += 1;
        None
    }
}

/// Runs a machine, as [`sejimakpu::plain_run`] does.
pub fn plain_run(image: &[u8], capture: &[u8], budget: u32, stack: &mut [u32]) -> Result<Ran, Error> {
    check(image)?;
    if capture.len() > MAX_CAPTURE {
        return Err(refused(Reason::CaptureLong, capture.len()));
    }
    if stack.is_empty() {
        return Err(refused(Reason::StackEmpty, 0));
    }
    let machine = Machine::new(image, capture);
    let mut spot = Spot { at: Config { state: 0, head: 0, symbol: 0 }, pointer: 0, below: 0, steps: 0 };
    let verdict = loop {
        if let Some(verdict) = spot.step(&machine, budget, stack) {
            break verdict;
        }
    };
    stack.fill(0);
    Ok(Ran { verdict, steps: spot.steps, reached: spot.at })
}
