//! The plain run: budget and number of stack cells, and what stops it first.

use crate::answer::{Ran, Verdict};
use crate::machine::{Machine, Rule};
use crate::run::{Run, Step};

/// Before each step: stuck or halted first, then spent, then deep.
pub fn run(machine: Machine, capture: &[u8], budget: u32, cells: usize) -> Ran {
    let mut run = Run::start(machine, capture);
    let mut steps: u64 = 0;
    loop {
        let (reached, rule) = (run.config(), run.rule());
        let answer = |verdict, steps| Ran { verdict, steps, reached };
        match rule {
            Rule::None => return answer(Verdict::Stuck, steps),
            Rule::Halt => return answer(Verdict::Halted, steps),
            Rule::Change { .. } | Rule::Push { .. } | Rule::Pop { .. } => {}
        }
        if steps == budget as u64 {
            return answer(Verdict::Spent, steps);
        }
        if matches!(rule, Rule::Push { .. }) && run.stack.len() == cells {
            return answer(Verdict::Deep, steps);
        }
        steps += 1;
        // After the last removal no configuration is entered: the removing one is the one reached.
        if let Step::Over(verdict) = run.step() {
            return answer(verdict, steps);
        }
    }
}
