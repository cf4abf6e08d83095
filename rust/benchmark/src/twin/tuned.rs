//! The twin's judge tuned by hand: the same answers, notes and work cells by one loop whose record is local variables.
//!
//! It shows how fast safe Rust gets with effort, where the other form takes the library's steps one by one.
//! - It has no modes: unwinding is a loop of its own, and every other case leads straight to the next look.
//! - Kept with the record: where the rules of the class under the head begin, and the newest open configuration's number.
//! - What a branch decides is not selected: the processor goes on with the next rule while the branch is still open.
//!
//! It has two ways to hold the open configurations, and is measured with both.
use super::cells::{head_told, open_note, symbol_told, was_pushed, CLOSED, ENDLESS, NEW, OPEN_BIT};
use super::judge::judge_by;
use super::machine::Machine;
use super::opens::{Links, Opens, Stack};
use sejimakpu::{Config, Error, Judged, Verdict};

/// Kinds of rule, and the directions of a move; a pop's 1 returns.
const CHANGE: u32 = 1;
const PUSH: u32 = 2;
const POP: u32 = 3;
const HALT: u32 = 4;
const RIGHT: u32 = 1;
const LEFT: u32 = 2;
const RETURNS: u32 = 1;

/// Judges a capture by an image, as [`sejimakpu::judge`] does, with links between the open configurations.
pub fn judge_tuned(image: &[u8], capture: &[u8], notes: &mut [u32], work: &mut [u32]) -> Result<Judged, Error> {
    judge_by(run::<Links>, image, capture, notes, work)
}

/// The same with a stack of them, which is as fast as we could make it.
pub fn judge_fastest(image: &[u8], capture: &[u8], notes: &mut [u32], work: &mut [u32]) -> Result<Judged, Error> {
    judge_by(run::<Stack>, image, capture, notes, work)
}

fn run<O: Opens>(machine: &Machine, notes: &mut [u32], work: &mut [u32]) -> Judged {
    let Machine { capture, class_of, rules, counts, stride, state_rules, .. } = *machine;
    let work = &mut work[..notes.len()];
    let symbols = counts.symbols;
    // Where the rules of the class under a head begin among those of a state.
    let column_under = |head: u32| {
        let class = match capture.get((head as usize).wrapping_sub(1)) {
            Some(&byte) => u32::from(class_of[usize::from(byte)]),
            None => counts.classes + u32::from(head != 0),
        };
        class * symbols
    };
    let moved = |direction: u32, head: u32, column: u32| match direction {
        RIGHT => (head + 1, column_under(head + 1)),
        LEFT => (head - 1, column_under(head - 1)),
        _ => (head, column),
    };
    let rule_of =
        |state: u32, column: u32, symbol: u32| rules[(state * state_rules + column + symbol) as usize].map(u32::from);

    let (mut state, mut head, mut symbol, mut pushed) = (0, 0, 0, true);
    let mut column = column_under(0);
    let mut readings = 0;
    let mut opens = O::default();
    loop {
        let number = state * stride + head * symbols + symbol;
        let note = notes[number as usize];
        let (terminator, end, end_column, next, direction);
        if note == NEW {
            readings += 1;
            let rule = rule_of(state, column, symbol);
            match rule[0] {
                // The two arms differ in one number. Made one arm that works the number out, they took 4 percent longer.
                CHANGE => {
                    notes[number as usize] = open_note(head, symbol, pushed);
                    opens.add(number, work);
                    pushed = false;
                    (state, symbol) = (rule[1], rule[2]);
                    (head, column) = moved(rule[3], head, column);
                    continue;
                }
                PUSH => {
                    notes[number as usize] = open_note(head, symbol, pushed);
                    opens.add(number, work);
                    pushed = true;
                    (state, symbol) = (rule[1], rule[2]);
                    (head, column) = moved(rule[3], head, column);
                    continue;
                }
                POP => {
                    terminator = number + CLOSED;
                    notes[number as usize] = terminator;
                    (end, end_column) = (Config { state, head, symbol }, column);
                    (next, direction) = (rule[1], rule[3]);
                }
                kind => {
                    notes[number as usize] = ENDLESS;
                    give_up(opens, notes, work);
                    let verdict = if kind == HALT { Verdict::Halted } else { Verdict::Stuck };
                    return Judged { verdict, readings, end: Config { state, head, symbol } };
                }
            }
        } else if note >= OPEN_BIT {
            give_up(opens, notes, work);
            return Judged { verdict: Verdict::Looping, readings, end: Config { state, head, symbol } };
        } else {
            terminator = note;
            end = machine.config(note - CLOSED);
            end_column = column_under(end.head);
            let rule = rule_of(end.state, end_column, end.symbol);
            (next, direction) = (rule[1], rule[3]);
        }

        // Every configuration that led here gets the terminator, up to the one that was pushed.
        if !pushed {
            let pointer = loop {
                let open = std::mem::replace(&mut notes[opens.newest()], terminator);
                opens.take_off(work);
                if was_pushed(open) {
                    break head_told(open);
                }
            };
            if direction == RETURNS {
                head = pointer;
                column = column_under(head);
            } else {
                (head, column) = (end.head, end_column);
            }
        } else if direction != RETURNS {
            (head, column) = (end.head, end_column);
        }
        state = next;
        if opens.none() {
            return Judged { verdict: machine.verdict(state, head), readings, end };
        }
        symbol = symbol_told(notes[opens.newest()]);
        pushed = false;
    }
}

/// The run is over with configurations open: their notes say so, and their work cells are 0.
#[cold]
#[inline(never)]
fn give_up(mut opens: impl Opens, notes: &mut [u32], work: &mut [u32]) {
    while !opens.none() {
        notes[opens.newest()] = ENDLESS;
        opens.take_off(work);
    }
}
