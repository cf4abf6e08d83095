//! The twin's judge: the same notes, work cells and modes as the library's, the record changed in place.
//!
//! What a step does is inlined into the loop: a call would keep the record in memory.
use super::cells::{head_told, open_note, symbol_told, was_pushed, CLOSED, ENDLESS, NEW, OPEN_BIT};
use super::check::check;
use super::machine::{Action, Machine};
use sejimakpu::{Config, Error, Judged, Reason, Refusal, Verdict, MAX_CAPTURE};

const START: Config = Config { state: 0, head: 0, symbol: 0 };

#[derive(Clone, Copy)]
enum Mode {
    Look,
    Unwind,
    Clear(Verdict),
    Done(Verdict),
}

/// `at` is the configuration looked at; while unwinding, the terminator; then the end configuration.
struct Record {
    mode: Mode,
    at: Config,
    /// The number of `at`.
    number: u32,
    /// Whether the entry on top was pushed on the way to `at`.
    pushed: bool,
    /// How many configurations are open: as many work cells hold their numbers, the newest last.
    depth: usize,
    readings: u32,
}

impl Record {
    fn start() -> Self {
        Record { mode: Mode::Look, at: START, number: 0, pushed: true, depth: 0, readings: 0 }
    }

    #[inline(always)]
    fn step(&mut self, machine: &Machine, notes: &mut [u32], work: &mut [u32]) {
        match self.mode {
            Mode::Look => self.look(machine, notes, work),
            Mode::Unwind => self.unwind(machine, notes, work),
            Mode::Clear(verdict) => self.clear(verdict, notes, work),
            Mode::Done(_) => {}
        }
    }

    #[inline(always)]
    fn look(&mut self, machine: &Machine, notes: &mut [u32], work: &mut [u32]) {
        let note = notes[self.number as usize];
        if note == NEW {
            self.readings += 1;
            match machine.action(self.at) {
                Action::Stop(stop) => {
                    self.open(notes, work);
                    self.mode = Mode::Clear(stop.verdict());
                }
                Action::Change(next) => {
                    self.open(notes, work);
                    self.go_on(machine, next, false);
                }
                Action::Push(next) => {
                    self.open(notes, work);
                    self.go_on(machine, next, true);
                }
                Action::Pop { state, .. } => self.popping(machine, state, notes, work),
            }
        } else if note >= OPEN_BIT {
            self.mode = Mode::Clear(Verdict::Looping);
        } else {
            let pointer = self.at.head;
            self.number = note - CLOSED;
            self.at = machine.config(self.number);
            if self.pushed {
                self.resume(machine, pointer, notes, work);
            } else {
                self.mode = Mode::Unwind;
            }
        }
    }

    /// The configuration looked at is open now, and on top of the stack.
    #[inline]
    fn open(&mut self, notes: &mut [u32], work: &mut [u32]) {
        notes[self.number as usize] = open_note(self.at.head, self.at.symbol, self.pushed);
        work[self.depth] = self.number;
        self.depth += 1;
    }

    /// The next configuration is looked at.
    #[inline]
    fn go_on(&mut self, machine: &Machine, next: Config, pushed: bool) {
        self.number = machine.moved_number(self.number, self.at, next);
        self.at = next;
        self.pushed = pushed;
    }

    /// A configuration that pops is its own terminator; where it was pushed its head is the entry's pointer.
    #[inline]
    fn popping(&mut self, machine: &Machine, state: u32, notes: &mut [u32], work: &[u32]) {
        notes[self.number as usize] = self.number + CLOSED;
        if self.pushed {
            let row = machine.row_of(self.number, self.at);
            self.popped(machine, row, state, self.at.head, notes, work);
        } else {
            self.mode = Mode::Unwind;
        }
    }

    /// The newest open configuration gets its terminator.
    #[inline(always)]
    fn unwind(&mut self, machine: &Machine, notes: &mut [u32], work: &mut [u32]) {
        self.depth -= 1;
        let newest = std::mem::take(&mut work[self.depth]);
        let note = std::mem::replace(&mut notes[newest as usize], self.number + CLOSED);
        if was_pushed(note) {
            self.resume(machine, head_told(note), notes, work);
        }
    }

    /// The terminator pops an entry with this pointer.
    ///
    /// A return has its own arm: chosen by a value and not by a branch, the head would wait for the rule.
    #[inline(always)]
    fn resume(&mut self, machine: &Machine, pointer: u32, notes: &[u32], work: &[u32]) {
        let Action::Pop { state, returns } = machine.action(self.at) else {
            unreachable!("a terminator pops");
        };
        if returns {
            self.popped(machine, pointer * machine.counts.symbols, state, pointer, notes, work);
        } else {
            let row = machine.row_of(self.number, self.at);
            self.popped(machine, row, state, self.at.head, notes, work);
        }
    }

    /// The terminator popped an entry, with this state and head then: the newest open configuration resumes; with none
    /// open the run is over.
    #[inline]
    fn popped(&mut self, machine: &Machine, row: u32, state: u32, head: u32, notes: &[u32], work: &[u32]) {
        self.pushed = false;
        if self.depth == 0 {
            self.mode = Mode::Done(machine.verdict(state, head));
        } else {
            let symbol = symbol_told(notes[work[self.depth - 1] as usize]);
            self.mode = Mode::Look;
            self.at = Config { state, head, symbol };
            self.number = machine.in_row(row, state, symbol);
        }
    }

    /// The newest open configuration has no terminator, and its note says no more; after the last the verdict stands.
    fn clear(&mut self, verdict: Verdict, notes: &mut [u32], work: &mut [u32]) {
        self.depth -= 1;
        let newest = std::mem::take(&mut work[self.depth]);
        notes[newest as usize] = ENDLESS;
        if self.depth == 0 {
            self.mode = Mode::Done(verdict);
        }
    }
}

/// What judges in cleared cells, as many as there are configurations.
pub(super) type Run = fn(&Machine, &mut [u32], &mut [u32]) -> Judged;

/// Judges a capture by an image, as [`sejimakpu::judge`] does.
pub fn judge(image: &[u8], capture: &[u8], notes: &mut [u32], work: &mut [u32]) -> Result<Judged, Error> {
    judge_by(run, image, capture, notes, work)
}

/// Checks what it is given, clears the cells, and runs.
#[inline(always)]
pub(super) fn judge_by(
    run: Run,
    image: &[u8],
    capture: &[u8],
    notes: &mut [u32],
    work: &mut [u32],
) -> Result<Judged, Error> {
    check(image)?;
    judge_capture(run, image, capture, notes, work).map_err(Error::from)
}

/// Judges by an image that has passed its check.
#[inline(always)]
pub(super) fn judge_capture(
    run: Run,
    image: &[u8],
    capture: &[u8],
    notes: &mut [u32],
    work: &mut [u32],
) -> Result<Judged, Refusal> {
    if capture.len() > MAX_CAPTURE {
        return Err(Refusal::new(Reason::CaptureLong, capture.len()));
    }
    let machine = Machine::new(image, capture);
    let cells = machine.configurations();
    let notes = notes.get_mut(..cells).ok_or_else(|| Refusal::new(Reason::NotesShort, cells))?;
    let work = work.get_mut(..cells).ok_or_else(|| Refusal::new(Reason::WorkShort, cells))?;
    Ok(cleared(run, &machine, notes, work))
}

/// Judges by what has passed its checks, in exactly as many cells as there are configurations.
pub(super) fn judge_checked(image: &[u8], capture: &[u8], notes: &mut [u32], work: &mut [u32]) -> Judged {
    cleared(run, &Machine::new(image, capture), notes, work)
}

#[inline(always)]
fn cleared(run: Run, machine: &Machine, notes: &mut [u32], work: &mut [u32]) -> Judged {
    notes.fill(0);
    work.fill(0);
    run(machine, notes, work)
}

pub(super) fn run(machine: &Machine, notes: &mut [u32], work: &mut [u32]) -> Judged {
    let mut record = Record::start();
    loop {
        if let Mode::Done(verdict) = record.mode {
            return Judged { verdict, readings: record.readings, end: record.at };
        }
        record.step(machine, notes, work);
    }
}
