//! The twin's machine: a view of a checked image and a capture that says what each configuration does.
use super::cells::Reciprocal;
use super::check::{Counts, MAP, RULES};
use sejimakpu::{Config, Verdict};

/// Why a rule stops a run: there is none, or it is written to halt it.
pub(super) enum Stop {
    Missing,
    Halting,
}

impl Stop {
    fn of(kind: u8) -> Self {
        if kind == 4 {
            Stop::Halting
        } else {
            Stop::Missing
        }
    }

    pub fn verdict(self) -> Verdict {
        match self {
            Stop::Missing => Verdict::Stuck,
            Stop::Halting => Verdict::Halted,
        }
    }
}

/// What a configuration's rule does. A change and a push name the configuration that they lead to.
pub(super) enum Action {
    Stop(Stop),
    Change(Config),
    Push(Config),
    Pop { state: u32, returns: bool },
}

/// Configurations are numbered by state, then by head, then by symbol.
pub(super) struct Machine<'a> {
    pub capture: &'a [u8],
    pub class_of: &'a [u8; 256],
    pub rules: &'a [[u8; 4]],
    pub counts: Counts,
    pub places: u32,
    /// How many configurations one state has, and how many rules.
    pub stride: u32,
    pub state_rules: u32,
    // A stride is at most 65,537 * 128, and a number below 32 strides: times the symbols it is below 2^36, times the
    // stride below 2^52.
    by_symbols: Reciprocal<36>,
    by_stride: Reciprocal<52>,
}

impl<'a> Machine<'a> {
    /// The machine of an image that has passed its check.
    ///
    /// Not inlined: a compiler that sees of what the products are made multiplies by one factor after the other again.
    #[inline(never)]
    pub fn new(image: &'a [u8], capture: &'a [u8]) -> Self {
        let (map, rules) = image[MAP..].split_at(RULES - MAP);
        let counts = Counts::of(image);
        let places = capture.len() as u32 + 2;
        let stride = places * counts.symbols;
        Machine {
            capture,
            class_of: map.try_into().expect("the map has 256 bytes"),
            rules: rules.as_chunks().0,
            counts,
            places,
            stride,
            state_rules: counts.columns() * counts.symbols,
            by_symbols: Reciprocal::of(counts.symbols),
            by_stride: Reciprocal::of(stride),
        }
    }

    /// N, how many configurations there are.
    pub fn configurations(&self) -> usize {
        (self.counts.states * self.stride) as usize
    }

    /// The configuration of a number, by the reciprocals and what is left.
    #[inline(always)]
    pub fn config(&self, number: u32) -> Config {
        let (state, upper) = (self.by_stride.divide(number), self.by_symbols.divide(number));
        Config { state, head: upper - state * self.places, symbol: number - upper * self.counts.symbols }
    }

    /// What the head counts for in a configuration's number.
    #[inline(always)]
    pub fn row_of(&self, number: u32, at: Config) -> u32 {
        number - at.state * self.stride - at.symbol
    }

    /// The number of a configuration with this row.
    #[inline(always)]
    pub fn in_row(&self, row: u32, state: u32, symbol: u32) -> u32 {
        state * self.stride + row + symbol
    }

    /// The number of the configuration that a rule leads to, adjusted from that of `at`. A move goes one place at most, so
    /// that `back` is 0, 1 or 2.
    #[inline(always)]
    pub fn moved_number(&self, number: u32, at: Config, next: Config) -> u32 {
        let back = at.head + 1 - next.head;
        let row = self.row_of(number, at) + self.counts.symbols - back * self.counts.symbols;
        self.in_row(row, next.state, next.symbol)
    }

    fn class_under(&self, head: u32) -> u32 {
        if head == 0 {
            return self.counts.classes;
        }
        match self.capture.get(head as usize - 1) {
            Some(&byte) => u32::from(self.class_of[usize::from(byte)]),
            None => self.counts.classes + 1,
        }
    }

    /// What a configuration's rule does. Inlined, since a call would answer through memory.
    #[inline(always)]
    pub fn action(&self, at: Config) -> Action {
        let column = self.class_under(at.head) * self.counts.symbols;
        let [kind, state, symbol, direction] = self.rules[(at.state * self.state_rules + column + at.symbol) as usize];
        let state = u32::from(state);
        let next = || Config { state, head: moved(at.head, direction), symbol: u32::from(symbol) };
        match kind {
            1 => Action::Change(next()),
            2 => Action::Push(next()),
            3 => Action::Pop { state, returns: direction == 1 },
            kind => Action::Stop(Stop::of(kind)),
        }
    }

    /// The verdict of a run whose last pop led to this state and head.
    pub fn verdict(&self, state: u32, head: u32) -> Verdict {
        let is_final = self.counts.finals >> state & 1 == 1;
        if is_final && head + 1 == self.places {
            Verdict::Accepted
        } else {
            Verdict::Ended
        }
    }
}

/// The head after a move. The image's check has seen to it that no move leaves the tape.
fn moved(head: u32, direction: u8) -> u32 {
    match direction {
        1 => head + 1,
        2 => head - 1,
        _ => head,
    }
}
