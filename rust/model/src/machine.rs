//! The machine that an image describes: its counts, the class under the head, and the rule for a configuration.

use crate::answer::Config;

/// Where the class map and the rules lie in an image.
pub const CLASS_MAP: usize = 32;
pub const RULES: usize = 288;

#[derive(Clone, Copy, Debug, PartialEq, Eq)]
pub enum Move {
    Stay,
    Right,
    Left,
}

impl Move {
    /// The image check has seen to it that no move leaves the tape.
    pub fn from(self, head: usize) -> usize {
        match self {
            Move::Stay => head,
            Move::Right => head + 1,
            Move::Left => head - 1,
        }
    }
}

/// What is done. `None` is no rule at all, where `Halt` is one written to stop the run.
#[derive(Clone, Copy, Debug, PartialEq, Eq)]
pub enum Rule {
    None,
    Change { state: usize, symbol: usize, go: Move },
    Push { state: usize, symbol: usize, go: Move },
    Pop { state: usize, returns: bool },
    Halt,
}

/// A good image's bytes with its counts read. Made by [`crate::image::read`] alone.
#[derive(Clone, Copy)]
pub struct Machine<'a> {
    pub(crate) image: &'a [u8],
    pub states: usize,
    pub classes: usize,
    pub symbols: usize,
    pub finals: u32,
}

impl<'a> Machine<'a> {
    /// The image.
    pub fn bytes(&self) -> &'a [u8] {
        self.image
    }

    pub fn is_final(&self, state: usize) -> bool {
        self.finals >> state & 1 == 1
    }

    /// The class at a place of the tape: K on the left marker, K + 1 on the right one.
    pub fn class_at(&self, capture: &[u8], place: usize) -> usize {
        if place == 0 {
            self.classes
        } else if place == capture.len() + 1 {
            self.classes + 1
        } else {
            self.image[CLASS_MAP + capture[place - 1] as usize] as usize
        }
    }

    pub fn rule(&self, capture: &[u8], config: Config) -> Rule {
        let class = self.class_at(capture, config.head);
        let index = (config.state * (self.classes + 2) + class) * self.symbols + config.symbol;
        let bytes = &self.image[RULES + 4 * index..][..4];
        let (state, symbol) = (bytes[1] as usize, bytes[2] as usize);
        match bytes[0] {
            0 => Rule::None,
            1 => Rule::Change { state, symbol, go: tape_move(bytes[3]) },
            2 => Rule::Push { state, symbol, go: tape_move(bytes[3]) },
            3 => Rule::Pop { state, returns: bytes[3] == 1 },
            4 => Rule::Halt,
            kind => unreachable!("kind {kind} in a checked image"),
        }
    }

    /// N: how many configurations there are for a capture of so many bytes.
    pub fn configs(&self, capture_length: usize) -> usize {
        self.states * (capture_length + 2) * self.symbols
    }

    pub fn number(&self, capture: &[u8], config: Config) -> usize {
        (config.state * (capture.len() + 2) + config.head) * self.symbols + config.symbol
    }

    /// The configuration of a number: the inverse of [`Machine::number`].
    pub fn config(&self, capture: &[u8], number: usize) -> Config {
        let (rest, symbol) = (number / self.symbols, number % self.symbols);
        Config { state: rest / (capture.len() + 2), head: rest % (capture.len() + 2), symbol }
    }
}

fn tape_move(byte: u8) -> Move {
    match byte {
        0 => Move::Stay,
        1 => Move::Right,
        2 => Move::Left,
        _ => unreachable!("move {byte} in a checked image"),
    }
}
