//! Bundles of as many captures as one holds, all of lines of words.
use super::lines;
use sejimakpu::MAX_CAPTURES;

/// Captures as a shift brings them, and short ones, by which the calls' own work counts.
pub const BUNDLES: [Captures; 2] =
    [Captures { name: "lines", least: 24, most: 1_000 }, Captures { name: "short", least: 2, most: 24 }];

/// Captures of all lengths from one to another, evenly spread.
pub struct Captures {
    pub name: &'static str,
    pub least: usize,
    pub most: usize,
}

impl Captures {
    /// Each is accepted by the image of lines.
    pub fn make(&self) -> Vec<Vec<u8>> {
        let capture = lines::workload().capture;
        // A step that has no factor in common with the count, so that short and long ones take turns.
        let turn = |index: usize| index * 29 % MAX_CAPTURES;
        let length = |index| self.least + (self.most - self.least) * turn(index) / (MAX_CAPTURES - 1);
        (0..MAX_CAPTURES).map(|index| capture(length(index))).collect()
    }
}
