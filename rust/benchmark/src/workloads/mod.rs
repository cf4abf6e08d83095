//! The workloads: an image, and for each length a capture that makes the run go through all of it.
pub mod backtracking;
pub mod banner;
pub mod building;
pub mod bundles;
pub mod lines;
pub mod looping;
pub mod recursion;
pub mod texts;
pub mod two_way;

use crate::twin;
use sejimakpu::{Matching, Verdict, MAX_BUILT_IMAGE};

/// The lengths of capture that are measured.
pub const SIZES: [usize; 4] = [1_000, 4_000, 16_000, 65_535];

pub struct Workload {
    pub name: &'static str,
    pub about: &'static str,
    pub image: Vec<u8>,
    pub verdict: Verdict,
    /// The capture of so many bytes.
    pub capture: fn(usize) -> Vec<u8>,
    /// A byte that ends the run at once where it comes first: a call on it is checks and clearing.
    pub wrong_byte: u8,
}

impl Workload {
    /// A capture of as many bytes on which the run is over after a few readings.
    pub fn short_capture(&self, n: usize) -> Vec<u8> {
        vec![self.wrong_byte; n]
    }
}

/// All workloads that have a target, in the order of the table.
pub fn all() -> [Workload; 4] {
    [lines::workload(), backtracking::workload(), looping::workload(), two_way::workload()]
}

/// The rules of a grammar, by name of kind, so that the workloads can be read.
pub mod rule {
    pub const EMPTY: [u8; 4] = [4, 0, 0, 0];

    pub const fn sequence(b: u8, c: u8) -> [u8; 4] {
        [1, b, c, 0]
    }

    pub const fn choice(b: u8, c: u8) -> [u8; 4] {
        [2, b, c, 0]
    }

    pub const fn not(b: u8) -> [u8; 4] {
        [3, b, 0, 0]
    }

    pub const fn range(first: u8, last: u8) -> [u8; 4] {
        [5, first, last, 0]
    }
}

/// The image of a workload's grammar. The twin builds it: which of the two does is all one, their images are compared.
fn image_of(grammar: &[[u8; 4]], matching: Matching) -> Vec<u8> {
    let mut image = vec![0; MAX_BUILT_IMAGE];
    let length = twin::build(grammar.as_flattened(), matching, &mut image).expect("a workload's grammar is right");
    image.truncate(length);
    image
}
