//! Two ways to hold the open configurations in the work cells: links from each to the one before, and a stack of numbers.
//!
//! Links lie as far apart as the notes do, where a stack stays in the cache; but a stack asks for a depth besides.

pub(super) trait Opens: Default {
    /// Whether no configuration is open.
    fn none(&self) -> bool;

    /// The number of the newest.
    fn newest(&self) -> usize;

    /// A configuration is open now.
    fn add(&mut self, number: u32, work: &mut [u32]);

    /// The newest is not open any more: its work cell is 0.
    fn take_off(&mut self, work: &mut [u32]);
}

/// One more than the number of the newest, 0 for none; its work cell holds the same of the one before.
#[derive(Default)]
pub(super) struct Links(u32);

impl Opens for Links {
    #[inline(always)]
    fn none(&self) -> bool {
        self.0 == 0
    }

    #[inline(always)]
    fn newest(&self) -> usize {
        self.0 as usize - 1
    }

    #[inline(always)]
    fn add(&mut self, number: u32, work: &mut [u32]) {
        work[number as usize] = self.0;
        self.0 = number + 1;
    }

    #[inline(always)]
    fn take_off(&mut self, work: &mut [u32]) {
        self.0 = std::mem::take(&mut work[self.newest()]);
    }
}

/// How many are open, and the number of the newest; the work cells hold those before it.
#[derive(Default)]
pub(super) struct Stack {
    depth: usize,
    newest: u32,
}

impl Opens for Stack {
    #[inline(always)]
    fn none(&self) -> bool {
        self.depth == 0
    }

    #[inline(always)]
    fn newest(&self) -> usize {
        self.newest as usize
    }

    #[inline(always)]
    fn add(&mut self, number: u32, work: &mut [u32]) {
        work[self.depth] = self.newest;
        self.depth += 1;
        self.newest = number;
    }

    #[inline(always)]
    fn take_off(&mut self, work: &mut [u32]) {
        self.depth -= 1;
        self.newest = std::mem::take(&mut work[self.depth]);
    }
}
