//! What the twin's cells hold, and how a number is divided by a multiplication.
//!
//! The work cells are a stack of the open configurations' numbers: it stays in the cache, where links from each to the one
//! before would lie as far apart as the notes do.

/// Notes: not entered yet; entered in a run that is over, with no terminator. A greater one below `OPEN_BIT` is `CLOSED`
/// and the terminator's number.
pub(super) const NEW: u32 = 0;
pub(super) const ENDLESS: u32 = 1;
pub(super) const CLOSED: u32 = 2;

/// A bit that no closed note has. Below it an open note says what unwinding and resuming need of its configuration:
/// 17 bits of head, 7 of symbol, and whether it was pushed.
pub(super) const OPEN_BIT: u32 = 1 << 31;
const HEAD_AT: u32 = 8;
const SYMBOL_AT: u32 = 1;
const HEADS: u32 = (1 << 17) - 1;
const SYMBOLS: u32 = (1 << 7) - 1;

#[inline(always)]
pub(super) fn open_note(head: u32, symbol: u32, pushed: bool) -> u32 {
    OPEN_BIT | head << HEAD_AT | symbol << SYMBOL_AT | u32::from(pushed)
}

#[inline(always)]
pub(super) fn head_told(note: u32) -> u32 {
    note >> HEAD_AT & HEADS
}

#[inline(always)]
pub(super) fn symbol_told(note: u32) -> u32 {
    note >> SYMBOL_AT & SYMBOLS
}

#[inline(always)]
pub(super) fn was_pushed(note: u32) -> bool {
    note & 1 == 1
}

/// One over a divisor, times two to some power and rounded up, by which a multiplication divides.
///
/// The quotient is right where dividend times divisor is below that power: then the rounding adds less than one over the
/// divisor to it. The product fits 64 bits, since a dividend here is at most some 2^21 times its divisor.
#[derive(Clone, Copy)]
pub(super) struct Reciprocal<const POWER: u32>(u64);

impl<const POWER: u32> Reciprocal<POWER> {
    pub fn of(divisor: u32) -> Self {
        Reciprocal((1 << POWER) / u64::from(divisor) + 1)
    }

    #[inline(always)]
    pub fn divide(self, dividend: u32) -> u32 {
        ((u64::from(dividend) * self.0) >> POWER) as u32
    }
}

#[cfg(test)]
mod tests {
    use super::{head_told, open_note, symbol_told, was_pushed, Reciprocal, CLOSED, OPEN_BIT};

    /// The most of each that an image and a capture can have.
    const STATES: u32 = 32;
    const PLACES: u32 = 65_537;
    const SYMBOLS: u32 = 128;

    #[test]
    fn open_notes_tell() {
        for head in [0, 1, 2, 65_535, PLACES - 1] {
            for symbol in [0, 1, SYMBOLS - 1] {
                for pushed in [false, true] {
                    let note = open_note(head, symbol, pushed);
                    assert_eq!((head_told(note), symbol_told(note), was_pushed(note)), (head, symbol, pushed));
                    assert!(note >= OPEN_BIT && CLOSED + STATES * PLACES * SYMBOLS <= OPEN_BIT);
                }
            }
        }
    }

    /// Around multiples of a divisor, from none to as many as a dividend can have.
    fn divides<const POWER: u32>(divisor: u32, most: u32) {
        let reciprocal = Reciprocal::<POWER>::of(divisor);
        for times in (0..=most).step_by(997).chain([1, most]) {
            for dividend in [times * divisor, (times * divisor).saturating_sub(1), times * divisor + divisor - 1] {
                assert_eq!(reciprocal.divide(dividend), dividend / divisor, "{dividend} by {divisor}");
            }
        }
    }

    #[test]
    fn reciprocals_divide() {
        for symbols in 1..=SYMBOLS {
            divides::<36>(symbols, STATES * PLACES - 1);
            for places in [2, 3, 1_000, 65_535, 65_536, PLACES] {
                divides::<52>(places * symbols, STATES - 1);
            }
        }
    }
}
