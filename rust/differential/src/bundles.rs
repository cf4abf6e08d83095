//! Random bundles, right and wrong, and the cases made of them.

use crate::damage::{damage, damage_rule};
use crate::edges::tools::HALT;
use crate::findings::Findings;
use crate::rng::Rng;
use crate::{compare, grammars, machines, sides};
use model::building::{self, Matching};
use model::calls::MAX_CAPTURE;
use model::image::{write, Parts};
use model::{bundle, grammar, image};

/// A bundle in the making: what its count and its pairs say, and the bytes behind them.
struct Draft {
    count: u32,
    pairs: Vec<(u32, u32)>,
    bytes: Vec<u8>,
}

/// An image by whose classes the first byte that is no `a` decides: `e` ends, `l` loops, any other is stuck; where there
/// is none, the right marker accepts. It has two states, of which 1 is final, and one symbol: n bytes need 2 (n + 2) cells.
pub fn deciding() -> Vec<u8> {
    deciding_by(&[(b'a', RIGHT), (b'e', [3, 0, 0, 0]), (b's', [0; 4]), (b'l', [1, 0, 0, 0])])
}

/// The same, but that `h` halts.
pub fn deciding_to_halt() -> Vec<u8> {
    deciding_by(&[(b'a', RIGHT), (b'e', [3, 0, 0, 0]), (b's', [0; 4]), (b'l', [1, 0, 0, 0]), (b'h', HALT)])
}

const RIGHT: [u8; 4] = [1, 0, 0, 1];

/// One class for each of these bytes, with its rule; any other byte is of class 2.
fn deciding_by(bytes: &[(u8, [u8; 4])]) -> Vec<u8> {
    let mut class_map = [2; 256];
    for (class, &(byte, _)) in (0..).zip(bytes) {
        class_map[byte as usize] = class;
    }
    let mut rules: Vec<[u8; 4]> = bytes.iter().map(|&(_, rule)| rule).chain([RIGHT, [3, 1, 0, 0]]).collect();
    rules.resize(2 * rules.len(), [0; 4]);
    write(&Parts { states: 2, classes: bytes.len() as u8, symbols: 1, finals: 0b10, class_map, rules })
}

/// An image and captures for it, sometimes as many as a bundle holds.
fn image_with_captures(rng: &mut Rng) -> (Vec<u8>, Vec<Vec<u8>>) {
    let count = match rng.below(20) {
        0 => 64,
        1 => rng.within(9..=63),
        _ => rng.within(1..=8),
    };
    let (image, mut captures): (Vec<u8>, Vec<Vec<u8>>) = match rng.below(5) {
        0..=1 => {
            let (bytes, capture) = grammars::with_capture(rng);
            let others = (1..count).map(|_| grammars::capture(rng, &bytes));
            let captures = [vec![capture], others.collect()].concat();
            let parts = grammar::read(&bytes).expect("it is made to be good");
            (building::build(&parts, rng.pick(&Matching::BOTH)), captures)
        }
        // Many captures of a large machine would take too long.
        2..=3 if count <= 8 => {
            let (image, capture) = machines::with_capture(rng);
            let others = (1..count).map(|_| if rng.percent(30) { capture.clone() } else { machines::capture(rng) });
            (image, [vec![capture.clone()], others.collect()].concat())
        }
        2..=3 => (machines::small_image(rng), (0..count).map(|_| machines::capture(rng)).collect()),
        _ => {
            let some = |rng: &mut Rng| (0..rng.below(12)).map(|_| rng.pick(b"aaaaaaaaelsh")).collect();
            let image = if rng.percent(50) { deciding() } else { deciding_to_halt() };
            (image, (0..count).map(|_| some(rng)).collect())
        }
    };
    if rng.percent(30) {
        let at = rng.below(count);
        captures[at].clear();
    }
    // A line that is refused, among others.
    if rng.percent(2) {
        let at = rng.below(count);
        captures[at] = vec![rng.byte(); rng.pick(&[65_536, 65_537, 70_000])];
    }
    let at = rng.below(count);
    captures.swap(0, at);
    (image, captures)
}

impl Draft {
    /// A right bundle of these captures: close together, or with bytes between and behind them.
    fn of(rng: &mut Rng, captures: &[Vec<u8>]) -> Draft {
        let dense = rng.percent(40);
        let (count, mut bytes, mut pairs) = (captures.len(), Vec::new(), Vec::new());
        let mut gap = |bytes: &mut Vec<u8>| {
            let length = if dense { 0 } else { rng.pick(&[0, 0, 1, 2, 9]) };
            bytes.extend(rng.bytes(length));
        };
        for capture in captures {
            gap(&mut bytes);
            pairs.push(((4 + 8 * count + bytes.len()) as u32, capture.len() as u32));
            bytes.extend(capture);
        }
        gap(&mut bytes);
        Draft { count: count as u32, pairs, bytes }
    }

    fn write(&self) -> Vec<u8> {
        bundle::write(self.count, &self.pairs, &self.bytes)
    }

    /// Puts one number of the count and the pairs at, or next to, an end of what it may be.
    fn spoil(&mut self, rng: &mut Rng) {
        let (count, length) = (self.count, self.write().len() as u32);
        let at = rng.below(self.pairs.len());
        let floor = match at {
            0 => 4 + 8 * count,
            _ => self.pairs[at - 1].0.wrapping_add(self.pairs[at - 1].1),
        };
        let near = |rng: &mut Rng, number: u32| number.wrapping_add(rng.below(3) as u32).wrapping_sub(1);
        let (offset, size) = self.pairs[at];
        let wraps = (rng.below(length as usize + 1) as u32).wrapping_sub(offset);
        match rng.below(9) {
            0 => self.count = rng.pick(&[0, 65, 66, 256, u32::MAX, count + 1, count - 1, count | 1 << 24]),
            1 => self.pairs[at].0 = near(rng, floor),
            2 => self.pairs[at] = (near(rng, floor), size.wrapping_add(offset).wrapping_sub(floor)),
            3 => self.pairs[at].1 = near(rng, length.wrapping_sub(offset)),
            4 => self.pairs[at] = (near(rng, length), rng.below(2) as u32),
            // Offset and length together pass 32 bits, and come to a place in the bundle modulo 2 to the 32nd.
            5 => self.pairs[at].1 = wraps,
            6 => self.pairs[at] = (rng.next() as u32, rng.next() as u32),
            7 => {
                let other = rng.below(self.pairs.len());
                self.pairs.swap(at, other);
            }
            _ => {
                let other = rng.below(self.pairs.len());
                self.pairs[at] = self.pairs[other];
            }
        }
    }
}

/// A bundle, mostly right, judged with about as many cells as its captures need.
pub fn case(found: &mut Findings, rng: &mut Rng) {
    let (mut image, captures) = image_with_captures(rng);
    let machine = image::read(&image).expect("it is made to be good");
    // One that is too long needs no cells. Where all are, some number has to do.
    let judged = captures.iter().filter(|capture| capture.len() <= MAX_CAPTURE);
    let needs: Vec<usize> = judged.map(|capture| machine.configs(capture.len())).chain([8]).collect();
    let (notes, work) = (some_cells(rng, &needs), some_cells(rng, &needs));
    let bundle = some_bundle(found, rng, &captures);
    if rng.percent(10) {
        damage_image(rng, &mut image);
    }
    let _ = sides::judge_bundle(found, rng, &image, &bundle, notes, work);
}

fn some_bundle(found: &mut Findings, rng: &mut Rng, captures: &[Vec<u8>]) -> Vec<u8> {
    let mut draft = Draft::of(rng, captures);
    let packed = sides::pack_bundle(found, captures);
    if draft.bytes.len() == captures.iter().map(Vec::len).sum() {
        found.note(compare::cells("packed", &draft.write(), &packed), &[]);
    }
    for _ in 0..rng.pick(&[0, 0, 0, 1, 1, 2]) {
        draft.spoil(rng);
    }
    let mut bundle = draft.write();
    if rng.percent(15) {
        let pairs_end = 4 + 8 * captures.len();
        damage(rng, &mut bundle, &[0, 4, 8, 12, pairs_end - 8, pairs_end - 4, pairs_end]);
    }
    bundle
}

fn damage_image(rng: &mut Rng, image: &mut Vec<u8>) {
    if rng.percent(50) {
        damage_rule(rng, image);
    } else {
        damage(rng, image, &[0, 8, 16, 20, 24, 28, 32, 284, 288]);
    }
}

/// Enough cells for all captures, or one too few for some of them.
fn some_cells(rng: &mut Rng, needs: &[usize]) -> usize {
    let most = needs.iter().copied().fold(1, usize::max);
    match rng.below(12) {
        0 => rng.pick(needs),
        1 => rng.pick(needs) - 1,
        2 => most - 1,
        3 => rng.below(most),
        4 => most,
        _ => most + rng.below(9),
    }
}
