//! Damage to good inputs: a byte changed, a part cut off, bytes added.

use crate::rng::Rng;

/// Damages bytes once or twice, mostly where the places named are.
pub fn damage(rng: &mut Rng, bytes: &mut Vec<u8>, places: &[usize]) {
    for _ in 0..rng.pick(&[1, 1, 1, 2, 3]) {
        match rng.below(20) {
            0..=1 => cut(rng, bytes, places),
            2 => {
                let count = rng.within(1..=9);
                bytes.extend(rng.bytes(count));
            }
            3 => bytes.clear(),
            _ => change(rng, bytes, places),
        }
    }
}

fn place(rng: &mut Rng, length: usize, places: &[usize]) -> usize {
    if rng.percent(60) && !places.is_empty() {
        (rng.pick(places) + rng.below(4)).min(length)
    } else {
        rng.within(0..=length)
    }
}

fn cut(rng: &mut Rng, bytes: &mut Vec<u8>, places: &[usize]) {
    let length =
        if rng.percent(20) { bytes.len().saturating_sub(rng.within(1..=4)) } else { place(rng, bytes.len(), places) };
    bytes.truncate(length);
}

fn change(rng: &mut Rng, bytes: &mut [u8], places: &[usize]) {
    let at = place(rng, bytes.len(), places);
    if let Some(byte) = bytes.get_mut(at) {
        *byte = match rng.below(5) {
            0 => byte.wrapping_add(1),
            1 => byte.wrapping_sub(1),
            2 => *byte ^ 1 << rng.below(8),
            3 => rng.below(6) as u8,
            _ => rng.byte(),
        };
    }
}

/// Puts a rule into an image that is good or nearly so: each part of it goes up to one over what is allowed.
pub fn damage_rule(rng: &mut Rng, image: &mut [u8]) {
    let at = 288 + 4 * rng.below((image.len() - 288) / 4);
    let (states, symbols) = (image[24] as usize, image[26] as usize);
    let kind = rng.within(0..=5);
    let symbol = if kind == 3 && rng.percent(80) { 0 } else { rng.within(0..=symbols) };
    let mut rule = [kind, rng.within(0..=states), symbol, rng.within(0..=3)];
    // One that stops the run says nothing more: half of these are good.
    if (kind == 0 || kind == 4) && rng.percent(50) {
        rule = [kind, 0, 0, 0];
    }
    image[at..at + 4].copy_from_slice(&rule.map(|part| part as u8));
}
