//! (d) Two ways: a machine that no grammar makes. It walks over the capture to and fro, and at each byte looks ahead by a
//! push that returns.
use super::Workload;
use sejimakpu::Verdict;

/// Walks over the capture: to the right and back, three times each, and to the right once more.
const PASSES: usize = 7;

/// The states of a pass: on a byte; looking, on the same byte; looked, one place ahead; back at the byte.
const STATES_OF_A_PASS: usize = 4;
const DONE: usize = PASSES * STATES_OF_A_PASS;
const STATES: usize = DONE + 1;

/// Letters, and all other bytes. The markers come after them.
const LETTER: usize = 0;
const CLASSES: usize = 2;
const LEFT: usize = CLASSES;
const RIGHT: usize = CLASSES + 1;

/// The entry that the run starts with, and the one that a look pushes.
const BOTTOM: usize = 0;
const LOOK: usize = 1;
const SYMBOLS: usize = 2;

const RULES: usize = 288;

pub fn workload() -> Workload {
    Workload {
        name: "two-way",
        about: "a machine of 29 states that walks over the capture seven times and looks ahead at each byte",
        image: image(),
        verdict: Verdict::Accepted,
        capture,
        wrong_byte: b'#',
    }
}

fn capture(n: usize) -> Vec<u8> {
    (0..n).map(|i| b'a' + (i % 26) as u8).collect()
}

fn image() -> Vec<u8> {
    let size = 4 * STATES * (CLASSES + 2) * SYMBOLS;
    let counts = u32::from_le_bytes([STATES as u8, CLASSES as u8, SYMBOLS as u8, 0]);
    let header = [24, 8, 32, 256, RULES as u32, size as u32, counts, 1 << DONE];
    let mut image: Vec<u8> = header.into_iter().flat_map(u32::to_le_bytes).collect();
    image.extend((0..=255u8).map(|byte| u8::from(!byte.is_ascii_lowercase())));
    image.resize(RULES + size, 0);
    for pass in 0..PASSES {
        write_pass(&mut image, pass);
    }
    image
}

/// A rule that moves right or left, or stays: kind 1 changes, kind 2 pushes.
fn rule(kind: u8, state: usize, symbol: usize, direction: u8) -> [u8; 4] {
    [kind, state as u8, symbol as u8, direction]
}

fn set(image: &mut [u8], state: usize, class: usize, symbol: usize, rule: [u8; 4]) {
    let at = RULES + 4 * ((state * (CLASSES + 2) + class) * SYMBOLS + symbol);
    image[at..at + 4].copy_from_slice(&rule);
}

fn write_pass(image: &mut [u8], pass: usize) {
    let on = pass * STATES_OF_A_PASS;
    let (looking, looked, back) = (on + 1, on + 2, on + 3);
    let is_rightward = pass.is_multiple_of(2);
    let (near, far, ahead) = if is_rightward { (LEFT, RIGHT, 1) } else { (RIGHT, LEFT, 2) };

    // From the marker behind, and from byte to byte.
    set(image, on, near, BOTTOM, rule(1, on, BOTTOM, ahead));
    set(image, on, LETTER, BOTTOM, rule(2, looking, LOOK, 0));
    // The look: one place ahead, which may be the marker; then the pop brings the head back to the byte.
    set(image, looking, LETTER, LOOK, rule(1, looked, LOOK, ahead));
    set(image, looked, LETTER, LOOK, [3, back as u8, 0, 1]);
    set(image, looked, far, LOOK, [3, back as u8, 0, 1]);
    set(image, back, LETTER, BOTTOM, rule(1, on, BOTTOM, ahead));
    // On the marker ahead: the next pass turns round there; the last one is done.
    let turn = if pass + 1 == PASSES { [3, DONE as u8, 0, 0] } else { rule(1, on + STATES_OF_A_PASS, BOTTOM, 0) };
    set(image, on, far, BOTTOM, turn);
}
