//! Reading an image, with refusals 1 to 6, and writing one.

use crate::answer::{refuse, Refusal};
use crate::machine::{Machine, CLASS_MAP, RULES};

/// The machine of a good image, or the refusal with the lowest number.
pub fn read(image: &[u8]) -> Result<Machine<'_>, Refusal> {
    if image.len() < 32 {
        return refuse(1, image.len());
    }
    directory(image)?;
    let machine = counts(image)?;
    if image.len() - RULES != 4 * machine.states * (machine.classes + 2) * machine.symbols {
        return refuse(4, 20);
    }
    class_map(&machine)?;
    rules(&machine)?;
    Ok(machine)
}

/// A 32-bit number, least byte first.
pub fn number_at(bytes: &[u8], at: usize) -> u32 {
    u32::from_le_bytes([bytes[at], bytes[at + 1], bytes[at + 2], bytes[at + 3]])
}

/// Refusal 2. Under 288 bytes there is no third length that would be right.
fn directory(image: &[u8]) -> Result<(), Refusal> {
    let pair = |at| (number_at(image, at) as u64, number_at(image, at + 4) as u64);
    if pair(0) != (24, 8) {
        return refuse(2, 0);
    }
    if pair(8) != (32, 256) {
        return refuse(2, 8);
    }
    if image.len() < RULES || pair(16) != (288, (image.len() - RULES) as u64) {
        return refuse(2, 16);
    }
    Ok(())
}

/// Refusal 3.
fn counts(image: &[u8]) -> Result<Machine<'_>, Refusal> {
    let (states, classes, symbols) = (image[24] as usize, image[25] as usize, image[26] as usize);
    let finals = number_at(image, 28);
    if !(1..=32).contains(&states) {
        return refuse(3, 24);
    }
    if !(1..=64).contains(&classes) {
        return refuse(3, 25);
    }
    if !(1..=128).contains(&symbols) {
        return refuse(3, 26);
    }
    if image[27] != 0 {
        return refuse(3, 27);
    }
    if (states..32).any(|state| finals >> state & 1 == 1) {
        return refuse(3, 28);
    }
    Ok(Machine { image, states, classes, symbols, finals })
}

/// Refusal 5.
fn class_map(machine: &Machine) -> Result<(), Refusal> {
    let bad = (CLASS_MAP..RULES).find(|&at| machine.image[at] as usize >= machine.classes);
    bad.map_or(Ok(()), |at| refuse(5, at))
}

/// Refusal 6. Rules are in the order of state, class, symbol.
fn rules(machine: &Machine) -> Result<(), Refusal> {
    let mut at = RULES;
    for _state in 0..machine.states {
        for class in 0..machine.classes + 2 {
            for _symbol in 0..machine.symbols {
                if is_bad(machine, class, &machine.image[at..at + 4]) {
                    return refuse(6, at);
                }
                at += 4;
            }
        }
    }
    Ok(())
}

fn is_bad(machine: &Machine, class: usize, rule: &[u8]) -> bool {
    let (kind, state, symbol, go) = (rule[0], rule[1] as usize, rule[2] as usize, rule[3]);
    let bad_state = state >= machine.states;
    let off_the_tape = class == machine.classes && go == 2 || class == machine.classes + 1 && go == 1;
    match kind {
        // A missing rule and a halting one say nothing more.
        0 | 4 => state != 0 || symbol != 0 || go != 0,
        1 | 2 => bad_state || symbol >= machine.symbols || go > 2 || off_the_tape,
        3 => bad_state || symbol != 0 || go > 1,
        _ => true,
    }
}

/// What an image says, before it is bytes. Nothing is checked: tests write bad images too.
#[derive(Clone, Debug)]
pub struct Parts {
    pub states: u8,
    pub classes: u8,
    pub symbols: u8,
    pub finals: u32,
    pub class_map: [u8; 256],
    /// Kind, state, symbol, move; in the image's order.
    pub rules: Vec<[u8; 4]>,
}

/// The bytes of an image.
pub fn write(parts: &Parts) -> Vec<u8> {
    let mut image = Vec::with_capacity(RULES + 4 * parts.rules.len());
    for number in [24, 8, 32, 256, 288, 4 * parts.rules.len() as u32] {
        image.extend(number.to_le_bytes());
    }
    image.extend([parts.states, parts.classes, parts.symbols, 0]);
    image.extend(parts.finals.to_le_bytes());
    image.extend(parts.class_map);
    image.extend(parts.rules.iter().flatten());
    image
}
