//! The twin's check of an image: refusals 1 to 6, in the order of their numbers.
use sejimakpu::{Error, Reason, Refusal};

pub(super) const MAP: usize = 32;
pub(super) const RULES: usize = 288;

const STATES_AT: usize = 24;
const CLASSES_AT: usize = 25;
const SYMBOLS_AT: usize = 26;
const ZERO_AT: usize = 27;
const FINALS_AT: usize = 28;
const RULES_LENGTH_AT: usize = 20;

/// What an image says of itself, before its map and its rules.
#[derive(Clone, Copy)]
pub(super) struct Counts {
    pub states: u32,
    pub classes: u32,
    pub symbols: u32,
    pub finals: u32,
}

impl Counts {
    /// Reads them from an image of 32 bytes or more.
    pub fn of(image: &[u8]) -> Self {
        Counts {
            states: u32::from(image[STATES_AT]),
            classes: u32::from(image[CLASSES_AT]),
            symbols: u32::from(image[SYMBOLS_AT]),
            finals: number_at(image, FINALS_AT),
        }
    }

    /// How many classes there are with the two markers.
    pub fn columns(&self) -> u32 {
        self.classes + 2
    }
}

/// Whether an image is good; else the first refusal.
pub fn check(image: &[u8]) -> Result<(), Error> {
    if image.len() < MAP {
        return refuse(Reason::ImageShort, image.len());
    }
    check_directory(image)?;
    let counts = check_counts(image)?;
    let rules = (counts.states * counts.columns() * counts.symbols) as usize;
    if image.len() != RULES + 4 * rules {
        return refuse(Reason::ImageLength, RULES_LENGTH_AT);
    }
    check_map(image, counts)?;
    check_rules(&image[RULES..], counts)
}

/// The error by which the library refuses.
pub(super) fn refused(reason: Reason, place: usize) -> Error {
    Refusal::new(reason, place).into()
}

fn refuse<T>(reason: Reason, place: usize) -> Result<T, Error> {
    Err(refused(reason, place))
}

pub(super) fn number_at(bytes: &[u8], at: usize) -> u32 {
    u32::from_le_bytes([bytes[at], bytes[at + 1], bytes[at + 2], bytes[at + 3]])
}

fn check_directory(image: &[u8]) -> Result<(), Error> {
    // An image too short for the rules has no right third length at all.
    let pairs = [Some((24, 8)), Some((32, 256)), image.len().checked_sub(RULES).map(|rules| (RULES, rules))];
    for (i, pair) in pairs.into_iter().enumerate() {
        let at = 8 * i;
        if pair != Some((number_at(image, at) as usize, number_at(image, at + 4) as usize)) {
            return refuse(Reason::ImageDirectory, at);
        }
    }
    Ok(())
}

fn check_counts(image: &[u8]) -> Result<Counts, Error> {
    for (at, limit) in [(STATES_AT, 32), (CLASSES_AT, 64), (SYMBOLS_AT, 128)] {
        if !(1..=limit).contains(&image[at]) {
            return refuse(Reason::ImageCounts, at);
        }
    }
    if image[ZERO_AT] != 0 {
        return refuse(Reason::ImageCounts, ZERO_AT);
    }
    let counts = Counts::of(image);
    if u64::from(counts.finals) >> counts.states != 0 {
        return refuse(Reason::ImageCounts, FINALS_AT);
    }
    Ok(counts)
}

fn check_map(image: &[u8], counts: Counts) -> Result<(), Error> {
    match image[MAP..RULES].iter().position(|&class| u32::from(class) >= counts.classes) {
        Some(i) => refuse(Reason::ImageClass, MAP + i),
        None => Ok(()),
    }
}

fn check_rules(rules: &[u8], counts: Counts) -> Result<(), Error> {
    let (rules, _) = rules.as_chunks::<4>();
    let symbols = counts.symbols as usize;
    // The rules of a state and a class stand together, one for each symbol.
    let mut class = 0;
    for (line, row) in rules.chunks_exact(symbols).enumerate() {
        if let Some(i) = row.iter().position(|&rule| is_bad(rule, class, counts)) {
            return refuse(Reason::ImageRule, RULES + 4 * (line * symbols + i));
        }
        class = if class + 1 == counts.columns() { 0 } else { class + 1 };
    }
    Ok(())
}

/// Asked in the library's order: a match on the kind was slower.
fn is_bad([kind, state, symbol, direction]: [u8; 4], class: u32, counts: Counts) -> bool {
    if kind > 4 {
        return true;
    }
    // No rule, or one that halts: there is nothing more to say.
    if kind == 0 || kind == 4 {
        return state != 0 || symbol != 0 || direction != 0;
    }
    let state_is_bad = u32::from(state) >= counts.states;
    if kind == 3 {
        return state_is_bad || symbol != 0 || direction > 1;
    }
    let off_the_tape = (class == counts.classes && direction == 2) || (class == counts.classes + 1 && direction == 1);
    state_is_bad || u32::from(symbol) >= counts.symbols || direction > 2 || off_the_tape
}
