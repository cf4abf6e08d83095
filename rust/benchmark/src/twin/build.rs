//! The twin's building: the image of a grammar, the rules by the table of states and symbols.
use super::check::{refused, MAP, RULES};
use sejimakpu::{Error, Matching, Reason, MAX_GRAMMAR};

const STATES: u32 = 5;
const START: u32 = 0;
const WORK: u8 = 1;
const OK: u8 = 2;
const FAIL: u8 = 3;
const DONE: u8 = 4;

const NO_RULE: [u8; 4] = [0; 4];
const STAYS: u8 = 0;
const RETURNS: u8 = 1;

#[derive(Clone, Copy)]
enum Expression {
    Sequence(u8, u8),
    Choice(u8, u8),
    Not(u8),
    Empty,
    Range(u8, u8),
}

impl Expression {
    fn of([kind, b, c, _]: [u8; 4]) -> Self {
        match kind {
            1 => Expression::Sequence(b, c),
            2 => Expression::Choice(b, c),
            3 => Expression::Not(b),
            4 => Expression::Empty,
            _ => Expression::Range(b, c),
        }
    }

    /// Marks the byte values at which a range begins or has just ended. One that is not in order has no byte, and no mark.
    fn mark(self, marks: &mut [u8; 256]) {
        match self {
            Expression::Range(b, c) if b <= c => {
                marks[usize::from(b)] = 1;
                if c < 255 {
                    marks[usize::from(c) + 1] = 1;
                }
            }
            _ => {}
        }
    }

    fn first(self, k: u8, state: u8, inside: bool) -> [u8; 4] {
        use Expression::*;
        match (state, self) {
            (WORK, Sequence(b, _) | Choice(b, _) | Not(b)) => push(b),
            (WORK, Empty) => pop(OK, STAYS),
            (WORK, Range(..)) if inside => [1, OK, 2 * k + 1, 1],
            (WORK, Range(..)) => pop(FAIL, STAYS),
            (OK, Sequence(..)) | (FAIL, Choice(..)) => [1, WORK, 2 * k + 2, 0],
            (OK, Choice(..) | Range(..)) => pop(OK, STAYS),
            (OK, Not(_)) | (FAIL, Sequence(..)) => pop(FAIL, RETURNS),
            (FAIL, Not(_)) => pop(OK, RETURNS),
            _ => NO_RULE,
        }
    }

    fn second(self, state: u8) -> [u8; 4] {
        use Expression::*;
        match (state, self) {
            (WORK, Sequence(_, c) | Choice(_, c)) => push(c),
            (OK, Sequence(..) | Choice(..)) => pop(OK, STAYS),
            (FAIL, Sequence(..)) => pop(FAIL, RETURNS),
            (FAIL, Choice(..)) => pop(FAIL, STAYS),
            _ => NO_RULE,
        }
    }
}

fn push(rule: u8) -> [u8; 4] {
    [2, WORK, 2 * rule + 1, 0]
}

fn pop(state: u8, direction: u8) -> [u8; 4] {
    [3, state, 0, direction]
}

pub(super) fn check_grammar(grammar: &[u8]) -> Result<&[[u8; 4]], Error> {
    let (rules, part) = grammar.as_chunks::<4>();
    if rules.is_empty() || grammar.len() > MAX_GRAMMAR || !part.is_empty() {
        return Err(refused(Reason::GrammarLength, grammar.len()));
    }
    match rules.iter().position(|&rule| !is_right(rule, rules.len() as u8)) {
        Some(k) => Err(refused(Reason::GrammarRule, 4 * k)),
        None => Ok(rules),
    }
}

fn is_right([kind, b, c, last]: [u8; 4], m: u8) -> bool {
    let named_right = match kind {
        1 | 2 => b < m && c < m,
        3 => b < m && c == 0,
        4 => b == 0 && c == 0,
        5 => true,
        _ => false,
    };
    named_right && last == 0
}

/// The class of each byte value: how many of the values from 1 up to it are marked.
fn class_map(rules: &[[u8; 4]]) -> [u8; 256] {
    let mut map = [0; 256];
    for &rule in rules {
        Expression::of(rule).mark(&mut map);
    }
    map[0] = 0;
    for value in 1..256 {
        map[value] += map[value - 1];
    }
    map
}

/// A right grammar's image before it is written.
pub(super) struct Plan<'a> {
    rules: &'a [[u8; 4]],
    map: [u8; 256],
    classes: u32,
    symbols: u32,
    size: u32,
}

impl<'a> Plan<'a> {
    /// The plan of rules that have passed their check.
    pub fn of(rules: &'a [[u8; 4]]) -> Self {
        let map = class_map(rules);
        let classes = u32::from(map[255]) + 1;
        let symbols = 2 * rules.len() as u32 + 1;
        Plan { rules, map, classes, symbols, size: 4 * STATES * (classes + 2) * symbols }
    }

    /// The part of a buffer that the image takes.
    pub fn room<'b>(&self, buffer: &'b mut [u8]) -> Result<&'b mut [u8], Error> {
        let length = RULES + self.size as usize;
        buffer.get_mut(..length).ok_or_else(|| refused(Reason::ImageBufferShort, length))
    }

    /// How many cells judging a capture of so many bytes needs.
    pub fn cells(&self, capture_length: usize) -> usize {
        STATES as usize * (capture_length + 2) * self.symbols as usize
    }

    pub fn write(&self, matching: Matching, image: &mut [u8]) {
        write_header(&mut image[..MAP], self.size, self.classes as u8, self.symbols as u8);
        image[MAP..RULES].copy_from_slice(&self.map);
        write_rules(self.rules, &self.map, self.classes, self.symbols, matching, &mut image[RULES..]);
    }
}

/// Builds the image of a grammar at the start of a buffer, as [`sejimakpu::build`] does.
pub fn build(grammar: &[u8], matching: Matching, image: &mut [u8]) -> Result<usize, Error> {
    build_checked(check_grammar(grammar)?, matching, image)
}

/// Builds the image of rules that have passed their check.
pub(super) fn build_checked(rules: &[[u8; 4]], matching: Matching, image: &mut [u8]) -> Result<usize, Error> {
    let plan = Plan::of(rules);
    let image = plan.room(image)?;
    plan.write(matching, image);
    Ok(image.len())
}

fn write_header(header: &mut [u8], size: u32, classes: u8, symbols: u8) {
    let counts = u32::from_le_bytes([STATES as u8, classes, symbols, 0]);
    let numbers = [24, 8, MAP as u32, 256, RULES as u32, size, counts, 1 << DONE];
    for (place, number) in header.chunks_exact_mut(4).zip(numbers) {
        place.copy_from_slice(&number.to_le_bytes());
    }
}

fn write_rules(rules: &[[u8; 4]], map: &[u8; 256], classes: u32, symbols: u32, matching: Matching, image: &mut [u8]) {
    // One row for a state and a class: symbol 0, then two symbols for each grammar rule.
    let mut rows = image.as_chunks_mut::<4>().0.chunks_exact_mut(symbols as usize);
    for state in 0..STATES {
        for class in 0..classes + 2 {
            let row = rows.next().expect("there is a row for each state and class");
            row[0] = start_rule(matching, state, class, classes);
            if state == START || state == u32::from(DONE) {
                row[1..].fill(NO_RULE);
                continue;
            }
            for (k, (pair, &rule)) in row[1..].chunks_exact_mut(2).zip(rules).enumerate() {
                let expression = Expression::of(rule);
                let inside = is_inside(expression, map, class);
                pair[0] = expression.first(k as u8, state as u8, inside);
                pair[1] = expression.second(state as u8);
            }
        }
    }
}

fn is_inside(expression: Expression, map: &[u8; 256], class: u32) -> bool {
    match expression {
        Expression::Range(b, c) => {
            // The markers' classes are above every byte's. Both ends of a range that is not in order may have one class.
            b <= c && (u32::from(map[usize::from(b)])..=u32::from(map[usize::from(c)])).contains(&class)
        }
        _ => false,
    }
}

/// Symbol 0: the run starts on the left marker, and is done on the right one. A leading match passes the bytes up to that.
fn start_rule(matching: Matching, state: u32, class: u32, classes: u32) -> [u8; 4] {
    if state == START && class == classes {
        [2, WORK, 1, 1]
    } else if state == u32::from(OK) && class == classes + 1 {
        pop(DONE, STAYS)
    } else if state == u32::from(OK) && class < classes && matching == Matching::Leading {
        [1, OK, 0, 1]
    } else {
        NO_RULE
    }
}
