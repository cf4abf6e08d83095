//! Random texts: good ones with every operator, and damaged ones.

use crate::grammars;
use crate::lively::{liveliest, Drawn};
use crate::rng::Rng;
use model::building::{self, Matching};
use model::{grammar, text};

/// Names that begin alike, or like the reserved words.
const NAMES: &[&str] =
    &["a", "b", "ab", "ba", "abc", "z", "e", "empt", "emptyx", "emptyempty", "fai", "fails", "failfail"];

/// As in random grammars, so that a capture can be made for both.
const ALPHABET: &[u8] = b"abcd";

/// The parentheses that may be open at once.
const MAX_OPEN: usize = 16;

/// A text in the making.
struct Writer<'a> {
    rng: &'a mut Rng,
    tokens: Vec<Vec<u8>>,
    names: Vec<&'static str>,
    /// About how many rules may still be needed.
    rules_left: usize,
    open: usize,
}

/// A readable text with a capture on which it does a lot.
pub fn with_capture(rng: &mut Rng) -> (Vec<u8>, Vec<u8>) {
    let drawn = liveliest(rng, &[1, 4, 8], |rng| {
        let (from, bytes) = readable(rng);
        let parts = grammar::read(&bytes).expect("a text that is read gives a good grammar");
        let image = building::build(&parts, Matching::Whole);
        Drawn { image, capture: grammars::capture(rng, &bytes), from }
    });
    (drawn.from, drawn.capture)
}

/// A text that is read, with its grammar's bytes.
fn readable(rng: &mut Rng) -> (Vec<u8>, Vec<u8>) {
    loop {
        let text = good(rng);
        if let Ok(typed) = text::read(&text) {
            return (text, typed.grammar());
        }
    }
}

/// A text that is right, but for the rules that it may need.
pub fn good(rng: &mut Rng) -> Vec<u8> {
    let lines = rng.pick(&[1, 1, 2, 2, 3, 4, 6]);
    let rules_left = if rng.percent(5) { rng.within(28..=40) } else { rng.within(lines..=20) };
    let mut names = NAMES.to_vec();
    let names = (0..lines).map(|_| names.swap_remove(rng.below(names.len()))).collect();
    let mut writer = Writer { rng, tokens: Vec::new(), names, rules_left, open: 0 };
    for line in 0..lines {
        let name = writer.names[line];
        writer.put(name);
        writer.put("=");
        writer.choice();
        writer.put(";");
    }
    let Writer { rng, tokens, .. } = writer;
    spaced(rng, &tokens)
}

impl Writer<'_> {
    fn put(&mut self, token: &str) {
        self.tokens.push(token.as_bytes().to_vec());
    }

    /// Whether so many rules more may be spent, now and then.
    fn spend(&mut self, rules: usize, chance: usize) -> bool {
        let may = self.rules_left >= rules && self.rng.percent(chance);
        if may {
            self.rules_left -= rules;
        }
        may
    }

    fn choice(&mut self) {
        self.sequence();
        while self.spend(1, 30) {
            self.put("/");
            self.sequence();
        }
    }

    fn sequence(&mut self) {
        self.prefixed();
        while self.spend(1, 40) {
            self.prefixed();
        }
    }

    fn prefixed(&mut self) {
        while self.spend(2, 15) {
            let prefix = self.rng.pick(&["!", "&"]);
            self.put(prefix);
        }
        self.operand();
        while self.spend(3, 20) {
            let suffix = self.rng.pick(&["*", "+", "?"]);
            self.put(suffix);
        }
    }

    fn operand(&mut self) {
        if self.open < MAX_OPEN && self.rng.percent(20) {
            self.open += 1;
            self.put("(");
            self.choice();
            self.put(")");
            self.open -= 1;
        } else if self.rng.percent(40) {
            let name = self.names[self.rng.below(self.names.len())];
            self.put(name);
        } else {
            self.rules_left = self.rules_left.saturating_sub(1);
            self.leaf();
        }
    }

    fn leaf(&mut self) {
        let leaf = match self.rng.below(10) {
            0 => b"empty".to_vec(),
            1 => b"fail".to_vec(),
            2 => b".".to_vec(),
            _ => range(self.rng),
        };
        self.tokens.push(leaf);
    }
}

/// Mostly in order and of few bytes, so that captures match; sometimes of bytes that are signs elsewhere, or any.
fn range(rng: &mut Rng) -> Vec<u8> {
    let (one, other) = match rng.below(12) {
        0 => (rng.byte(), rng.byte()),
        1 => (rng.pick(b"'-\n ;=()\0\xff"), rng.pick(b"'-\n ;=()\0\xff")),
        _ => (rng.pick(ALPHABET), rng.pick(ALPHABET)),
    };
    let (low, high) = if rng.percent(10) { (one, other) } else { (one.min(other), one.max(other)) };
    vec![b'\'', low, b'-', high, b'\'']
}

/// The tokens with blanks between them: some between words, elsewhere none or some.
fn spaced(rng: &mut Rng, tokens: &[Vec<u8>]) -> Vec<u8> {
    let dense = rng.percent(50);
    let is_word = |token: &[u8]| token[0].is_ascii_lowercase();
    let mut text = Vec::new();
    for (index, token) in tokens.iter().enumerate() {
        let must = index > 0 && is_word(token) && is_word(&tokens[index - 1]);
        let most = if dense { 0 } else { rng.pick(&[0, 1, 1, 3]) };
        for _ in 0..rng.within(must as usize..=most.max(must as usize)) {
            text.push(rng.pick(b"  \n"));
        }
        text.extend(token);
    }
    if !dense {
        text.extend(&b"\n \n"[..rng.below(4)]);
    }
    text
}

/// Bytes that a text has, and some that it has not.
const BYTES: &[u8] = b"ab=;/()!&*+?.'- \n\t\r_A0\0\xff";

/// A text in which something is wrong, most of the time.
pub fn damaged(rng: &mut Rng) -> Vec<u8> {
    let mut text = good(rng);
    for _ in 0..rng.pick(&[1, 1, 1, 2]) {
        damage(rng, &mut text);
    }
    text
}

fn damage(rng: &mut Rng, text: &mut Vec<u8>) {
    let at = rng.within(0..=text.len());
    let end = rng.within(at..=(at + 12).min(text.len()));
    match rng.below(8) {
        // A byte changed, added, or left out.
        0..=1 if at < text.len() => text[at] = rng.pick(BYTES),
        2 => text.insert(at, rng.pick(BYTES)),
        3 if at < text.len() => {
            text.remove(at);
        }
        // Cut off.
        4 => text.truncate(at),
        // A piece doubled, or all of it, so that names repeat.
        5 => drop(text.splice(end..end, text[at..end].to_vec())),
        6 => text.extend(text.clone()),
        // More parentheses than may be open, or nearly.
        _ => {
            let count = rng.within(14..=18);
            drop(text.splice(at..at, vec![rng.pick(b"(()"); count]));
        }
    }
}
