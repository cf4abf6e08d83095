//! Left recursion: what passes never loops, and what is refused often does. Every grammar of up to three rules, random ones of
//! up to 31, and damaged ones.

use crate::damage::damage;
use crate::edges::tools::{built, judge};
use crate::findings::Findings;
use crate::rng::Rng;
use crate::{compare, grammars, sides};
use model::answer::{Refusal, Verdict};
use model::building::Matching;
use model::recursion::TextRefusal;

const MAX_RULES: usize = 31;

/// What checks for left recursion came to.
#[derive(Clone, Debug, Default)]
pub struct Seen {
    /// How many passed, and the captures that these were judged on.
    pub passed: usize,
    pub judged: usize,
    /// How many were refused by 19, by the rule that was named.
    pub named: [usize; MAX_RULES],
    /// How many of those loop on a short capture from that rule on, and how many on none. Looked for in small ones alone.
    pub looping: usize,
    pub ending: usize,
}

impl Seen {
    fn count(&mut self, checked: Result<(), Refusal>) {
        match checked {
            Ok(()) => self.passed += 1,
            Err(Refusal { number: 19, place }) => self.named[place] += 1,
            Err(_) => {}
        }
    }

    pub fn add(&mut self, other: &Seen) {
        self.passed += other.passed;
        self.judged += other.judged;
        self.named.iter_mut().zip(other.named).for_each(|(count, more)| *count += more);
        self.looping += other.looping;
        self.ending += other.ending;
    }

    /// In words, where there is something to say.
    pub fn words(&self) -> Option<String> {
        let named: usize = self.named.iter().sum();
        let places = self.named.iter().filter(|&&count| count > 0).count();
        let searched = match self.looping + self.ending {
            0 => String::new(),
            _ => format!(", {} of them with a capture that loops and {} with none", self.looping, self.ending),
        };
        (self.passed + named > 0).then(|| {
            let (passed, judged) = (self.passed, self.judged);
            format!(
                "{passed} without left recursion, judged {judged} times, {named} with it at {places} rules{searched}"
            )
        })
    }

    /// Some passed and were judged, and some were refused, at each of so many rules.
    pub fn enough(&self, found: &mut Findings, rules: usize) {
        let told = [("passed", self.passed), ("judged", self.judged)];
        let named = self.named[..rules].iter().map(|&count| ("refused at a rule", count));
        for (what, count) in told.into_iter().chain(named) {
            found.note((count == 0).then(|| format!("left recursion: none {what}: {self:?}")), &[]);
        }
    }

    /// Of the small ones besides: some loop, and some do not.
    pub fn enough_small(&self, found: &mut Findings) {
        self.enough(found, SMALL);
        for (what, count) in [("loops", self.looping), ("ends on every capture", self.ending)] {
            found.note((count == 0).then(|| format!("left recursion: none of the refused {what}")), &[]);
        }
    }
}

/// Checks a grammar.
pub fn check(found: &mut Findings, rng: &mut Rng, bytes: &[u8]) -> Result<(), Refusal> {
    let checked = sides::check_recursion(found, rng, bytes);
    found.recursion.count(checked);
    checked
}

/// Checks a text, and the bytes that were read of it, if they were: it is the same rule.
pub fn check_text(found: &mut Findings, rng: &mut Rng, text: &[u8], read: &Result<Vec<u8>, Refusal>) -> bool {
    let checked = sides::check_text_recursion(found, rng, text);
    let refusal = checked.map_err(|TextRefusal { refusal, .. }| refusal);
    let of_bytes = match read {
        Ok(bytes) => sides::check_recursion(found, rng, bytes),
        Err(refusal) => Err(*refusal),
    };
    found.note(compare::answers("check of a text, by its grammar", &of_bytes, &refusal), &[("text", text)]);
    found.recursion.count(refusal);
    checked.is_ok()
}

/// What has passed never loops.
pub fn ends(found: &mut Findings, passed: bool, verdict: Verdict, inputs: &[(&str, &[u8])]) {
    if passed {
        found.recursion.judged += 1;
        found.note((verdict == Verdict::Looping).then(|| "it passed, and loops".into()), inputs);
    }
}

/// The verdict of a good grammar on a capture, for either matching: it loops for both or for none.
fn verdict(found: &mut Findings, rng: &mut Rng, bytes: &[u8], capture: &[u8]) -> Verdict {
    let matching = rng.pick(&Matching::BOTH);
    let room = built(bytes, matching).len();
    let image = sides::build(found, rng, bytes, matching, room).expect("there is room enough");
    judge(found, rng, &image, capture).expect("there are cells enough").verdict
}

/// The same rules with other numbers: rule k gets number `numbers[k]`.
fn renumbered(bytes: &[u8], numbers: &[usize]) -> Vec<u8> {
    let mut other = vec![0; bytes.len()];
    let of = |rule: u8| numbers[rule as usize] as u8;
    for (rule, &number) in bytes.chunks(4).zip(numbers) {
        let (kind, b, c) = (rule[0], rule[1], rule[2]);
        let renumbered = match kind {
            1 | 2 => [kind, of(b), of(c), 0],
            3 => [kind, of(b), 0, 0],
            _ => [kind, b, c, 0],
        };
        other[4 * number..][..4].copy_from_slice(&renumbered);
    }
    other
}

/// The grammar in which parsing starts from a rule: it and rule 0 have changed their numbers.
pub fn starting_from(rule: usize, bytes: &[u8]) -> Vec<u8> {
    let mut numbers: Vec<usize> = (0..bytes.len() / 4).collect();
    numbers.swap(0, rule);
    renumbered(bytes, &numbers)
}

/// The most rules of a small grammar.
pub const SMALL: usize = 3;

/// All rules for a small grammar of so many: each kind with each rule named, a range of one byte, and one of none.
fn small_rules(rules: usize) -> Vec<[u8; 4]> {
    let mut all = vec![[4, 0, 0, 0], [5, b'a', b'a', 0], [5, b'b', b'a', 0]];
    for b in 0..rules as u8 {
        all.push([3, b, 0, 0]);
        all.extend((0..rules as u8).flat_map(|c| [[1, b, c, 0], [2, b, c, 0]]));
    }
    all
}

pub fn small_count(rules: usize) -> usize {
    small_rules(rules).len().pow(rules as u32)
}

pub fn small_grammar(rules: usize, mut number: usize) -> Vec<u8> {
    let all = small_rules(rules);
    let mut bytes = Vec::new();
    for _ in 0..rules {
        bytes.extend(all[number % all.len()]);
        number /= all.len();
    }
    bytes
}

/// All captures of up to three bytes, each in the range or not.
pub fn short_captures() -> Vec<Vec<u8>> {
    let bytes = |length: u32, number: usize| (0..length).map(|at| b"ab"[number >> at & 1]).collect();
    (0..=3).flat_map(|length| (0..1 << length).map(move |number| bytes(length, number))).collect()
}

/// One grammar, judged from every rule on where it passes. Where it does not, a capture is looked for on which it loops from
/// the rule that was named.
pub fn small_case(found: &mut Findings, rng: &mut Rng, bytes: &[u8]) {
    match check(found, rng, bytes) {
        Ok(()) => {
            for rule in 0..bytes.len() / 4 {
                let other = starting_from(rule, bytes);
                let passed = sides::check_recursion(found, rng, &other);
                found.note(compare::answers("from another rule", &Ok(()), &passed), &[("grammar", &other)]);
                for capture in short_captures() {
                    let verdict = verdict(found, rng, &other, &capture);
                    ends(found, true, verdict, &[("grammar", &other), ("capture", &capture)]);
                }
            }
        }
        Err(Refusal { number, place }) => {
            found.note(compare::answers("refusal of a good grammar", &19, &number), &[("grammar", bytes)]);
            let other = starting_from(place, bytes);
            let named = sides::check_recursion(found, rng, &other);
            let told = Err(Refusal { number: 19, place: 0 });
            found.note(compare::answers("from the rule named", &told, &named), &[("grammar", &other)]);
            let mut loops = |capture: &Vec<u8>| verdict(found, rng, &other, capture) == Verdict::Looping;
            let looping = short_captures().iter().any(&mut loops);
            found.recursion.looping += looping as usize;
            found.recursion.ending += !looping as usize;
        }
    }
}

/// A good grammar, and the same with other numbers; judged where it passes.
pub fn case(found: &mut Findings, rng: &mut Rng) {
    let bytes = grammar(rng);
    let passed = check(found, rng, &bytes).is_ok();
    let numbers = some_order(rng, bytes.len() / 4);
    let other = renumbered(&bytes, &numbers);
    let same = sides::check_recursion(found, rng, &other).is_ok();
    found.note(compare::answers("passes, with other numbers", &passed, &same), &[("grammar", &other)]);
    if passed {
        for bytes in [&bytes, &bytes, &other] {
            let mut capture = grammars::capture(rng, bytes);
            capture.truncate(12);
            let verdict = verdict(found, rng, bytes, &capture);
            ends(found, passed, verdict, &[("grammar", bytes), ("capture", &capture)]);
        }
    }
}

fn grammar(rng: &mut Rng) -> Vec<u8> {
    match rng.below(5) {
        0 => grammars::good(rng),
        1 => {
            let rules = rng.within(1..=MAX_RULES);
            some_leaves(rng, rules)
        }
        _ => circle(rng),
    }
}

/// Any rule names any rule, but many or few name none.
fn some_leaves(rng: &mut Rng, rules: usize) -> Vec<u8> {
    let leaves = rng.pick(&[20, 50, 70, 80, 90, 95]);
    let rule = |_| if rng.percent(leaves) { grammars::leaf(rng) } else { grammars::wild_rule(rng, rules) };
    (0..rules).flat_map(rule).collect()
}

/// Rules that lead to later ones alone, most of the time; then one that an earlier one names is made to name that one.
fn circle(rng: &mut Rng) -> Vec<u8> {
    let rules = rng.within(2..=MAX_RULES);
    let mut bytes: Vec<u8> = (0..rules - 1).flat_map(|rule| grammars::ending_rule(rng, rule, rules)).collect();
    bytes.extend(if rng.percent(90) { [5, b'a', b'b', 0] } else { [4, 0, 0, 0] });
    if rng.percent(75) {
        let first = rng.below(rules);
        let mut last = first;
        // On to a later rule some times: a leaf, and the last rule, go no further.
        for _ in 0..rng.below(8) {
            let rule = &bytes[4 * last..][..4];
            let named: &[u8] = if rule[0] < 3 { &rule[1..3] } else { &rule[1..2] };
            let next = rng.pick(named) as usize;
            if rule[0] > 3 || next <= last {
                break;
            }
            last = next;
        }
        let (first, any) = (first as u8, rng.within(last..=rules - 1) as u8);
        let back = [[1, first, any, 0], [1, any, first, 0], [2, first, any, 0], [2, any, first, 0], [3, first, 0, 0]];
        bytes[4 * last..][..4].copy_from_slice(&rng.pick(&back));
    }
    if rng.percent(30) {
        let numbers = some_order(rng, rules);
        bytes = renumbered(&bytes, &numbers);
    }
    bytes
}

/// The numbers below a count, in any order.
fn some_order(rng: &mut Rng, count: usize) -> Vec<usize> {
    let mut numbers: Vec<usize> = (0..count).collect();
    for at in 1..count {
        numbers.swap(at, rng.within(0..=at));
    }
    numbers
}

/// A grammar with a wrong length or a wrong rule, mostly with left recursion in it: 11 and 12 come first.
pub fn damaged(found: &mut Findings, rng: &mut Rng) {
    let mut bytes = grammar(rng);
    let (at, last) = (4 * rng.below(bytes.len() / 4), bytes.len() - 4);
    let over = (bytes.len() / 4) as u8 + rng.below(3) as u8;
    match rng.below(7) {
        0 => bytes.truncate(bytes.len() - rng.within(1..=3)),
        1 => bytes.extend(&[1, 0, 0, 0][..rng.within(1..=3)]),
        2 => bytes = [&bytes[..], &[3, 0, 0, 0].repeat(MAX_RULES)].concat(),
        3 => bytes[at] = rng.pick(&[0, 6, 255]),
        4 => bytes[at..at + 4].copy_from_slice(&[rng.pick(&[1, 2, 3]), over, 0, 0]),
        5 => bytes[at + 3] = rng.pick(&[1, 128]),
        _ => damage(rng, &mut bytes, &[0, at, last]),
    }
    let _ = check(found, rng, &bytes);
}
