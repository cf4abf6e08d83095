//! Left recursion in grammars: the rule that is named, told beforehand, and which refusal wins.

use super::tools::{built, judge, refused};
use super::Edges;
use crate::findings::Findings;
use crate::recursion::{check, short_captures, small_case, starting_from};
use crate::rng::Rng;
use crate::{compare, sides};
use model::answer::{Refusal, Verdict};
use model::building::Matching;

type Rule = [u8; 4];

const EMPTY: Rule = [4, 0, 0, 0];
const BYTE: Rule = [5, b'a', b'a', 0];
/// It has no byte, and always fails.
const INVERTED: Rule = [5, b'b', b'a', 0];

const fn sequence(b: u8, c: u8) -> Rule {
    [1, b, c, 0]
}

const fn choice(b: u8, c: u8) -> Rule {
    [2, b, c, 0]
}

const fn not(b: u8) -> Rule {
    [3, b, 0, 0]
}

/// The grammar passes, or this rule is named.
fn told(found: &mut Findings, rng: &mut Rng, rules: &[Rule], named: Option<usize>) {
    let bytes = rules.as_flattened();
    let got = check(found, rng, bytes);
    let told = named.map_or(Ok(()), |place| Err(Refusal { number: 19, place }));
    found.note(compare::answers("check recursion, as told", &told, &got), &[("grammar", bytes)]);
}

pub fn add(edges: &mut Edges) {
    grammars(edges);
    most_rules(edges);
    order(edges);
    captures(edges);
}

/// A name, a grammar, and the rule of it that is named.
type Row = (&'static str, &'static [Rule], Option<usize>);

/// Written down by hand.
const GRAMMARS: &[Row] = &[
    ("C1", &[EMPTY], None),
    ("C3", &[BYTE], None),
    ("C5", &[sequence(0, 0)], Some(0)),
    ("C6", &[sequence(1, 1), sequence(2, 2), EMPTY], None),
    ("C7", &[not(1), BYTE], None),
    ("C9", &[choice(1, 2), BYTE, EMPTY], None),
    ("a range of no byte", &[INVERTED], None),
    ("itself or nothing", &[choice(0, 1), EMPTY], Some(0)),
    ("nothing or itself", &[choice(1, 0), EMPTY], Some(0)),
    ("not itself", &[not(0)], Some(0)),
    ("not, and not back", &[not(1), not(0)], Some(0)),
    ("itself behind a byte", &[sequence(1, 0), BYTE], None),
    ("itself behind a range of no byte", &[sequence(1, 0), INVERTED], None),
    ("itself behind nothing", &[sequence(1, 0), EMPTY], Some(0)),
    ("itself behind a not", &[sequence(1, 0), not(2), BYTE], Some(0)),
    ("itself behind not nothing", &[sequence(1, 0), not(2), EMPTY], Some(0)),
    ("itself behind a byte or a byte", &[sequence(1, 0), choice(2, 3), BYTE, INVERTED], None),
    ("itself behind a byte or nothing", &[sequence(1, 0), choice(2, 3), BYTE, EMPTY], Some(0)),
    ("itself behind nothing or a byte", &[sequence(1, 0), choice(3, 2), BYTE, EMPTY], Some(0)),
    ("itself behind a byte and nothing", &[sequence(1, 0), sequence(2, 3), BYTE, EMPTY], None),
    ("itself behind nothing and a byte", &[sequence(1, 0), sequence(3, 2), BYTE, EMPTY], None),
    ("itself behind nothing and nothing", &[sequence(1, 0), sequence(3, 3), BYTE, EMPTY], Some(0)),
    ("a star of a byte", &[choice(2, 3), BYTE, sequence(1, 0), EMPTY], None),
    ("a star of what may be nothing", &[choice(4, 5), BYTE, EMPTY, choice(1, 2), sequence(3, 0), EMPTY], Some(0)),
    ("one that rule 0 never comes to", &[EMPTY, BYTE, sequence(2, 2)], Some(2)),
    ("two beside each other", &[BYTE, choice(2, 0), choice(1, 0), not(3)], Some(1)),
    ("one around the other", &[BYTE, choice(4, 0), not(3), choice(2, 0), choice(1, 0)], Some(1)),
    ("a rule that leads into one", &[choice(1, 2), sequence(1, 2), EMPTY], Some(1)),
    ("rules that lead into one", &[not(1), not(2), not(3), choice(4, 3), EMPTY], Some(3)),
    ("the least set, by a choice of itself", &[sequence(1, 0), choice(1, 1)], Some(1)),
    ("the least set, by two rules", &[sequence(1, 0), choice(2, 3), sequence(1, 1), BYTE], Some(1)),
];

fn grammars(edges: &mut Edges) {
    for &(name, rules, named) in GRAMMARS {
        edges.add(format!("recursion: {name}"), move |found, rng| {
            told(found, rng, rules, named);
            small_case(found, rng, rules.as_flattened());
        });
    }
    edges.add("recursion: the grammar of the examples", |found, rng| {
        const RING: &[u8] = include_bytes!("../../../../examples/ring.grammar");
        told(found, rng, RING.as_chunks().0, None);
    });
}

/// A rule that names the one with this number.
type Next = fn(u8) -> Rule;

/// 31 rules in a row, and 32.
fn most_rules(edges: &mut Edges) {
    /// Each rule but the last is made of the next one's number.
    fn chain(rule: Next, last: Rule) -> Vec<Rule> {
        (1..31).map(rule).chain([last]).collect()
    }
    let rules: [(&str, Next); 3] =
        [("sequences", |next| sequence(next, next)), ("choices", |next| choice(next, next)), ("nots", not)];
    for (name, rule) in rules {
        edges.add(format!("recursion: 31 {name} that lead back from the last"), move |found, rng| {
            for back in 0..31 {
                for last in [not(back), sequence(back, back), choice(back, 30), choice(30, back)] {
                    // A choice with itself is on a circle of its own, but that rule is the last.
                    told(found, rng, &chain(rule, last), Some(back.into()));
                }
            }
            for last in [EMPTY, BYTE, INVERTED] {
                told(found, rng, &chain(rule, last), None);
            }
        });
    }
    edges.add("recursion: found late whether 31 rules may match nothing", |found, rng| {
        // Rule 0 comes again behind a rule that waits for the next, and so on to the last.
        for rule in [|next| sequence(next, next), |next| choice(next, next)] {
            for (last, named) in [(EMPTY, Some(0)), (not(30), Some(0)), (BYTE, None), (INVERTED, None)] {
                let mut rules = chain(rule, last);
                rules[0] = sequence(1, 0);
                told(found, rng, &rules, named);
                rules[0] = choice(30, 1);
                rules[1] = sequence(2, 0);
                told(found, rng, &rules, named);
            }
        }
    });
    edges.add("recursion: each of 31 rules alone", |found, rng| {
        for rule in 0..31 {
            for one in [not(rule), sequence(rule, 0), choice(0, rule), choice(rule, 30)] {
                let mut rules = [BYTE; 31];
                rules[usize::from(rule)] = one;
                told(found, rng, &rules, Some(rule.into()));
                // All behind it too.
                (rule..31).for_each(|other| rules[usize::from(other)] = not(other));
                told(found, rng, &rules, Some(rule.into()));
            }
            let mut rules = [BYTE; 31];
            rules[usize::from(rule)] = sequence((rule + 1) % 31, rule);
            told(found, rng, &rules, None);
        }
    });
    edges.add("recursion: 31 rules, and 32", |found, rng| {
        for rule in [sequence(0, 0), not(0), EMPTY, BYTE] {
            let named = (rule[0] < 4).then_some(0);
            told(found, rng, &[rule; 31], named);
            let got = check(found, rng, [rule; 32].as_flattened());
            refused(found, "check recursion", got, 11, 128);
        }
    });
}

/// Lengths and wrong rules come before left recursion, wherever that is.
fn order(edges: &mut Edges) {
    edges.add("recursion: 11 first", |found, rng| {
        for length in [0, 1, 2, 3, 5, 6, 7, 121, 122, 123, 125, 126, 127, 128, 129, 132, 4096] {
            for rule in [sequence(0, 0), not(0), EMPTY, [9, 9, 9, 9]] {
                let bytes: Vec<u8> = rule.into_iter().cycle().take(length).collect();
                let got = check(found, rng, &bytes);
                refused(found, "check recursion", got, 11, length);
            }
        }
    });
    let wrong: &[Rule] = &[
        [0, 0, 0, 0],
        [6, 0, 0, 0],
        [1, 3, 0, 0],
        [1, 0, 3, 0],
        [1, 0, 0, 1],
        [2, 3, 0, 0],
        [2, 0, 255, 0],
        [2, 0, 0, 1],
        [3, 3, 0, 0],
        [3, 0, 1, 0],
        [3, 0, 0, 1],
        [4, 1, 0, 0],
        [4, 0, 1, 0],
        [4, 0, 0, 1],
        [5, 97, 98, 1],
    ];
    for &rule in wrong {
        edges.add(format!("recursion: 12 first, {rule:?} among three rules"), move |found, rng| {
            for at in 0..3 {
                for other in [sequence(0, 0), choice(0, 1), not(2), EMPTY] {
                    let mut rules = [other; 3];
                    rules[at] = rule;
                    let got = check(found, rng, rules.as_flattened());
                    refused(found, "check recursion", got, 12, 4 * at);
                }
            }
        });
    }
    edges.add("recursion: 12 first, the last of 31 rules", |found, rng| {
        for rule in [[1, 31, 0, 0], [2, 0, 31, 0], [3, 31, 0, 0], [7, 0, 0, 0]] {
            let mut rules = [not(0); 31];
            rules[30] = rule;
            let got = check(found, rng, rules.as_flattened());
            refused(found, "check recursion", got, 12, 120);
            rules[15] = rule;
            let got = check(found, rng, rules.as_flattened());
            refused(found, "check recursion", got, 12, 60);
        }
    });
}

/// What a refused grammar does on captures.
fn captures(edges: &mut Edges) {
    edges.add("recursion: one that is refused, and ends on every capture", |found, rng| {
        // What stands first always fails, and so rule 0 never comes again.
        let rules = [sequence(1, 0), not(2), EMPTY];
        told(found, rng, &rules, Some(0));
        for image in Matching::BOTH.map(|matching| built(rules.as_flattened(), matching)) {
            for capture in short_captures() {
                let got = judge(found, rng, &image, &capture).map(|judged| judged.verdict);
                found.note(compare::answers("verdict, as told", &Ok(Verdict::Stuck), &got), &[("capture", &capture)]);
            }
        }
    });
    edges.add("recursion: one that rule 0 never comes to loops from there alone", |found, rng| {
        let rules = [BYTE, sequence(1, 1)];
        told(found, rng, &rules, Some(1));
        let from_there = starting_from(1, rules.as_flattened());
        found.note(compare::answers("renumbered", &vec![1, 0, 0, 0, 5, 97, 97, 0], &from_there), &[]);
        for (bytes, verdicts) in [
            (rules.as_flattened(), [Verdict::Stuck, Verdict::Accepted]),
            (&from_there, [Verdict::Looping, Verdict::Looping]),
        ] {
            for (capture, verdict) in [&b""[..], b"a"].into_iter().zip(verdicts) {
                for matching in Matching::BOTH {
                    let room = built(bytes, matching).len();
                    let Ok(image) = sides::build(found, rng, bytes, matching, room) else { return };
                    let got = judge(found, rng, &image, capture).map(|judged| judged.verdict);
                    found.note(compare::answers("verdict, as told", &Ok(verdict), &got), &[("grammar", bytes)]);
                }
            }
        }
    });
}
