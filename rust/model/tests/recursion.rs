//! Left recursion in grammars and texts whose answers were written down by hand, held against the model itself.

use model::answer::Refusal;
use model::grammar::{self, Part};
use model::parse::{parse_from, Parsed};
use model::recursion::{check, check_text, leads_to, lowest, matching_nothing, TextRefusal};
use model::text::{lines, read};

fn passes(rules: &[[u8; 4]]) {
    assert_eq!(check(rules.as_flattened()), Ok(()), "{rules:?}");
}

/// The lowest rule that leads back to itself is this one.
fn named(rules: &[[u8; 4]], rule: usize) {
    refused(rules.as_flattened(), 19, rule);
}

fn refused(bytes: &[u8], number: u32, place: usize) {
    assert_eq!(check(bytes), Err(Refusal { number, place }), "{bytes:?}");
}

fn sequence(b: usize, c: usize) -> [u8; 4] {
    [1, b as u8, c as u8, 0]
}

fn choice(b: usize, c: usize) -> [u8; 4] {
    [2, b as u8, c as u8, 0]
}

fn not(b: usize) -> [u8; 4] {
    [3, b as u8, 0, 0]
}

const EMPTY: [u8; 4] = [4, 0, 0, 0];
const BYTE: [u8; 4] = [5, b'a', b'a', 0];
/// It has no byte, and always fails.
const INVERTED: [u8; 4] = [5, b'b', b'a', 0];

#[test]
fn the_document_s_grammars() {
    passes(&[EMPTY]);
    passes(&[BYTE]);
    // C5.
    refused(&[1, 0, 0, 0], 19, 0);
    passes(&[sequence(1, 1), sequence(2, 2), EMPTY]);
    passes(&[not(1), BYTE]);
    passes(&[choice(1, 2), BYTE, EMPTY]);
}

#[test]
fn a_star_of_what_may_match_nothing() {
    let grammar = read(b"a=(.?)*;").unwrap().grammar();
    let rules = [choice(4, 5), [5, 0, 255, 0], EMPTY, choice(1, 2), sequence(3, 0), EMPTY];
    assert_eq!(grammar, rules.as_flattened());
    named(&rules, 0);
    let parts = grammar::read(&grammar).unwrap();
    let nothing = matching_nothing(&parts);
    assert_eq!(nothing, [true, false, true, true, true, true]);
    let leads: Vec<Vec<usize>> = parts.iter().map(|&part| leads_to(part, &nothing)).collect();
    assert_eq!(leads, [vec![4, 5], vec![], vec![], vec![1, 2], vec![3, 0], vec![]]);
    // Of what always consumes it passes.
    passes(&[choice(2, 3), BYTE, sequence(1, 0), EMPTY]);
}

#[test]
fn sequences() {
    // The first part always consumes, or fails: a byte, one of two, a byte and more, a range that has no byte.
    passes(&[sequence(1, 0), BYTE]);
    passes(&[sequence(1, 0), INVERTED]);
    passes(&[sequence(1, 0), choice(2, 2), BYTE]);
    passes(&[sequence(1, 0), sequence(2, 3), BYTE, EMPTY]);
    passes(&[sequence(1, 0), sequence(3, 2), BYTE, EMPTY]);
    // It may match nothing.
    named(&[sequence(1, 0), EMPTY], 0);
    named(&[sequence(1, 0), choice(2, 3), BYTE, EMPTY], 0);
    named(&[sequence(1, 0), choice(3, 2), BYTE, EMPTY], 0);
    named(&[sequence(1, 0), sequence(2, 2), EMPTY], 0);
    named(&[sequence(1, 0), sequence(2, 2), choice(3, 4), BYTE, EMPTY], 0);
    // The first part itself, whatever it matches.
    named(&[sequence(0, 1), BYTE], 0);
}

#[test]
fn choices() {
    passes(&[choice(1, 2), BYTE, sequence(1, 0)]);
    named(&[choice(0, 1), EMPTY], 0);
    // Its second part too, though the first never fails.
    named(&[choice(1, 0), EMPTY], 0);
    named(&[choice(1, 2), EMPTY, choice(0, 1)], 0);
}

#[test]
fn nots() {
    passes(&[not(1), BYTE]);
    passes(&[not(1), not(2), EMPTY]);
    named(&[not(0)], 0);
    named(&[not(1), not(0)], 0);
    // A not may match nothing, of whatever it is.
    named(&[sequence(1, 0), not(2), BYTE], 0);
    named(&[sequence(1, 0), not(2), INVERTED], 0);
    // This one always fails, so there is no capture on which parsing would not end. It is named all the same.
    named(&[sequence(1, 0), not(2), EMPTY], 0);
    passes(&[sequence(2, 1), not(2), BYTE]);
}

#[test]
fn the_least_set() {
    // Rule 1 would be in a greater set, by its own leave, and rule 0 would then lead back.
    named(&[sequence(1, 0), choice(1, 1)], 1);
    named(&[sequence(1, 0), choice(2, 3), sequence(1, 1), BYTE], 1);
    let parts = [Part::Sequence(0, 0), Part::Choice(1, 1), Part::Choice(3, 2), Part::Sequence(2, 2)];
    assert_eq!(matching_nothing(&parts), [false; 4]);
    // Found late: each rule waits for the next one.
    let late: Vec<[u8; 4]> = (1..31).map(|next| sequence(next, next)).chain([EMPTY]).collect();
    assert_eq!(matching_nothing(&grammar::read(late.as_flattened()).unwrap()), [true; 31]);
    passes(&late);
}

#[test]
fn the_lowest() {
    // Rule 0 never comes to the rules that lead back.
    named(&[EMPTY, sequence(1, 1)], 1);
    named(&[BYTE, BYTE, choice(3, 0), choice(2, 0)], 2);
    // Two circles, beside each other and one around the other.
    named(&[BYTE, choice(2, 0), choice(1, 0), not(3)], 1);
    named(&[BYTE, choice(4, 0), not(3), choice(2, 0), choice(1, 0)], 1);
    named(&[not(1), choice(1, 0)], 0);
    // Rules that lead into a circle are not on it.
    named(&[choice(1, 2), sequence(1, 2), EMPTY], 1);
    named(&[not(1), not(2), not(3), choice(4, 3), EMPTY], 3);
    named(&[sequence(2, 2), sequence(0, 0), not(3), not(2)], 2);
    // From the first rule to the last, and back to each.
    for rule in 0..31 {
        let mut rules: Vec<[u8; 4]> = (1..31).map(|next| choice(next, next)).collect();
        rules.push(not(rule));
        named(&rules, rule);
        rules[30] = BYTE;
        passes(&rules);
    }
}

#[test]
fn other_refusals_come_first() {
    refused(&[], 11, 0);
    refused(&[1, 0, 0, 0, 9], 11, 5);
    refused(&[1, 0, 0, 0].repeat(32), 11, 128);
    named(&[[1, 0, 0, 0]; 31], 0);
    refused(&[1, 0, 0, 0, 6, 0, 0, 0], 12, 4);
    refused(&[1, 0, 0, 0, 1, 2, 0, 0], 12, 4);
    refused(&[1, 0, 0, 1], 12, 0);
}

/// Where a grammar of up to two rules passes, every rule comes to a result at every place of every short capture.
#[test]
fn what_passes_ends() {
    let (mut passed, mut without_end, mut with_end) = (0, 0, 0);
    for m in 1..=2 {
        let mut all = vec![Part::Empty, Part::Byte(b'a', b'a'), Part::Byte(b'b', b'a')];
        for b in 0..m {
            all.push(Part::Not(b));
            all.extend((0..m).flat_map(|c| [Part::Sequence(b, c), Part::Choice(b, c)]));
        }
        for number in 0..all.len().pow(m as u32) {
            let rules: Vec<Part> = (0..m).map(|at| all[number / all.len().pow(at as u32) % all.len()]).collect();
            let mut results = [&b""[..], b"a", b"b", b"aa", b"ab", b"ba"].into_iter().flat_map(|capture| {
                let starts = (0..m).flat_map(|rule| (0..=capture.len()).map(move |place| (rule, place)));
                starts.map(|start| parse_from(&rules, capture, start, 1000).unwrap()).collect::<Vec<_>>()
            });
            let ends = results.all(|result| result != Parsed::NoResult);
            match lowest(&rules) {
                None => assert!(ends, "{rules:?}"),
                Some(_) if ends => with_end += 1,
                Some(_) => without_end += 1,
            }
            passed += lowest(&rules).is_none() as usize;
        }
    }
    // Of one rule the three that name none. Of two: none names a rule (9), or one of them names the other (11 each): not,
    // and twice in a sequence or a choice (3 leaves each), or in a sequence before itself (2 leaves that consume).
    assert_eq!((passed, with_end + without_end), (3 + 9 + 11 + 11, 6 + 169 - 34));
    assert!(with_end > 0 && without_end > with_end, "{with_end} refused ones always end");
}

fn text_passes(text: &str) {
    assert_eq!(check_text(text.as_bytes()), Ok(()), "{text}");
}

/// The rule, and the offset of its line's name.
fn text_named(text: &str, rule: usize, name: usize) {
    let refusal = Refusal { number: 19, place: rule };
    assert_eq!(check_text(text.as_bytes()), Err(TextRefusal { refusal, name: Some(name) }), "{text}");
}

#[test]
fn texts() {
    text_passes("a=.*;");
    text_passes("a=. a/empty;");
    text_passes("a=!b c;b=.;c='a-b'+ a?;");
    text_named("a=a;", 0, 0);
    text_named("a=(.?)*;", 0, 0);
    text_named("a=&a;", 0, 0);
    text_named("a=a . / .;", 0, 0);
    // A line's own rule, not the first: a line further down, and one that the first does not use.
    text_named("a=.;b=b;", 1, 4);
    text_named("a=.;b=c;c=b;", 1, 4);
    text_named("a=.;b=!a;c=!!c;", 2, 9);
    text_named("a=b;b=c;c=. c/b;", 1, 4);
    // Blanks before a name.
    text_named(" \n a = a ;", 0, 3);
    text_named("a=.;\n\n  b=c;c=b;", 1, 8);
    text_named("aa =. ;\n\n  bbb =!!  bbb\n;", 1, 11);
    // What stands in a range is no name, and ends no line.
    text_named("a=';-;' 'b-b';b=b;", 1, 14);
    text_named("a='\n-b';b=';-b' / b;", 1, 8);
    text_named("a=''-'' .;b=b;", 1, 10);
}

#[test]
fn helper_rules_of_texts() {
    // Rules 0; 1 x; 2 byte; 3 empty; 4 byte or empty; 5 star, 6, 7.
    text_named("a='x-x' (.?)*;", 5, 0);
    // Rules 0, 1; of b: 2 byte; 3 byte; 4 empty; 5 byte or empty; 6 star, 7, 8.
    text_named("a=.;b=. (.?)* ;", 6, 4);
    // Of a the same; those of b come after.
    text_named("a=. (.?)*;b=.+;", 6, 0);
    text_named("  a=.+;\n b=. (.?)*;c=.;", 11, 9);
    // The operand of the plus is a line: the star of it is rule 2, 3 and 4.
    text_named("a=b+;b=empty;", 2, 0);
    text_named("b=empty;a=b+;", 2, 8);
    // In the last line, whose helpers are the last ones.
    text_named("a=.;b=.?;c=b*;", 2, 9);
    text_named("a=.;b=.?;c=. b*;", 6, 9);
}

#[test]
fn texts_that_are_not_read() {
    let refused = |text: &str, number, place| {
        let refusal = Refusal { number, place };
        assert_eq!(check_text(text.as_bytes()), Err(TextRefusal { refusal, name: None }), "{text}");
    };
    refused("", 15, 0);
    refused("a=a;b", 15, 5);
    refused("a=a;a=a;", 15, 4);
    refused("a=a b;", 15, 4);
    refused("a=a (((((((((((((((((", 17, 20);
    refused("a=a .++++++++;", 16, 14);
    let most = |rules: usize| format!("a={}a;", "!".repeat(rules));
    text_named(&most(31), 0, 0);
    refused(&most(32), 16, 36);
}

/// The lines of rules are as many as each line needs: the text up to it, less the text before it.
#[test]
fn lines_of_rules() {
    let text = ["a=.* 'a-b'?;", "b=a;", " c = (a/b)+ !c;", "d='a-b';", "\ne=&(d+ / empty)*;", "f=fail;"];
    let needs = |count: usize| text[..count].concat();
    let needs = |count: usize| if count == 0 { 0 } else { lines(needs(count).as_bytes()).unwrap().needs() };
    let typed = read(text.concat().as_bytes()).unwrap();
    let of_rules = typed.line_of_each_rule();
    assert_eq!((of_rules.len(), typed.grammar().len()), (needs(6), 4 * needs(6)));
    for line in 0..6 {
        assert_eq!(of_rules.iter().filter(|&&of| of == line).count(), needs(line + 1) - needs(line), "line {line}");
        assert_eq!(of_rules[line], line);
    }
    assert!(of_rules[6..].is_sorted(), "the helpers of a line, then those of the next one");
    assert_eq!(typed.names, [0, 12, 17, 31, 40, 57]);
}
