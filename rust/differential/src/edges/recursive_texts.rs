//! Left recursion in texts: the rule and the name of its line, told beforehand.

use super::tools::refused;
use super::Edges;
use crate::findings::Findings;
use crate::kinds::text_on;
use crate::rng::Rng;
use crate::{compare, sides};
use model::answer::Refusal;
use model::recursion::TextRefusal;

/// The text passes, or this rule is named, of the line whose name has this offset.
fn told(found: &mut Findings, rng: &mut Rng, text: &[u8], named: Option<(usize, usize)>) {
    let got = sides::check_text_recursion(found, rng, text);
    let told = named
        .map_or(Ok(()), |(place, name)| Err(TextRefusal { refusal: Refusal { number: 19, place }, name: Some(name) }));
    found.note(compare::answers("check text recursion, as told", &told, &got), &[("text", text)]);
}

pub fn add(edges: &mut Edges) {
    rows(edges);
    lines(edges);
    long(edges);
    refusals(edges);
}

/// Written down by hand.
fn rows(edges: &mut Edges) {
    let rows: &[(&str, Option<(usize, usize)>)] = &[
        ("a=.;", None),
        ("a=a;", Some((0, 0))),
        ("a=(a);", Some((0, 0))),
        ("a=!a;", Some((0, 0))),
        ("a=&a;", Some((0, 0))),
        ("a=a?;", Some((0, 0))),
        ("a=a*;", Some((0, 0))),
        ("a=a+;", Some((0, 0))),
        ("a=a .;", Some((0, 0))),
        ("a=. a;", None),
        ("a=. / a;", Some((0, 0))),
        ("a=empty a;", Some((0, 0))),
        ("a=fail a;", None),
        ("a='z-a' a;", None),
        ("a=.? a;", Some((0, 0))),
        ("a=.* a;", Some((0, 0))),
        ("a=.+ a;", None),
        ("a=!. a;", Some((0, 0))),
        ("a=&. a;", Some((0, 0))),
        // Repetitions of what may match nothing.
        ("a=.*;", None),
        ("a=.+;", None),
        ("a=empty*;", Some((0, 0))),
        ("a=fail*;", None),
        ("a=(.?)*;", Some((0, 0))),
        ("a=(.*)*;", Some((0, 0))),
        ("a=.**;", Some((0, 0))),
        ("a=(.*)?;", None),
        ("a=(!.)*;", Some((0, 0))),
        ("a=(. / empty)*;", Some((0, 0))),
        ("a=(. empty)*;", None),
        // In helper rules: the star's choice stands before its sequence.
        ("a=empty+;", Some((2, 0))),
        ("a=.++;", None),
        ("a=.*+;", Some((5, 0))),
        ("a='x-x' (.?)*;", Some((5, 0))),
        ("a=. !(empty*);", Some((3, 0))),
        // In another line than the first, used or not.
        ("a=.;b=b;", Some((1, 4))),
        ("a=. b;b=b;", Some((1, 6))),
        ("a=.;b=c;c=b;", Some((1, 4))),
        ("a=b;b=c;c=a;", Some((0, 0))),
        ("a=b;b=c;c=. a/b;", Some((1, 4))),
        ("a=.;b=!a;c=!!c;", Some((2, 9))),
        ("a=.;b=. (.?)* ;", Some((6, 4))),
        ("a=. (.?)*;b=.+;", Some((6, 0))),
        ("  a=.+;\n b=. (.?)*;c=.;", Some((11, 9))),
        ("b=empty;a=b+;", Some((2, 8))),
        ("a=b+;b=empty;", Some((2, 0))),
        ("a=.;b=.?;c=b*;", Some((2, 9))),
        ("a=.;b=.?;c=. b*;", Some((6, 9))),
        // A line's own rule is lower than every helper, and an earlier line's helper than a later one's.
        ("a=. (.?)*;b=b;", Some((1, 10))),
        ("a=. (.?)*;b=. (.?)*;", Some((6, 0))),
        ("a=.;b=. (.?)*;c=. (.?)*;", Some((7, 4))),
        // Blanks before names and elsewhere.
        (" \n a = a ;", Some((0, 3))),
        ("\n\na\n=\na\n;\n\n", Some((0, 2))),
        ("a=.;\n\n  b=c;c=b;", Some((1, 8))),
        ("aa =. ;\n\n  bbb =!!  bbb\n;", Some((1, 11))),
        ("a = . ; \n b = . ( . ? ) * ;", Some((6, 10))),
        // Ranges with bytes that are letters, signs or blanks elsewhere.
        ("a=';-;' 'b-b';b=b;", Some((1, 14))),
        ("a='\n-b';b=';-b' / b;", Some((1, 8))),
        ("a=''-'' .;b=b;", Some((1, 10))),
        ("a='=-=' ' -;';\n b=. 'a-;'? (';-b'?)*;", Some((11, 16))),
        ("a='b-=';b='a-;'*;c=(b)*;", Some((2, 17))),
        // Names that begin alike, or like the reserved words.
        ("aa=.;a=aaa;aaa=a;", Some((1, 5))),
        ("emptyx=.;fails=fails;", Some((1, 9))),
    ];
    for &(text, named) in rows {
        edges.add(format!("recursion in {text:?}"), move |found, rng| {
            told(found, rng, text.as_bytes(), named);
            for capture in [&b""[..], b"a", b"xx", b"a;b"] {
                text_on(found, rng, text.as_bytes(), capture);
            }
        });
    }
    edges.add("recursion in the text of the examples", |found, rng| {
        const RING: &[u8] = include_bytes!("../../../../examples/ring.peg");
        told(found, rng, RING, None);
        // Its table goes on with a table before a line.
        let other = String::from_utf8(RING.to_vec()).unwrap().replace("line table / line", "table line / line");
        told(found, rng, other.as_bytes(), Some((0, 0)));
    });
}

/// A name for each line.
fn name(line: usize) -> String {
    char::from(b'a' + (line % 26) as u8).to_string().repeat(1 + line / 26)
}

fn lines(edges: &mut Edges) {
    edges.add("recursion in each of 31 lines", |found, rng| {
        for blanks in ["", "\n", "  \n"] {
            for own in 0..31 {
                let line = |line: usize| match line == own {
                    true => format!("{blanks}{0}=!{0};", name(line)),
                    false => format!("{blanks}{}=';-z';", name(line)),
                };
                let text: String = (0..31).map(line).collect();
                let before: usize = (0..own).map(|other| line(other).len()).sum();
                told(found, rng, text.as_bytes(), Some((own, before + blanks.len())));
            }
        }
    });
    edges.add("recursion in a helper rule of each of six lines", |found, rng| {
        // Five rules each: a byte, a star's three, and the line's own. One of them has a star of nothing.
        for own in 0..6 {
            let line = |line: usize| {
                let operand = if line == own { "empty" } else { "'*-;'" };
                format!(" {}=!{operand}*;", name(line))
            };
            let text: String = (0..6).map(line).collect();
            let before: usize = (0..own).map(|other| line(other).len()).sum();
            told(found, rng, text.as_bytes(), Some((6 + 4 * own + 1, before + 1)));
        }
    });
    edges.add("recursion in each of 14 lines that are only a name", |found, rng| {
        // All are the first line's but one, which is its own.
        for own in 1..15 {
            let line = |line: usize| format!("{}={};", name(line), name(if line == own { own } else { 0 }));
            let text = format!("a=.;{}", (1..15).map(line).collect::<String>());
            told(found, rng, text.as_bytes(), Some((own, 4 * own)));
        }
    });
    edges.add("recursion in 31 rules, and 32", |found, rng| {
        let nots = |count: usize| format!("a={}a;", "!".repeat(count));
        told(found, rng, nots(31).as_bytes(), Some((0, 0)));
        let got = sides::check_text_recursion(found, rng, nots(32).as_bytes());
        refused(found, "check text recursion", got.map_err(|got| got.refusal), 16, 36);
        // 25 rules of 13 bytes in a row; and b's: the operand of the star, which is rule 27, and two nots.
        let text = format!("a={}; b=!!(empty*);", " .".repeat(13));
        told(found, rng, text.as_bytes(), Some((27, text.len() - 13)));
        let old = sides::old_grammar(rng);
        let length = sides::read_grammar(found, &old, text.as_bytes()).map(|bytes| bytes.len());
        found.note(compare::answers("31 rules", &Ok(124), &length), &[]);
    });
}

/// Offsets past 16 bits.
fn long(edges: &mut Edges) {
    edges.add("recursion behind a megabyte", |found, rng| {
        let blank = " \n".repeat(500_000);
        told(found, rng, format!("{blank}a=a;").as_bytes(), Some((0, 1_000_000)));
        told(found, rng, format!("a=.;{blank}b={blank}b;{blank}").as_bytes(), Some((1, 1_000_004)));
        told(found, rng, format!("a=.;{blank}b=. empty*;{blank}").as_bytes(), Some((4, 1_000_004)));
        let long = "ab".repeat(250_000);
        told(found, rng, format!("{long}=.;{long}c=!{long}c;").as_bytes(), Some((1, 500_003)));
        told(found, rng, format!("{long}=.;{long}c='a-a';").as_bytes(), None);
    });
}

/// A text that is not read is refused as reading refuses it, whatever leads back in it.
fn refusals(edges: &mut Edges) {
    edges.add("recursion in texts that are not read", |found, rng| {
        for (text, number, place) in [
            ("", 15, 0),
            ("a=a", 15, 3),
            ("a=a;b", 15, 5),
            ("a=a;a=a;", 15, 4),
            ("a=a b;", 15, 4),
            ("a=a;;", 15, 4),
            ("a=a;\t", 15, 4),
            ("a=a;b='a-;", 15, 6),
            ("a=a (((((((((((((((((", 17, 20),
            ("a=a .++++++++;", 16, 14),
            ("a=a .++++++++;b=c;", 15, 16),
        ] {
            let got = sides::check_text_recursion(found, rng, text.as_bytes());
            let told = Err(TextRefusal { refusal: Refusal { number, place }, name: None });
            found.note(compare::answers("check text recursion, as told", &told, &got), &[("text", text.as_bytes())]);
        }
    });
    edges.add("recursion in every cut of a text", |found, rng| {
        let text = b"ab = !'a-z'* (ba / 'x-x' empty)? &. ;\n ba = (ba?)+ / ab ;\n ";
        for length in 0..=text.len() {
            text_on(found, rng, &text[..length], b"ab");
        }
        told(found, rng, text, Some((0, 0)));
    });
}
