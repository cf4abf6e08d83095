//! Texts: each refusal with the place told beforehand, the most and the least of everything, long ones, and what a
//! refused call leaves.

use super::tools::*;
use super::Edges;
use crate::findings::Findings;
use crate::kinds::text_on;
use crate::program::{compare_read_text, read_text_path};
use crate::rng::Rng;
use crate::sides::{self, Lent};
use crate::{compare, texts};
use model::answer::Verdict::*;
use model::building::Matching;

/// Every call that takes a text refuses it so, whatever else is wrong with the call.
fn text_refused(found: &mut Findings, rng: &mut Rng, text: &[u8], number: u32, place: usize) {
    let old = sides::old_grammar(rng);
    let got = sides::read_grammar(found, &old, text);
    refused(found, "read grammar", got, number, place);
    let got = sides::check_text_recursion(found, rng, text);
    refused(found, "check text recursion", got.map_err(|got| got.refusal), number, place);
    for (image, cells) in [(82_188, 1000), (82_188, 0), (0, 1000), (0, 0)] {
        let got = sides::build_text(found, rng, text, image);
        refused(found, "build text", got, number, place);
        for length in [0, 70_000] {
            let lent = Lent { image, notes: cells, work: cells };
            let got = sides::judge_text(found, rng, text, &vec![0; length], lent);
            refused(found, "judge text", got, number, place);
        }
    }
}

/// Reading gives these bytes.
fn gives(found: &mut Findings, rng: &mut Rng, text: &[u8], bytes: &[u8]) {
    let old = sides::old_grammar(rng);
    let got = sides::read_grammar(found, &old, text);
    found.note(compare::answers("grammar, as told", &Ok(bytes.to_vec()), &got), &[("text", text)]);
}

/// The text needs so many rules, and is read with just so many or refused.
fn needs(found: &mut Findings, rng: &mut Rng, text: &str, rules: usize) {
    let text = text.as_bytes();
    if rules > 31 {
        text_refused(found, rng, text, 16, text.len());
        return;
    }
    let old = sides::old_grammar(rng);
    let got = sides::read_grammar(found, &old, text).map(|bytes| bytes.len() / 4);
    found.note(compare::answers("rules, as told", &Ok(rules), &got), &[("text", text)]);
    for capture in [&b""[..], b"a", b"aaaa", b"ab\0c"] {
        text_on(found, rng, text, capture);
    }
}

pub fn add(edges: &mut Edges) {
    told(edges);
    bytes(edges);
    depth(edges);
    rules(edges);
    grammars(edges);
    order(edges);
    long(edges);
    ring(edges);
    program(edges);
}

/// Refusals whose number and place were written down by hand.
fn told(edges: &mut Edges) {
    let rows: &[(&str, u32, usize)] = &[
        ("", 15, 0),
        (" ", 15, 1),
        ("\n \n", 15, 3),
        ("a", 15, 1),
        ("a ", 15, 2),
        ("a=", 15, 2),
        ("a=b", 15, 3),
        ("a=b ", 15, 4),
        ("a=(.)", 15, 5),
        ("a=.;b", 15, 5),
        ("a=.;b=", 15, 6),
        ("a=;", 15, 2),
        ("a=();", 15, 3),
        ("a=./;", 15, 4),
        ("a=.//.;", 15, 4),
        ("a=/.;", 15, 2),
        ("a=(/.);", 15, 3),
        ("a=(.;", 15, 4),
        ("a=.);", 15, 3),
        ("a=*;", 15, 2),
        ("a=!;", 15, 3),
        ("a=!*;", 15, 3),
        ("a=.!;", 15, 4),
        ("a=.=.;", 15, 3),
        ("a==.;", 15, 2),
        ("a.;", 15, 1),
        ("a b=.;", 15, 2),
        ("=.;", 15, 0),
        (";", 15, 0),
        ("a=.;;", 15, 4),
        ("a=.;.", 15, 4),
        ("a='a-z' 'b';", 15, 8),
        ("a='ab-c';", 15, 2),
        ("a='a-z", 15, 2),
        ("a='a-", 15, 2),
        ("a='a", 15, 2),
        ("a='", 15, 2),
        ("a=a-z;", 15, 3),
        ("a='a_z';", 15, 2),
        ("a='a-z;'", 15, 2),
        ("'a-z'=.;", 15, 0),
        ("empty=.;", 15, 0),
        ("fail=.;", 15, 0),
        ("a=.;empty=.;", 15, 4),
        ("a=emptyx;", 15, 2),
        ("a=empt;", 15, 2),
        ("a=failure;", 15, 2),
        ("a=.;a", 15, 4),
        ("a=b;a=.;", 15, 4),
        ("a=.;b=.;b=.;", 15, 8),
        ("a=.;b=.;a=.;", 15, 8),
        ("a=b;", 15, 2),
        ("a=. b;c=d;", 15, 4),
        ("a=c;b=d;", 15, 2),
        ("a=aa;", 15, 2),
        ("aa=a;", 15, 3),
        ("a=b;_", 15, 4),
        ("a=\t.;", 15, 2),
        ("a=.;\r\n", 15, 4),
        ("a=.++++++++;", 16, 12),
        ("a=.++++++++;\n\n", 16, 14),
        ("a=.++++++++;b=c;", 15, 14),
        ("a=(((((((((((((((((", 17, 18),
        ("a=b (((((((((((((((((", 17, 20),
        ("a=;(((((((((((((((((", 15, 2),
        ("a=.++++++++(((((((((((((((((", 17, 27),
    ];
    for &(text, number, place) in rows {
        edges.add(format!("text {text:?}"), move |found, rng| text_refused(found, rng, text.as_bytes(), number, place));
    }
}

/// Each byte where an operand, a sign or a range's byte may stand.
fn bytes(edges: &mut Edges) {
    edges.add("text: each byte as an operand", |found, rng| {
        for byte in 0..=255 {
            let text = [b'a', b'=', byte, b';'];
            match byte {
                b'.' => gives(found, rng, &text, &[5, 0, 255, 0]),
                b'a' => gives(found, rng, &text, &[1, 0, 1, 0, 4, 0, 0, 0]),
                b'!' | b'&' => text_refused(found, rng, &text, 15, 3),
                b' ' | b'\n' => text_refused(found, rng, &text, 15, 3),
                b'(' => text_refused(found, rng, &text, 15, 3),
                _ => text_refused(found, rng, &text, 15, 2),
            }
        }
    });
    edges.add("text: each byte between and around lines", |found, rng| {
        for byte in 0..=255 {
            let old = sides::old_grammar(rng);
            for text in
                [[&[byte][..], b"a=.;"].concat(), [b"a=.;", &[byte][..]].concat(), [b"a=.", &[byte][..], b";"].concat()]
            {
                let _ = sides::read_grammar(found, &old, &text);
            }
            if !matches!(byte, b' ' | b'\n' | b'a'..=b'z') {
                text_refused(found, rng, &[b"a=.;", &[byte][..]].concat(), 15, 4);
            }
        }
    });
    edges.add("text: each byte at both ends of a range", |found, rng| {
        for low in 0..=255 {
            for high in [0, 1, 9, 10, 13, 32, 39, 45, 59, 61, 127, 128, low, 254, 255] {
                gives(found, rng, &[b'a', b'=', b'\'', low, b'-', high, b'\'', b';'], &[5, low, high, 0]);
                gives(found, rng, &[b'a', b'=', b'\'', high, b'-', low, b'\'', b';'], &[5, high, low, 0]);
            }
        }
    });
    edges.add("text: every cut of a right one", |found, rng| {
        let text = b"ab = !'a-z'* (ab / 'x-x' empty)? &. ;\n b = fail + / ab ;\n ";
        for length in 0..=text.len() {
            text_on(found, rng, &text[..length], b"ab");
        }
    });
}

fn depth(edges: &mut Edges) {
    let nested = |open: usize, close: usize| format!("a={}.{};", "(".repeat(open), ")".repeat(close));
    edges.add("text: 16 parentheses open, and 17", move |found, rng| {
        for open in 0..=16 {
            gives(found, rng, nested(open, open).as_bytes(), &[5, 0, 255, 0]);
            let (number, place) = if open < 16 { (15, 2 * open + 4) } else { (17, 18) };
            text_refused(found, rng, nested(open + 1, open).as_bytes(), number, place);
            text_refused(found, rng, nested(open, open + 1).as_bytes(), 15, 2 * open + 3);
        }
        for open in [17, 18, 100, 1000] {
            text_refused(found, rng, nested(open, open).as_bytes(), 17, 18);
        }
    });
    edges.add("text: 17 parentheses, but 16 open at once", |found, rng| {
        let text = format!("a={}.{}(.);", "(".repeat(16), ")".repeat(16));
        needs(found, rng, &text, 3);
        let text = format!("a={}.)(.){};", "(".repeat(16), ")".repeat(15));
        needs(found, rng, &text, 3);
        let text = format!("a={}.)((.)){};", "(".repeat(16), ")".repeat(15));
        text_refused(found, rng, text.as_bytes(), 17, 21);
    });
}

/// Exactly 31 and 32 rules, by each construct.
fn rules(edges: &mut Edges) {
    // What is repeated with blanks around it, before what, and how many of it are 31 rules; one more rule comes by a not.
    let rows: &[(&str, &str, &str, usize)] = &[
        ("sequences", "a=a", " a", 31),
        ("choices", "a=a", " / a", 31),
        ("nots", "a=", "! ", 31),
        ("sequences of bytes", "a=.", " .", 15),
        ("choices of ranges", "a='b-c'", " / 'b-c'", 15),
        ("choices of nothing", "a=empty", " / empty", 15),
        ("sequences of failures", "a=fail", " fail", 15),
        ("sequences in parentheses", "a=(.)", " ((.))", 15),
    ];
    for &(name, begin, more, count) in rows {
        edges.add(format!("text: 31 and 32 rules by {name}"), move |found, rng| {
            let end = if begin == "a=" { "a" } else { "" };
            for rules in [31, 32] {
                let text = format!("{begin}{}{end};", more.repeat(count));
                let text = if rules == 32 { text.replace("a=", "a=!(").replace(';', ");") } else { text };
                needs(found, rng, &text, rules);
            }
            // And just one construct more.
            let text = format!("{begin}{}{end};", more.repeat(count + 1));
            text_refused(found, rng, text.as_bytes(), 16, text.len());
        });
    }
    // The rules that one of them needs. Nots fill up what is missing.
    for (name, sign, each) in [("&", "&", 2), ("?", "?", 2), ("*", "*", 3), ("+", "+", 4)] {
        edges.add(format!("text: 31 and 32 rules by {name}"), move |found, rng| {
            for rules in [31, 32] {
                let (count, nots) = ((rules - 1) / each, (rules - 1) % each);
                let (signs, nots) = (sign.repeat(count), "!".repeat(nots));
                let text = if sign == "&" { format!("a={nots}{signs}.;") } else { format!("a={nots}.{signs};") };
                needs(found, rng, &text, rules);
                // At the top of a line, and as the operand of something.
                let text = if sign == "&" { format!("a={signs}{nots}.;") } else { format!("a=({nots}.){signs};") };
                needs(found, rng, &text, rules);
            }
        });
    }
    edges.add("text: 31 and 32 lines", |found, rng| {
        let line =
            |number: usize| format!("{}=.;", char::from(b'a' + number as u8 % 26).to_string().repeat(1 + number / 26));
        for lines in [1, 30, 31, 32, 33, 100] {
            let text: String = (0..lines).map(line).collect();
            needs(found, rng, &text, lines);
        }
    });
    edges.add("text: 31 and 32 rules by lines that are only a name", |found, rng| {
        let bare = |number: usize| format!("{}=((a));", char::from(b'b' + number as u8));
        for (first, rules) in [("a=.;", 31), ("a=!.;", 32), ("a=a;", 32)] {
            let text: String = (0..15).map(bare).collect();
            needs(found, rng, &format!("{first}{text}"), rules);
        }
    });
    edges.add("text: over 31 rules, far over", |found, rng| {
        for (begin, more, end) in [
            ("a=", "!", ".;"),
            ("a=", "&", "a;"),
            ("a=.", "*", ";"),
            ("a=a", " a", ";"),
            ("a=a", "/a", ";"),
            ("a=", "(.)", ";"),
        ] {
            for count in [60, 255, 256, 257, 1000, 65_536, 300_000] {
                let text = [begin, &more.repeat(count), end].concat();
                let old = sides::old_grammar(rng);
                let got = sides::read_grammar(found, &old, text.as_bytes());
                refused(found, "read grammar", got, 16, text.len());
            }
        }
    });
}

/// Grammars whose bytes were written down by hand.
fn grammars(edges: &mut Edges) {
    let rows: &[(&str, &[[u8; 4]])] = &[
        ("a=.;", &[[5, 0, 255, 0]]),
        ("a=fail;", &[[5, 1, 0, 0]]),
        ("a=empty;", &[[4, 0, 0, 0]]),
        ("a='z-a';", &[[5, b'z', b'a', 0]]),
        ("a=a;", &[[1, 0, 1, 0], [4, 0, 0, 0]]),
        ("a=(b);b=.;", &[[1, 1, 2, 0], [5, 0, 255, 0], [4, 0, 0, 0]]),
        ("a=!.;", &[[3, 1, 0, 0], [5, 0, 255, 0]]),
        ("a=&.;", &[[3, 2, 0, 0], [5, 0, 255, 0], [3, 1, 0, 0]]),
        ("a=.?;", &[[2, 1, 2, 0], [5, 0, 255, 0], [4, 0, 0, 0]]),
        ("a=.*;", &[[2, 2, 3, 0], [5, 0, 255, 0], [1, 1, 0, 0], [4, 0, 0, 0]]),
        ("a=.+;", &[[1, 1, 2, 0], [5, 0, 255, 0], [2, 3, 4, 0], [1, 1, 2, 0], [4, 0, 0, 0]]),
        ("a=a*;", &[[2, 1, 2, 0], [1, 0, 0, 0], [4, 0, 0, 0]]),
        ("a=!.*;", &[[3, 2, 0, 0], [5, 0, 255, 0], [2, 3, 4, 0], [1, 1, 2, 0], [4, 0, 0, 0]]),
        ("a=(!.)*;", &[[2, 3, 4, 0], [5, 0, 255, 0], [3, 1, 0, 0], [1, 2, 0, 0], [4, 0, 0, 0]]),
        ("a=&!.;", &[[3, 3, 0, 0], [5, 0, 255, 0], [3, 1, 0, 0], [3, 2, 0, 0]]),
        ("a=a b b;b=.;", &[[1, 0, 2, 0], [5, 0, 255, 0], [1, 1, 1, 0]]),
        ("a=(a b) b;b=.;", &[[1, 2, 1, 0], [5, 0, 255, 0], [1, 0, 1, 0]]),
        ("a=a/b/b;b=.;", &[[2, 0, 2, 0], [5, 0, 255, 0], [2, 1, 1, 0]]),
        ("a=(a/b)/b;b=.;", &[[2, 2, 1, 0], [5, 0, 255, 0], [2, 0, 1, 0]]),
        ("a=a b/b a;b=.;", &[[2, 2, 3, 0], [5, 0, 255, 0], [1, 0, 1, 0], [1, 1, 0, 0]]),
        ("b=.;a=b;", &[[5, 0, 255, 0], [1, 0, 2, 0], [4, 0, 0, 0]]),
    ];
    for &(text, rules) in rows {
        edges.add(format!("text {text:?}, its grammar"), move |found, rng| {
            gives(found, rng, text.as_bytes(), rules.as_flattened());
            for capture in [&b""[..], b"a", b"aa", b"\xff\0"] {
                text_on(found, rng, text.as_bytes(), capture);
            }
        });
    }
    edges.add("text: one token a line, and all in a line", |found, rng| {
        let bytes =
            [1, 3, 4, 0, 2, 6, 7, 0, 4, 0, 0, 0, 2, 1, 2, 0, 5, 0, 255, 0, 5, 97, 98, 0, 1, 5, 1, 0, 5, 0, 255, 0];
        let tokens = ["a", "=", "b", "?", ".", ";", "b", "=", "'a-b'", "b", "/", ".", ";"];
        for blank in [" ", "\n", "  ", "\n\n \n"] {
            gives(found, rng, tokens.join(blank).as_bytes(), &bytes);
            gives(found, rng, format!("{blank}{}{blank}", tokens.join(blank)).as_bytes(), &bytes);
        }
        gives(found, rng, tokens.concat().as_bytes(), &bytes);
    });
}

/// Which refusal wins, with everything after it wrong too; and none changes a byte or a cell.
fn order(edges: &mut Edges) {
    edges.add("text: refusals 13, 7, 8 and 9 in order", |found, rng| {
        // Five rules, three classes: an image of 1,388 bytes, and 55 cells a place.
        let (text, image) = (b"a='a-z'+;", 288 + 4 * 5 * 5 * 11);
        let got = sides::build_text(found, rng, text, image).map(|image| image.len());
        found.note(compare::answers("length, as told", &Ok(image), &got), &[]);
        for room in [0, 1, 287, image - 1] {
            let got = sides::build_text(found, rng, text, room);
            refused(found, "build text", got, 13, image);
            for (length, cells) in [(70_000, 0), (3, 0), (3, 275)] {
                let lent = Lent { image: room, notes: cells, work: cells };
                let got = sides::judge_text(found, rng, text, &vec![b'a'; length], lent);
                refused(found, "judge text", got, 13, image);
            }
        }
        for length in [65_536, 70_000] {
            let got = sides::judge_text(found, rng, text, &vec![b'a'; length], Lent { image, notes: 0, work: 0 });
            refused(found, "judge text", got, 7, length);
        }
        for (notes, work, number) in [(0, 0, 8), (274, 0, 8), (274, 275, 8), (275, 274, 9), (275, 0, 9), (1000, 274, 9)]
        {
            let got = sides::judge_text(found, rng, text, b"abc", Lent { image, notes, work });
            refused(found, "judge text", got, number, 275);
        }
        for (more, notes, work) in [(0, 275, 275), (1, 276, 275), (100, 400, 300)] {
            let lent = Lent { image: image + more, notes, work };
            let got = sides::judge_text(found, rng, text, b"abc", lent).map(|judged| judged.verdict);
            found.note(compare::answers("verdict", &Ok(Accepted), &got), &[]);
        }
    });
    edges.add("text: short of everything by a little, at random", |found, rng| {
        for _ in 0..500 {
            let (text, capture) = texts::with_capture(rng);
            let old = sides::old_grammar(rng);
            let Ok(bytes) = sides::read_grammar(found, &old, &text) else { return };
            let image = built(&bytes, Matching::Whole).len();
            let cells = 5 * (capture.len() + 2) * (bytes.len() / 2 + 1);
            let mut some = |needed: usize| (needed + 2).saturating_sub(rng.below(5));
            let lent = Lent { image: some(image), notes: some(cells), work: some(cells) };
            let _ = sides::judge_text(found, rng, &text, &capture, lent);
        }
    });
}

/// A name for each number, all of one length.
fn name(number: usize) -> String {
    format!("{number:05}").bytes().map(|digit| char::from(b'a' + digit - b'0')).collect()
}

fn long(edges: &mut Edges) {
    // A look at a name goes through all lines before it, so the longest text is read once.
    let lines = |count| (0..count).map(|number| format!("{}=.;\n", name(number))).collect::<String>();
    for (count, again) in [(10_000, 5000), (2000, 0), (2000, 1999)] {
        edges.add(format!("text: {count} lines, and then line {again} again"), move |found, rng| {
            let (old, lines) = (sides::old_grammar(rng), lines(count));
            let text = format!("{lines}{}=.;", name(again));
            let got = sides::read_grammar(found, &old, text.as_bytes());
            refused(found, "read grammar", got, 15, lines.len());
        });
    }
    edges.add("text: 2000 lines, and then a name that is not there, or none", move |found, rng| {
        let (old, lines) = (sides::old_grammar(rng), lines(2000));
        let got = sides::read_grammar(found, &old, format!("{lines}a=b;").as_bytes());
        refused(found, "read grammar", got, 15, lines.len() + 2);
        let got = sides::read_grammar(found, &old, lines.as_bytes());
        refused(found, "read grammar", got, 16, lines.len());
    });
    edges.add("text: a megabyte, and then an error", |found, rng| {
        let old = sides::old_grammar(rng);
        for begin in [
            format!("a={}.", "('a-z' / .)* !b+ empty / fail? ".repeat(33_000)),
            format!("a={}b.", "!&".repeat(500_000)),
            format!("a={}.", " \n".repeat(500_000)),
            format!("a={}.", "a".repeat(1_000_000)),
            format!("{}a=.", " ".repeat(1_000_000)),
            format!("a={} .", "((((((((((((((((''-''))))))))))))))))/".repeat(25_000)),
        ] {
            let end = begin.len();
            for (more, number, place) in [
                ("", 15, end),
                ("_", 15, end),
                ("'a-b", 15, end),
                ("=", 15, end),
                (")", 15, end),
                (";;", 15, end + 1),
                (";a=", 15, end + 1),
                (";c=.;c=.;", 15, end + 5),
                ("(((((((((((((((((", 17, end + 16),
                ("(((((((((((((((( (", 17, end + 17),
            ] {
                let text = format!("{begin}{more}");
                let got = sides::read_grammar(found, &old, text.as_bytes());
                refused(found, "read grammar", got, number, place);
            }
        }
    });
    edges.add("text: a megabyte that is read", |found, rng| {
        let blank = " \n".repeat(250_000);
        gives(found, rng, format!("{blank}a={blank}.;").as_bytes(), &[5, 0, 255, 0]);
        let long = "ab".repeat(250_000);
        let text = format!("{long}={long} {long}c;{long}c='a-a';");
        gives(found, rng, text.as_bytes(), &[1, 0, 1, 0, 5, b'a', b'a', 0]);
        // Names that differ in the last letter alone, or in length.
        let text = format!("{long}={long}d;{long}c='a-a';");
        text_refused(found, rng, text.as_bytes(), 15, long.len() + 1);
        text_on(found, rng, format!("a='a-z'+{blank};").as_bytes(), b"abc");
    });
    edges.add("text: the longest capture", |found, rng| {
        let letters = vec![b'q'; 65_535];
        text_on(found, rng, b"a='a-z'*;", &letters);
        text_on(
            found,
            rng,
            b"line = word (' - ' word)* '\n-\n'; word = 'a-z'+;",
            &[&letters[..65_534], b"\n"].concat(),
        );
        text_on(found, rng, b"a = (.?)*;", &letters);
    });
}

/// The grammar of the examples as text: its rules are those of the bytes, but for their numbers, and so is its work.
fn ring(edges: &mut Edges) {
    const TEXT: &[u8] = include_bytes!("../../../../examples/ring.peg");
    const FORMED: &[u8] = include_bytes!("../../../../examples/formed.capture");
    const BROKEN: &[u8] = include_bytes!("../../../../examples/broken.capture");
    edges.add("text: the ring of the examples", |found, rng| {
        for (capture, verdict, readings, end) in [(FORMED, Accepted, 174, (2, 25, 0)), (BROKEN, Stuck, 105, (2, 13, 0))]
        {
            text_on(found, rng, TEXT, capture);
            let Ok(image) = sides::build_text(found, rng, TEXT, 82_188) else { return };
            expect(found, rng, (&image, capture), verdict, Some(readings), end);
        }
    });
}

/// The program that reads a text.
fn program(edges: &mut Edges) {
    edges.add("read_text: it is there", |found, _| {
        found.note(compare::answers("program", &true, &read_text_path().is_file()), &[]);
    });
    edges.add("read_text: grammars and refusals", |found, _| {
        for text in ["a=.;", "a=b;", "", "a=.++++++++;", "a=(((((((((((((((((", "a=a a a a a;", "a='\n-\n';"] {
            compare_read_text(found, text.as_bytes(), 1 + text.len());
            compare_read_text(found, text.as_bytes(), 1);
        }
        let most = format!("a={}a;", "! ".repeat(31));
        compare_read_text(found, most.as_bytes(), most.len());
    });
    edges.add("read_text: 65,536 bytes, and more", |found, _| {
        for length in [65_535, 65_536, 65_537, 70_000, 200_000] {
            let blank = vec![b' '; length];
            compare_read_text(found, &blank, length);
            let text = [b"a=.;", &blank[4..]].concat();
            compare_read_text(found, &text, length);
            compare_read_text(found, &text, 5000);
        }
    });
}
