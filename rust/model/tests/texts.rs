//! Texts whose answers were written down by hand, held against the model itself.

use model::answer::Refusal;
use model::grammar;
use model::parse::{parse_from, Parsed};
use model::text::{lines, meaning, read};
use model::{calls, program};

fn refused(text: &[u8], number: u32, place: usize) {
    let shown = String::from_utf8_lossy(text);
    assert_eq!(read(text).err(), Some(Refusal { number, place }), "{shown}");
}

fn needs(text: &str, rules: usize) {
    assert_eq!(lines(text.as_bytes()).unwrap().needs(), rules, "{text}");
}

fn gives(text: &str, rules: &[[u8; 4]]) {
    assert_eq!(read(text.as_bytes()).unwrap().grammar(), rules.as_flattened(), "{text}");
}

#[test]
fn tokens_that_cannot_stand_there() {
    refused(b"a=;", 15, 2);
    refused(b"a=();", 15, 3);
    refused(b"a=./;", 15, 4);
    refused(b"a=/.;", 15, 2);
    refused(b"a=*;", 15, 2);
    refused(b"a=!;", 15, 3);
    refused(b"a=!*.;", 15, 3);
    refused(b"a=.);", 15, 3);
    refused(b"a=(.;", 15, 4);
    refused(b"a=.=.;", 15, 3);
    refused(b"a a=.;", 15, 2);
    refused(b"=.;", 15, 0);
    refused(b"a=.;;", 15, 4);
    refused(b"a=.;b.;", 15, 5);
    refused(b"'a-z'=.;", 15, 0);
    refused(b"empty=.;", 15, 0);
    refused(b" fail=.;", 15, 1);
}

#[test]
fn bytes_that_form_no_token() {
    refused(b"a='ab-c';", 15, 2);
    refused(b"a='a-z", 15, 2);
    refused(b"a='a-z;", 15, 2);
    refused(b"a=. 'a", 15, 4);
    refused(b"a='''", 15, 2);
    refused(b"a=.\t;", 15, 3);
    refused(b"a=.;\r\n", 15, 4);
    refused(b"a=A;", 15, 2);
    refused(b"a=.;\0", 15, 4);
    refused(b"\xefa=.;", 15, 0);
    // Before the name that is not defined, though it stands after it.
    refused(b"a=b;_", 15, 4);
}

#[test]
fn texts_that_end_early() {
    refused(b"", 15, 0);
    refused(b"  \n", 15, 3);
    refused(b"a", 15, 1);
    refused(b"a=", 15, 2);
    refused(b"a=b", 15, 3);
    refused(b"a=b  ", 15, 5);
    refused(b"a=(.", 15, 4);
    refused(b"a=.;b", 15, 5);
}

#[test]
fn names() {
    refused(b"a=.;a", 15, 4);
    refused(b"a=b;a=.;", 15, 4);
    refused(b"a=b;", 15, 2);
    refused(b"a=. (c / b) d;d=.;", 15, 5);
    refused(b"a=emptyx;", 15, 2);
    refused(b"a=fai;", 15, 2);
    needs("emptyx=emptyx;", 2);
    needs("ab=a;a=ab;b=.;", 5);
    // No limit on the count of lines: a repeat on a late one is found.
    let mut text = String::new();
    for number in 0..10_000 {
        let letters = format!("{number:04}").bytes().map(|digit| char::from(b'a' + digit - b'0')).collect::<String>();
        text += &format!("{letters}=.;\n");
    }
    refused(text.as_bytes(), 16, text.len());
    let end = text.len();
    text += "aaaa=.;";
    refused(text.as_bytes(), 15, end);
}

#[test]
fn parentheses() {
    let nested = |open: usize, close: usize| format!("a={}.{};", "(".repeat(open), ")".repeat(close));
    refused(b"a=(((((((((((((((((", 17, 18);
    refused(nested(17, 17).as_bytes(), 17, 18);
    refused(b"a=((((((((((((((((()", 17, 18);
    needs(&nested(16, 16), 1);
    refused(nested(16, 15).as_bytes(), 15, 34);
    refused(nested(16, 17).as_bytes(), 15, 35);
    // Open at once, not in all.
    needs(&format!("a={};", "(.)".repeat(20)), 39);
    refused(format!("a=({}(", "(.)".repeat(20)).as_bytes(), 15, 64);
    // Whichever is earlier; a name that is not defined comes after both.
    refused(format!("a=b {}", "(".repeat(17)).as_bytes(), 17, 20);
    refused(format!("a=b _{}", "(".repeat(17)).as_bytes(), 15, 4);
}

#[test]
fn rules_needed() {
    needs("a=.;", 1);
    needs("a='z-a';", 1);
    needs("a=empty;", 1);
    needs("a=fail;", 1);
    needs("a=!.;", 2);
    needs("a=&.;", 3);
    needs("a=.?;", 3);
    needs("a=.*;", 4);
    needs("a=.+;", 5);
    needs("a=b;b=.;", 3);
    needs("a=((b));b=.;", 3);
    needs("a=b b;b=.;", 2);
    needs("a=a a a a;", 3);
    needs("a=a / a / a / a;", 3);
    needs("a=b*;b=.;", 4);
    needs("a=!b;b=.;", 2);
    needs("a=.++++++++;", 33);
    refused(b"a=.++++++++;", 16, 12);
    refused(b"a=.++++++++;  ", 16, 14);
    refused(b"a=.++++++++;b=c;", 15, 14);
}

#[test]
fn grammars() {
    gives("a=.;", &[[5, 0, 255, 0]]);
    gives("a=fail;", &[[5, 1, 0, 0]]);
    gives("a='z-a';", &[[5, b'z', b'a', 0]]);
    gives("a=empty;", &[[4, 0, 0, 0]]);
    gives("a=b;b=.;", &[[1, 1, 2, 0], [5, 0, 255, 0], [4, 0, 0, 0]]);
    gives("a=a;", &[[1, 0, 1, 0], [4, 0, 0, 0]]);
    gives("a=.*;", &[[2, 2, 3, 0], [5, 0, 255, 0], [1, 1, 0, 0], [4, 0, 0, 0]]);
    gives("a=.+;", &[[1, 1, 2, 0], [5, 0, 255, 0], [2, 3, 4, 0], [1, 1, 2, 0], [4, 0, 0, 0]]);
    gives("a=.?;", &[[2, 1, 2, 0], [5, 0, 255, 0], [4, 0, 0, 0]]);
    gives("a=&.;", &[[3, 2, 0, 0], [5, 0, 255, 0], [3, 1, 0, 0]]);
    gives("a=!.;", &[[3, 1, 0, 0], [5, 0, 255, 0]]);
    // Suffixes bind before prefixes, and a helper star has its choice first.
    gives("a=!.*;", &[[3, 2, 0, 0], [5, 0, 255, 0], [2, 3, 4, 0], [1, 1, 2, 0], [4, 0, 0, 0]]);
    gives("a=(!.)*;", &[[2, 3, 4, 0], [5, 0, 255, 0], [3, 1, 0, 0], [1, 2, 0, 0], [4, 0, 0, 0]]);
    // To the right, and parentheses otherwise.
    gives("a=a b b;b=.;", &[[1, 0, 2, 0], [5, 0, 255, 0], [1, 1, 1, 0]]);
    gives("a=(a b) b;b=.;", &[[1, 2, 1, 0], [5, 0, 255, 0], [1, 0, 1, 0]]);
    gives("a=a/b/b;b=.;", &[[2, 0, 2, 0], [5, 0, 255, 0], [2, 1, 1, 0]]);
    gives("a=a b/b a;b=.;", &[[2, 2, 3, 0], [5, 0, 255, 0], [1, 0, 1, 0], [1, 1, 0, 0]]);
    // The helpers of the first line, then those of the second.
    gives(
        "a=b? .;b='a-b' b/.;",
        &[
            [1, 3, 4, 0],
            [2, 6, 7, 0],
            [4, 0, 0, 0],
            [2, 1, 2, 0],
            [5, 0, 255, 0],
            [5, 97, 98, 0],
            [1, 5, 1, 0],
            [5, 0, 255, 0],
        ],
    );
}

/// What a text's first line makes of a capture.
fn parsed(text: &str, capture: &[u8]) -> Parsed {
    let typed = read(text.as_bytes()).unwrap();
    let meaning = meaning::of(&typed, capture);
    // Every line at every place comes to the same through its rule.
    let rules = grammar::read(&typed.grammar()).unwrap();
    for line in 0..typed.bodies.len() {
        for place in 0..=capture.len() {
            let by_rule = parse_from(&rules, capture, (line, place), 10_000).unwrap();
            assert_eq!(meaning.line(line, place), by_rule, "{text} line {line} at {place}");
        }
    }
    meaning.line(0, 0)
}

#[test]
fn what_texts_mean() {
    use Parsed::*;
    assert_eq!(parsed("a='a-b'*;", b"abac"), Rest(3));
    assert_eq!(parsed("a='a-b'*;", b"c"), Rest(0));
    assert_eq!(parsed("a='a-b'+;", b"c"), Failure);
    assert_eq!(parsed("a='a-b'+;", b"abac"), Rest(3));
    assert_eq!(parsed("a='a-b'? .;", b"a"), Failure);
    assert_eq!(parsed("a='a-b'? .;", b"c"), Rest(1));
    assert_eq!(parsed("a=&'a-b' .;", b"b"), Rest(1));
    assert_eq!(parsed("a=&'a-b' .;", b"c"), Failure);
    assert_eq!(parsed("a=!'a-b' .;", b"c"), Rest(1));
    assert_eq!(parsed("a=!'a-b' .;", b"b"), Failure);
    assert_eq!(parsed("a=!!.;", b""), Failure);
    assert_eq!(parsed("a=fail/empty;", b"x"), Rest(0));
    assert_eq!(parsed("a='z-a'/.;", b"m"), Rest(1));
    // Nothing is derived: left recursion, and a repetition of what consumes nothing.
    assert_eq!(parsed("a=a;", b""), NoResult);
    assert_eq!(parsed("a=!a;", b""), NoResult);
    assert_eq!(parsed("a=a . / .;", b"x"), NoResult);
    assert_eq!(parsed("a=empty*;", b"x"), NoResult);
    assert_eq!(parsed("a=(.?)*;", b"x"), NoResult);
    assert_eq!(parsed("a=(.?)+;", b"x"), NoResult);
    assert_eq!(parsed("a=(.*)?;", b"xx"), Rest(2));
    // The loop is not come to.
    assert_eq!(parsed("a=. / a;", b"x"), Rest(1));
    assert_eq!(parsed("a=. / a;", b""), NoResult);
    assert_eq!(parsed("a='(-(' a ')-)' a / empty;", b"(())()"), Rest(6));
}

#[test]
fn long_texts_need_no_stack() {
    for sign in ["!", "&"] {
        let text = format!("a={}.;", sign.repeat(1_000_000));
        refused(text.as_bytes(), 16, text.len());
    }
    for (begin, more) in [("a=.", "*"), ("a=.", "."), ("a=.", "/."), ("a=.", "(.)")] {
        let text = format!("{begin}{};", more.repeat(300_000));
        refused(text.as_bytes(), 16, text.len());
    }
}

#[test]
fn calls_and_program() {
    let mut buffer = [9; 124];
    assert_eq!(calls::read_grammar(b"a=.;", &mut buffer), Ok(4));
    assert_eq!((&buffer[..4], &buffer[4..]), (&[5, 0, 255, 0][..], &[9; 120][..]));
    let mut image = vec![9; 469];
    assert_eq!(calls::build_text(b"a=empty;", &mut image[..467]), Err(Refusal { number: 13, place: 468 }));
    let checks = |capture, room, notes, work| {
        let mut buffer = vec![9; room];
        let got = calls::judge_text_checks(b"a=empty;", capture, &mut buffer, notes, work).map(|image| image.len());
        assert_eq!(got.is_ok(), buffer.first() == Some(&24));
        got.map_err(|refusal| (refusal.number, refusal.place))
    };
    assert_eq!(checks(70_000, 467, 0, 0), Err((13, 468)));
    assert_eq!(checks(70_000, 468, 0, 0), Err((7, 70_000)));
    assert_eq!(checks(0, 468, 29, 0), Err((8, 30)));
    assert_eq!(checks(0, 468, 30, 29), Err((9, 30)));
    assert_eq!(checks(0, 468, 30, 30), Ok(468));
    assert_eq!(program::read_text_output(b"a=.;"), [5, 0, 255, 0]);
    assert_eq!(program::read_text_output(b"a=b;"), b"refused 15 2\n");
    assert_eq!(program::read_text_output(&[b' '; 65_536]), b"refused 15 65536\n");
    assert_eq!(program::read_text_output(&[b' '; 65_537]), b"refused 14 0\n");
}
