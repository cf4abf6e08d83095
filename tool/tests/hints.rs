//! The hint's text: literal cases of the whole of standard error.
use crate::common::*;

/// The hint, from its line and column on, of a capture by a grammar's text.
#[track_caller]
fn hint(grammar: &str, capture: impl AsRef<[u8]>, told: &str) {
    let folder = Folder::new();
    folder.file("g.peg", grammar);
    folder.file("c", capture);
    let ran = folder.words("judge -g g.peg c");
    assert_eq!(ran.stderr, format!("hint: c: {told}\n"), "{grammar}");
    assert_eq!(ran.status, Some(1));
}

const TEXT: &str = "text = (!end .)* end; end = 'E-E' 'N-N' 'D-D';";
const NAME: &str = "name = !digit letter+; digit = '0-9'; letter = 'a-z' / '0-9';";
const WORD: &str = "word = !keyword letter+; keyword = 'i-i' 'f-f'; letter = 'a-z';";

#[test]
fn what_only_a_not_looked_at_is_left_out() {
    hint(TEXT, "abcEN", "line 1, column 6: expected 'E' (end), found the end of the capture\n    abcEN\n         ^");
    hint(TEXT, "", "line 1, column 1: expected 'E' (end), found the end of the capture\n\n    ^");
    hint(TEXT, "ab\nEND!", "line 2, column 4: expected the end of the capture, found '!'\n    END!\n       ^");
    hint(NAME, "1a", "line 1, column 1: expected no '0'-'9' (name), found '1'\n    1a\n    ^");
    hint(NAME, "?", "line 1, column 1: expected 'a'-'z' (letter) or '0'-'9' (letter), found '?'\n    ?\n    ^");
    hint(
        NAME,
        "a1?",
        "line 1, column 3: expected the end of the capture, 'a'-'z' (letter) or '0'-'9' (letter), found '?'\n    a1?\n      ^",
    );
    hint(WORD, "if", "line 1, column 1: expected no keyword (word), found 'i'\n    if\n    ^");
    // Under two nots it counts again: with another letter this is no keyword.
    let longer = WORD.replace("'f-f'", "'f-f' !letter");
    hint(&longer, "if", "line 1, column 3: expected 'a'-'z' (letter), found the end of the capture\n    if\n      ^");
    // The not goes further than what fails.
    let further = "a = !(x y z) x x; x = 'x-x'; y = 'y-y'; z = 'z-z';";
    hint(further, "xyq", "line 1, column 2: expected 'x' (x), found 'y'\n    xyq\n     ^");
}

#[test]
fn an_and_wants_what_it_looks_at() {
    let and = "word = &digit '0-z'+; digit = '0-9';";
    hint(and, "abc", "line 1, column 1: expected '0'-'9' (digit), found 'a'\n    abc\n    ^");
    let further = "word = &(digit digit) '0-z'+; digit = '0-9';";
    hint(further, "1bc", "line 1, column 2: expected '0'-'9' (digit), found 'b'\n    1bc\n     ^");
    hint("a = &b .; b = !c; c = 'c-c';", "c", "line 1, column 1: expected no 'c' (b), found 'c'\n    c\n    ^");
}

/// A helper rule has no name of its own: that no word is expected in a word says nothing.
#[test]
fn a_not_of_an_expression_is_not_called_as_its_own_line() {
    let folder = Folder::new();
    folder.file("g.peg", "word = !(digit letter) letter+; digit = '0-9'; letter = 'a-z';");
    folder.file("c", "1a");
    let ran = folder.words("judge -g g.peg c");
    assert!(ran.stderr.starts_with("hint: c: line 1, column 1: "), "{}", ran.stderr);
    assert!(!ran.stderr.contains("no word (word)"), "{}", ran.stderr);
}

#[test]
fn several_and_nothing_expected() {
    hint("a = 'x-x';", "xy", "line 1, column 2: expected the end of the capture, found 'y'\n    xy\n     ^");
    hint("a = 'x-x' !.;", "xy", "line 1, column 2: expected the end of the capture, found 'y'\n    xy\n     ^");
    hint("a = . .;", "x", "line 1, column 2: expected any byte (a), found the end of the capture\n    x\n     ^");
    hint("a = fail;", "x", "line 1, column 1: found 'x'\n    x\n    ^");
    hint("a = 'b-a' / 'x-y';", "z", "line 1, column 1: expected 'x'-'y' (a), found 'z'\n    z\n    ^");
    let choice = "a = b / c; b = 'x-x' 'y-y'; c = 'x-x' 'z-z';";
    hint(choice, "xw", "line 1, column 2: expected 'y' (b) or 'z' (c), found 'w'\n    xw\n     ^");
    let number = "number = digit+ ('.-.' digit+)?; digit = '0-9';";
    hint(
        number,
        "12x",
        "line 1, column 3: expected the end of the capture, '0'-'9' (digit) or '.' (number), found 'x'\n    12x\n      ^",
    );
    hint(number, "12.x", "line 1, column 4: expected '0'-'9' (digit), found 'x'\n    12.x\n       ^");
}

/// Each range by the name of the line that it is written in, helper rules too.
#[test]
fn ranges_have_the_names_of_their_lines() {
    let grammar = "a = 'a-a' b c 'd-d'; b = 'b-b'?; c = ('c-c' 'e-e')+;";
    for (capture, words) in [
        ("", "line 1, column 1: expected 'a' (a), found the end of the capture\n\n    ^"),
        ("a", "line 1, column 2: expected 'b' (b) or 'c' (c), found the end of the capture\n    a\n     ^"),
        ("ab?", "line 1, column 3: expected 'c' (c), found '?'\n    ab?\n      ^"),
        ("ac", "line 1, column 3: expected 'e' (c), found the end of the capture\n    ac\n      ^"),
        ("ace?", "line 1, column 4: expected 'c' (c) or 'd' (a), found '?'\n    ace?\n       ^"),
        ("aced\n", "line 1, column 5: expected the end of the capture, found '\\n'\n    aced\n        ^"),
    ] {
        hint(grammar, capture, words);
    }
}

#[test]
fn bytes_that_do_not_print_are_escaped() {
    hint(
        "a = 'a-z'+;",
        "ab\x1b[0m",
        "line 1, column 3: expected the end of the capture or 'a'-'z' (a), found '\\x1b'\n    ab\\x1b[0m\n      ^^^^",
    );
    hint(
        "a = '\0-\t';",
        "\u{fc}",
        "line 1, column 1: expected '\\x00'-'\\t' (a), found '\\xc3'\n    \\xc3\\xbc\n    ^^^^",
    );
    hint("a = ''-'' '\\-\\';", "'\"", "line 1, column 2: expected '\\\\' (a), found '\"'\n    '\"\n     ^");
    hint("a = ''-'';", "\\", "line 1, column 1: expected '\\'' (a), found '\\\\'\n    \\\\\n    ^^");
    let folder = Folder::ring();
    folder.file("c", String::from_utf8(FORMED.to_vec()).unwrap().replace('\n', "\r\n"));
    let ran = folder.words("judge -g ring.peg c");
    assert_eq!(
        ran.stderr,
        "hint: c: line 1, column 6: expected '\\n' (feed), found '\\r'\n    1-2 F\\r\n         ^^\n"
    );
}

#[test]
fn long_lines_are_cut_around_the_place() {
    let grammar = "a = 'x-x'+ '.-.'+;";
    let line = |before: usize, after: usize| format!("{}?{}", "x".repeat(before), "y".repeat(after));
    for (before, after, shown) in [
        (50, 59, line(50, 59)),
        (51, 59, format!("…{}", line(50, 59))),
        (50, 60, format!("{}…", line(50, 59))),
        (30_000, 30_000, format!("…{}…", line(50, 59))),
    ] {
        let lead = shown.chars().position(|character| character == '?').unwrap();
        let column = before + 1;
        let told = format!(
            "line 1, column {column}: expected 'x' (a) or '.' (a), found '?'\n    {shown}\n    {}^",
            " ".repeat(lead)
        );
        hint(grammar, line(before, after), &told);
        hint(grammar, line(before, after) + "\nmore", &told);
    }
}

#[test]
fn looping_names_the_rule() {
    let folder = Folder::new();
    folder.file("g.peg", "top = .  list; list = (item?)*; item = 'x-x';");
    folder.file("g.grammar", [[1, 1, 2, 0], [5, 0, 255, 0], [1, 2, 2, 0]].as_flattened());
    folder.file("c", "a\nb");
    folder.words("judge -g g.peg c").gives(
        1,
        "looping  c\n1 capture: 0 accepted, 1 looping; 16 readings\n",
        "warning: g.peg: line 1, column 16: list leads back to itself before anything is consumed: a capture may be judged looping (refusal 19)
    top = .  list; list = (item?)*; item = 'x-x';
                   ^
hint: c: line 1, column 2: list goes round in a circle without reading on, at '\\n'
    a
     ^
",
    );
    let ran = folder.words("judge -g g.grammar c");
    assert_eq!(
        ran.stderr.lines().nth(1),
        Some("hint: c: line 1, column 2: rule 2 goes round in a circle without reading on, at '\\n'")
    );
}

/// Goes right over every byte, and there is no rule at the right marker; or one for the byte `!`, which is missing.
#[test]
fn an_image_has_a_place_and_no_expectation() {
    let folder = Folder::ring();
    let mut bytes = image([1, 0, 0, 1]);
    bytes[288..292].copy_from_slice(&[1, 0, 0, 1]);
    folder.file("m.image", &bytes);
    folder.words("judge -i m.image formed.capture").gives(
        1,
        "stuck    formed.capture\n1 capture: 0 accepted, 1 stuck; 26 readings\n",
        "hint: formed.capture: line 5, column 1: the machine came this far; stuck at place 25 in state 0 with symbol 0, at the end of the capture\n\n    ^\n",
    );
    // With two classes, and only the first has a rule.
    let mut numbers = [24u32, 8, 32, 256, 288, 16].iter().flat_map(|number| number.to_le_bytes()).collect::<Vec<u8>>();
    numbers.extend([1, 2, 1, 0, 0, 0, 0, 0]);
    numbers.extend((0..=255).map(|byte| u8::from(byte == b'?')));
    numbers.extend([[1, 0, 0, 1], [4, 0, 0, 0], [1, 0, 0, 1], [0; 4]].as_flattened());
    folder.file("m.image", &numbers);
    folder.words("judge -i m.image broken.capture").gives(
        1,
        "halted   broken.capture\n1 capture: 0 accepted, 1 halted; 16 readings\n",
        "hint: broken.capture: line 3, column 3: the machine came this far; halted at place 15 in state 0 with symbol 0, at '?'\n    3-? F\n      ^\n",
    );
}

/// By a grammar that must match at the start.
#[test]
fn leading() {
    let folder = Folder::ring();
    folder.file("dump.peg", [b"dump = table dash dash space;\n", RING].concat());
    folder.words("judge --leading -g dump.peg formed.capture broken.capture").gives(
        1,
        "stuck    formed.capture\nstuck    broken.capture\n2 captures: 0 accepted, 2 stuck; 293 readings\n",
        &format!(
            "hint: formed.capture: line 5, column 1: expected '1'-'8' (port) or '-' (dash), found the end of the capture\n\n    ^\n{BROKEN_HINT}"
        ),
    );
}
