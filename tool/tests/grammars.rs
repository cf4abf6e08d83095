//! `grammar check` and `grammar show`: complaints with their lines, the numbers by their formulas, and texts that read as
//! the same grammar.
use crate::common::*;
use serde_json::Value;
use std::collections::BTreeSet;

/// What is refused, literally: nothing is on standard output.
#[test]
fn refusals_with_line_and_caret() {
    let folder = Folder::new();
    let not_here = "this cannot stand here, is repeated or is not defined (refusal 15)";
    let deep = format!("a = {}.{};", "(".repeat(17), ")".repeat(17));
    let dots = format!("a = {};", [". "; 17].concat());
    let cases: [(&str, &[u8], &str); 13] = [
        ("peg", b"a = .;\nb = a / ;\n", &format!("line 2, column 9: {not_here}\n    b = a / ;\n            ^")),
        ("peg", b"a = .;\n  a = .;", &format!("line 2, column 3: {not_here}\n      a = .;\n      ^")),
        ("peg", b"a = b;", &format!("line 1, column 5: {not_here}\n    a = b;\n        ^")),
        ("peg", b"a = 'a-;", &format!("line 1, column 5: {not_here}\n    a = 'a-;\n        ^")),
        ("peg", b"a = .", "line 1, column 6: the text ends early (refusal 15)\n    a = .\n         ^"),
        ("peg", b"a = (.\n", "line 2, column 1: the text ends early (refusal 15)\n\n    ^"),
        ("peg", b"", "line 1, column 1: the text ends early (refusal 15)\n\n    ^"),
        (
            "peg",
            b"a\t= .;",
            "line 1, column 2: no token begins with the byte '\\t' (refusal 15)\n    a\\t= .;\n     ^^",
        ),
        (
            "peg",
            b"a = .;\r\n",
            "line 1, column 7: no token begins with the byte '\\r' (refusal 15)\n    a = .;\\r\n          ^^",
        ),
        (
            "peg",
            dots.as_bytes(),
            &format!(
                "line 1, column 40: the typed grammar needs over 31 rules (refusal 16)\n    {dots}\n    {}^",
                " ".repeat(39)
            ),
        ),
        (
            "peg",
            deep.as_bytes(),
            &format!(
                "line 1, column 21: over 16 parentheses are open at once (refusal 17)\n    {deep}\n    {}^",
                " ".repeat(20)
            ),
        ),
        ("grammar", &[4, 0, 0, 0, 4, 0], "the grammar has no rule, over 31 rules, or a part of a rule (refusal 11 6)"),
        ("grammar", &[1, 1, 1, 0, 4, 0, 0, 0, 3, 3, 0, 0], "rule 2 is wrong (refusal 12 8)"),
    ];
    for (ending, bytes, words) in cases {
        let name = format!("g.{ending}");
        folder.file(&name, bytes);
        for command in ["check", "show"] {
            folder.words(&format!("grammar {command} {name}")).gives(2, "", &format!("error: {name}: {words}\n"));
        }
    }
    for command in ["check", "show"] {
        let no_file = "cannot be read: No such file or directory (os error 2)";
        folder.words(&format!("grammar {command} no.peg")).gives(2, "", &format!("error: no.peg: {no_file}\n"));
    }
}

/// A number with its thousands apart.
fn grouped(number: usize) -> String {
    match number {
        0..=999 => number.to_string(),
        _ => format!("{},{:03}", grouped(number / 1_000), number % 1_000),
    }
}

/// What `check` says of a grammar of so many rules and classes: a capture of n bytes by m rules needs
/// 5 * (n + 2) * (2 * m + 1) notes and as many work cells, four bytes each.
fn needs(name: &str, rules: usize, classes: usize, looping: &str) -> String {
    let classes = if classes == 1 { "1 class".into() } else { format!("{classes} classes") };
    let mut told = format!("{name}: {rules} of 31 rules, {classes} of bytes, {looping}\n");
    for length in [1_000, 10_000, 65_535] {
        let cells = 5 * (length + 2) * (2 * rules + 1);
        // Rounded to tenths of a million.
        let tenths = (8 * cells + 50_000) / 100_000;
        let (whole, tenth) = (tenths / 10, tenths % 10);
        let (length, cells) = (grouped(length), grouped(cells));
        told += &format!("  {length:>6} bytes: {cells:>10} notes and as many work cells, {whole}.{tenth} MB\n");
    }
    told
}

/// Bytes that no range tells apart are one class.
fn classes(rules: &[[u8; 4]]) -> usize {
    let mut cuts = BTreeSet::from([0]);
    for [_, low, high, _] in rules.iter().filter(|rule| rule[0] == 5 && rule[1] <= rule[2]) {
        cuts.extend([u16::from(*low), u16::from(*high) + 1]);
    }
    cuts.remove(&256);
    cuts.len()
}

#[test]
fn the_numbers_are_those_of_the_formula() {
    let folder = Folder::ring();
    let ring = |name| needs(name, 14, 13, "never loops");
    assert!(ring("x").ends_with("  65,535 bytes:  9,502,865 notes and as many work cells, 76.0 MB\n"));
    folder.words("grammar check ring.peg ring.grammar").gives(0, &(ring("ring.peg") + &ring("ring.grammar")), "");
    // Ranges alone never loop; with 31 of them there are as many classes as can be.
    let mut numbers = Numbers(31);
    for count in 1..=31 {
        let rules: Vec<[u8; 4]> = (0..count).map(|_| [5, numbers.byte(), numbers.byte(), 0]).collect();
        folder.file("g.grammar", rules.as_flattened());
        let told = needs("g.grammar", count, classes(&rules), "never loops");
        folder.words("grammar check g.grammar").gives(0, &told, "");
    }
    let most: Vec<[u8; 4]> = (0..31).map(|rule| [5, 4 * rule, 4 * rule + 1, 0]).collect();
    folder.file("g.grammar", most.as_flattened());
    folder.words("grammar check g.grammar").gives(0, &needs("g.grammar", 31, 62, "never loops"), "");
}

#[test]
fn left_recursion_by_name_is_1() {
    let folder = Folder::ring();
    folder.file("list.peg", "top = list;\nlist = item\n  / list ',-,' item; item = 'a-z'?;");
    folder.file("loop.grammar", [[4, 0, 0, 0], [2, 0, 2, 0], [1, 0, 2, 0]].as_flattened());
    let words = "leads back to itself before anything is consumed: a capture may be judged looping";
    folder.words("grammar check list.peg").gives(
        1,
        &needs("list.peg", 9, 5, "may loop"),
        &format!("warning: list.peg: line 2, column 1: list {words} (refusal 19)\n    list = item\n    ^\n"),
    );
    folder.words("grammar check loop.grammar").gives(
        1,
        &needs("loop.grammar", 3, 1, "may loop"),
        &format!("warning: loop.grammar: rule 2 {words} (refusal 19 2)\n"),
    );
}

#[test]
fn of_several_files_the_highest_status_counts() {
    let folder = Folder::ring();
    folder.file("loop.grammar", [1, 0, 0, 0]);
    folder.file("bad.peg", "a");
    let orders = [
        (["ring.peg", "ring.grammar", "ring.peg"], 0),
        (["ring.peg", "loop.grammar", "ring.peg"], 1),
        (["loop.grammar", "ring.peg", "ring.grammar"], 1),
        (["bad.peg", "loop.grammar", "ring.peg"], 2),
        (["ring.peg", "loop.grammar", "bad.peg"], 2),
        (["loop.grammar", "no.peg", "ring.peg"], 2),
    ];
    for (names, status) in orders {
        let ran = folder.run(["grammar", "check"].into_iter().chain(names));
        let told = |name: &&str| match *name {
            "loop.grammar" => needs(name, 1, 1, "may loop"),
            "bad.peg" | "no.peg" => String::new(),
            _ => needs(name, 14, 13, "never loops"),
        };
        ran.writes(status, &names.iter().map(told).collect::<String>());
    }
}

#[test]
fn show_of_the_ring() {
    let folder = Folder::ring();
    folder.words("grammar show ring.grammar").gives(
        0,
        "a = b / c;\nb = c a;\nc = f d;\nd = j e;\ne = k n;\nf = h g;\ng = i h;\nh = '1-8';\ni = '---';\nj = ' - ';\nk = l / m;\nl = 'F-F';\nm = 'B-B';\nn = '\n-\n';\n",
        "",
    );
    let text = folder.words("grammar show ring.peg");
    let lines = [
        "table = ",
        "line = ",
        "link = ",
        "port = '1-8';\n",
        "dash = '---';\n",
        "space = ' - ';\n",
        "state = ",
        "feed = '\n-\n';\n",
    ];
    let mut rest = text.stdout.as_str();
    // The lines of the text keep their names and their order, and are rules 0 to 7.
    for line in lines {
        let place = rest.find(line).unwrap_or_else(|| panic!("{line}: {}", text.stdout));
        rest = &rest[place + line.len()..];
    }
    folder.file("shown.peg", &text.stdout);
    folder.words("grammar show shown.peg").gives(0, &text.stdout, "");
    folder.words("judge -g shown.peg formed.capture broken.capture").gives(
        1,
        "accepted formed.capture\nstuck    broken.capture\n2 captures: 1 accepted, 1 stuck; 279 readings\n",
        BROKEN_HINT,
    );
    // A grammar that may loop is shown too.
    folder.file("loop.grammar", [[1, 0, 1, 0], [3, 0, 0, 0]].as_flattened());
    folder.words("grammar show loop.grammar").gives(0, "a = a b;\nb = !a;\n", "");
}

/// A grammar whose bytes are right, of any rules and any ranges.
fn grammar(numbers: &mut Numbers) -> Vec<[u8; 4]> {
    let count = 1 + numbers.below(31);
    let rule = |numbers: &mut Numbers| {
        let (b, c) = (numbers.below(count) as u8, numbers.below(count) as u8);
        match numbers.below(8) {
            0 | 1 => [1, b, c, 0],
            2 | 3 => [2, b, c, 0],
            4 => [3, b, 0, 0],
            5 => [4, 0, 0, 0],
            // A quote, a minus and a semicolon are bytes as others are.
            6 => [5, b"';-=\n .("[numbers.below(8)], numbers.byte(), 0],
            _ => [5, numbers.byte(), numbers.byte(), 0],
        }
    };
    (0..count).map(|_| rule(numbers)).collect()
}

#[test]
fn a_shown_grammar_is_the_same_grammar() {
    let folder = Folder::new();
    let mut numbers = Numbers(200);
    let captures = ["c1", "c2", "c3"];
    let mut verdicts = BTreeSet::new();
    for _ in 0..200 {
        let rules = grammar(&mut numbers);
        folder.file("g.grammar", rules.as_flattened());
        // The text has bytes of every kind.
        let show = |name: &str| {
            let output = folder.tool(["grammar", "show", name]).output().unwrap();
            assert_eq!((output.status.code(), output.stderr), (Some(0), Vec::new()), "{rules:?}");
            output.stdout
        };
        let text = show("g.grammar");
        folder.file("shown.peg", &text);
        assert_eq!(show("shown.peg"), text, "{rules:?}");
        for (length, name) in [0, 1, 9].into_iter().zip(captures) {
            folder.file(name, (0..length).map(|_| numbers.byte()).collect::<Vec<u8>>());
        }
        let ran = folder.words("judge -f jsonl -q -g g.grammar -g shown.peg c1 c2 c3");
        let rows: Vec<Value> = ran.stdout.lines().map(|line| serde_json::from_str(line).unwrap()).collect();
        assert_eq!(rows.len(), 6, "{ran:?}");
        for (pair, name) in rows.chunks(2).zip(captures) {
            assert_eq!((&pair[0]["file"], &pair[1]["file"]), (&name.into(), &name.into()));
            assert_eq!((&pair[0]["grammar"], &pair[1]["grammar"]), (&"g.grammar".into(), &"shown.peg".into()));
            for field in ["verdict", "readings", "end_state", "end_head", "end_symbol", "line", "column", "found"] {
                assert_eq!(pair[0][field], pair[1][field], "{field}: {rules:?}");
            }
            assert!(pair[0]["readings"].is_number());
            verdicts.insert(pair[0]["verdict"].as_str().unwrap().to_string());
        }
    }
    assert_eq!(verdicts.into_iter().collect::<Vec<_>>(), ["accepted", "looping", "stuck"]);
}
