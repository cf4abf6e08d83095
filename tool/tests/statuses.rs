//! Every status that the tool leaves with, and each way to it. 2 wins over 1, and 1 over 0.
use crate::common::*;

const ACCEPTED: &str = "accepted formed.capture\n1 capture: 1 accepted; 174 readings\n";
const STUCK: &str = "stuck    broken.capture\n1 capture: 0 accepted, 1 stuck; 105 readings\n";
const NO_FILE: &str = "No such file or directory (os error 2)";

#[test]
fn accepted_is_0() {
    let folder = Folder::ring();
    folder.words("judge -g ring.peg formed.capture").gives(0, ACCEPTED, "");
    folder.words("judge --grammar ring.grammar formed.capture").gives(0, ACCEPTED, "");
    folder.words("judge --leading -g ring.peg broken.capture").gives(
        0,
        "accepted broken.capture\n1 capture: 1 accepted; 117 readings\n",
        "",
    );
    folder.words("judge -g ring.peg formed.capture formed.capture").gives(
        0,
        "accepted formed.capture\naccepted formed.capture\n2 captures: 2 accepted; 348 readings\n",
        "",
    );
}

#[test]
fn stuck_is_1() {
    let folder = Folder::ring();
    folder.words("judge -g ring.peg broken.capture").gives(1, STUCK, BROKEN_HINT);
}

#[test]
fn looping_is_1() {
    let folder = Folder::ring();
    folder.file("list.peg", "list = list comma item / item; comma = ',-,'; item = 'a-z';");
    folder.file("loop.grammar", [1, 0, 0, 0]);
    folder.words("judge -g list.peg formed.capture").gives(
        1,
        "looping  formed.capture\n1 capture: 0 accepted, 1 looping; 3 readings\n",
        "warning: list.peg: line 1, column 1: list leads back to itself before anything is consumed: a capture may be judged looping (refusal 19)
    list = list comma item / item; comma = ',-,'; item = 'a-z';
    ^
hint: formed.capture: line 1, column 1: list goes round in a circle without reading on, at '1'
    1-2 F
    ^
",
    );
    folder.words("judge -g loop.grammar formed.capture").gives(
        1,
        "looping  formed.capture\n1 capture: 0 accepted, 1 looping; 2 readings\n",
        "warning: loop.grammar: rule 0 leads back to itself before anything is consumed: a capture may be judged looping (refusal 19 0)
hint: formed.capture: line 1, column 1: rule 0 goes round in a circle without reading on, at '1'
    1-2 F
    ^
",
    );
}

#[test]
fn ended_halted_stuck_and_looping_of_an_image_are_1() {
    let folder = Folder::ring();
    for (rule, word) in [(ENDING, "ended"), (HALTING, "halted"), (MISSING, "stuck"), (LOOPING, "looping")] {
        folder.file("machine.image", image(rule));
        folder.words("judge --image machine.image formed.capture").gives(
            1,
            &format!("{word:<8} formed.capture\n1 capture: 0 accepted, 1 {word}; 1 reading\n"),
            &format!(
                "hint: formed.capture: line 1, column 1: the machine came this far; {word} at place 0 in state 0 with symbol 0, at '1'\n    1-2 F\n    ^\n"
            ),
        );
    }
}

#[test]
fn wrong_usage_is_2_and_writes_nothing() {
    let folder = Folder::ring();
    for arguments in [
        "judge",
        "judge -g ring.peg",
        "judge formed.capture",
        "judge -g ring.peg --nonsense formed.capture",
        "judge -g ring.peg --jobs 0 formed.capture",
        "judge -g ring.peg --jobs many formed.capture",
        "judge -g ring.peg --format yaml formed.capture",
        "judge -g ring.peg --color green formed.capture",
        "judge -g ring.peg formed.capture --out",
        "judge -g ring.peg -q -q formed.capture",
        "shift",
        "shift plan.toml",
        "grammar",
        "grammar check",
        "grammar show",
        "grammar show ring.peg ring.peg",
        "completions",
        "completions dos",
        "selftest more",
        "judge -g ring.peg - -",
        "judge -g ring.peg - formed.capture -",
    ] {
        let ran = folder.words(arguments);
        assert_eq!((ran.status, ran.stdout.as_str()), (Some(2), ""), "{arguments}");
        assert!(!ran.stderr.is_empty() && !ran.stderr.contains("panicked"), "{arguments}: {}", ran.stderr);
    }
}

#[test]
fn what_cannot_be_written_is_2() {
    let folder = Folder::ring();
    for option in ["--out", "--report"] {
        folder.words(&format!("judge -g ring.peg {option} no/page.html formed.capture")).gives(
            2,
            ACCEPTED,
            &format!("error: no/page.html: cannot be written: {NO_FILE}\n"),
        );
        folder.words(&format!("judge -g ring.peg {option} /dev/null/page.html formed.capture")).gives(
            2,
            ACCEPTED,
            "error: /dev/null/page.html: cannot be written: Not a directory (os error 20)\n",
        );
    }
}

#[test]
fn the_highest_status_wins_in_every_order() {
    let folder = Folder::ring();
    let orders = [[0, 1, 2], [0, 2, 1], [1, 0, 2], [1, 2, 0], [2, 0, 1], [2, 1, 0]];
    folder.file("long.capture", [b'1'; 65_536]);
    for failing in ["no.capture", "long.capture"] {
        let captures = ["formed.capture", "broken.capture", failing];
        for order in orders {
            let [a, b, c] = order.map(|number| captures[number]);
            assert_eq!(folder.words(&format!("judge -g ring.peg {a} {b} {c}")).status, Some(2));
            // Of the first two alone.
            let highest = order[..2].iter().max().copied().map(|number| number as i32);
            assert_eq!(folder.words(&format!("judge -g ring.peg {a} {b}")).status, highest, "{a} {b}");
        }
    }
    // A refused grammar before and after a good one.
    folder.file("bad.peg", "a");
    for grammars in ["-g bad.peg -g ring.peg", "-g ring.peg -g bad.peg"] {
        for capture in ["formed", "broken"] {
            folder.words(&format!("judge {grammars} {capture}.capture")).writes(
                2,
                &format!(
                    "refused  {capture}.capture (by bad.peg)\n1 capture: 0 accepted, 1 refused; {} readings\n",
                    if capture == "formed" { 174 } else { 105 }
                ),
            );
        }
    }
}

#[test]
fn a_capture_passes_only_if_each_grammar_accepts_it() {
    let folder = Folder::ring();
    folder.file("all.peg", "all = .*;");
    folder.file("ended.image", image(ENDING));
    folder
        .words("judge -g ring.peg -g all.peg -g ring.grammar formed.capture")
        .writes(0, "accepted formed.capture\n1 capture: 1 accepted; 504 readings\n");
    for (grammars, by, readings) in
        [("-g ring.peg -g all.peg", "ring.peg", 261), ("-g all.peg -g ring.peg", "ring.peg", 261)]
    {
        folder.words(&format!("judge {grammars} broken.capture")).gives(
            1,
            &format!("stuck    broken.capture (by {by})\n1 capture: 0 accepted, 1 stuck; {readings} readings\n"),
            &BROKEN_HINT.replace("found '?'", "found '?' (by ring.peg)"),
        );
    }
    folder
        .words("judge -i ended.image -g all.peg formed.capture")
        .writes(1, "ended    formed.capture (by ended.image)\n1 capture: 0 accepted, 1 ended; 157 readings\n");
}

#[test]
fn standard_input_is_a_capture_once() {
    let folder = Folder::ring();
    folder.with_input("judge -g ring.peg -", FORMED).gives(0, "accepted -\n1 capture: 1 accepted; 174 readings\n", "");
    folder.with_input("judge -g ring.peg broken.capture - formed.capture", FORMED).gives(
        1,
        "stuck    broken.capture\naccepted -\naccepted formed.capture\n3 captures: 2 accepted, 1 stuck; 453 readings\n",
        BROKEN_HINT,
    );
    folder.with_input("judge -g ring.peg -", &[b'1'; 70_000]).gives(
        2,
        "refused  -\n1 capture: 0 accepted, 1 refused; 0 readings\n",
        "refused: -: refused 7 65536: the capture is longer than 65,535 bytes\n",
    );
    let twice = folder.with_input("judge -g ring.peg - -", b"");
    assert_eq!((twice.status, twice.stdout.as_str()), (Some(2), ""));
    assert!(twice.stderr.starts_with("error: standard input, -, is one capture and can be given once\n"), "{twice:?}");
}

#[test]
fn an_empty_capture_is_judged() {
    let folder = Folder::ring();
    folder.file("empty.capture", "");
    folder.file("nothing.peg", "nothing = empty;");
    folder.words("judge -g nothing.peg empty.capture").gives(
        0,
        "accepted empty.capture\n1 capture: 1 accepted; 3 readings\n",
        "",
    );
    folder.words("judge -g ring.peg empty.capture").gives(
        1,
        "stuck    empty.capture\n1 capture: 0 accepted, 1 stuck; 13 readings\n",
        "hint: empty.capture: line 1, column 1: expected '1'-'8' (port), found the end of the capture\n\n    ^\n",
    );
}

/// As in a plan, where two rows may name it.
#[test]
fn a_grammar_given_twice_judges_once() {
    let folder = Folder::ring();
    folder.words("judge -g ring.peg -g ring.peg formed.capture").gives(0, ACCEPTED, "");
    folder.words("judge -g ring.peg -g ring.peg broken.capture").gives(1, STUCK, BROKEN_HINT);
}

/// Where there is no memory for the cells, the library's refusal of too few stays, and the others are judged.
#[test]
fn too_little_memory_is_2() {
    let folder = Folder::ring();
    folder.file("big.capture", FORMED.repeat(2_700));
    let ran = folder.shell("ulimit -v 60000; exec \"$@\"", "judge -j 1 -g ring.peg big.capture formed.capture");
    ran.writes(2, "refused  big.capture\naccepted formed.capture\n2 captures: 1 accepted, 1 refused; 174 readings\n");
}
