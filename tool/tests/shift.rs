//! A shift by its plan: which rows name a capture, and that nothing which was not judged ever passes.
use crate::common::*;
use serde_json::Value;

const ROW: &str = "[[row]]\ncaptures = \"**\"\ngrammars = [\"ring.peg\"]\n";

/// Grammars and images in `plans`, captures in `caps`: two dumps that are right, one that is broken.
fn folder() -> Folder {
    let folder = Folder::new();
    folder.file("plans/ring.peg", RING);
    folder.file("plans/ring.grammar", RING_BYTES);
    folder.file("plans/short.peg", "short = line line; line = (!'\n-\n' .)* '\n-\n';");
    folder.file("plans/ended.image", image(ENDING));
    folder.file("caps/a.capture", FORMED);
    folder.file("caps/sub/b.capture", FORMED);
    folder.file("caps/sub/deep/c.capture", BROKEN);
    folder
}

fn row(captures: &str, more: &str) -> String {
    format!("[[row]]\ncaptures = {captures}\n{more}\n")
}

const BY_RING: &str = "grammars = [\"ring.peg\"]";

#[track_caller]
fn shift(folder: &Folder, plan: &str) -> Ran {
    folder.file("plans/plan.toml", plan);
    folder.words("shift plans/plan.toml caps")
}

fn hint_of(name: &str) -> String {
    BROKEN_HINT.replace("broken.capture", name)
}

#[test]
fn two_stars_name_every_file() {
    let folder = folder();
    let lines = "accepted caps/a.capture\naccepted caps/sub/b.capture\nstuck    caps/sub/deep/c.capture\n3 captures: 2 accepted, 1 stuck; 453 readings\n";
    for pattern in
        ["\"**\"", "\"**/*.capture\"", "\"**/?.*\"", "\"{a.capture,sub/**}\"", "[\"a*\", \"sub/b*\", \"**/c.capture\"]"]
    {
        shift(&folder, &row(pattern, BY_RING)).gives(1, lines, &hint_of("caps/sub/deep/c.capture"));
    }
}

#[test]
fn a_star_does_not_pass_a_folders_end() {
    let folder = folder();
    shift(&folder, &row("\"*.capture\"", BY_RING)).gives(
        2,
        "accepted caps/a.capture\nerror    caps/sub/b.capture\nerror    caps/sub/deep/c.capture\n3 captures: 1 accepted, 2 error; 174 readings\n",
        "error: caps/sub/b.capture: no row of the plan names it\nerror: caps/sub/deep/c.capture: no row of the plan names it\n",
    );
    shift(&folder, &row("[\"a.capture\", \"sub/*\"]", BY_RING)).gives(
        2,
        "accepted caps/a.capture\naccepted caps/sub/b.capture\nerror    caps/sub/deep/c.capture\n3 captures: 2 accepted, 1 error; 348 readings\n",
        "error: caps/sub/deep/c.capture: no row of the plan names it\n",
    );
}

#[test]
fn all_rows_that_name_a_capture_count() {
    let folder = folder();
    let plan = row("\"**\"", BY_RING) + &row("[\"a*\", \"**/a*\"]", "grammars = [\"short.peg\", \"ring.peg\"]");
    let ran = shift(&folder, &plan);
    assert_eq!(ran.stdout.lines().next(), Some("stuck    caps/a.capture (by plans/short.peg)"));
    assert_eq!(ran.stdout.lines().nth(1), Some("accepted caps/sub/b.capture"));
    // A grammar that two rows name is one, in whole or leading matching.
    let plan = row("\"**\"", BY_RING)
        + &row("\"a*\"", BY_RING)
        + &row("\"**/c*\"", "grammars = [\"ring.peg\"]\nmatching = \"leading\"");
    shift(&folder, &plan).gives(
        1,
        "accepted caps/a.capture\naccepted caps/sub/b.capture\nstuck    caps/sub/deep/c.capture (by plans/ring.peg)\n3 captures: 2 accepted, 1 stuck; 570 readings\n",
        &hint_of("caps/sub/deep/c.capture").replace("found '?'", "found '?' (by plans/ring.peg)"),
    );
}

#[test]
fn leading_and_images() {
    let folder = folder();
    let leading = row("\"**\"", "grammars = [\"ring.peg\"]\nmatching = \"leading\"");
    shift(&folder, &leading).gives(
        0,
        "accepted caps/a.capture\naccepted caps/sub/b.capture\naccepted caps/sub/deep/c.capture\n3 captures: 3 accepted; 465 readings\n",
        "",
    );
    let plan = row("\"a*\"", "images = [\"ended.image\"]")
        + &row("\"**\"", "grammars = [\"ring.grammar\"]\nmatching = \"leading\"");
    shift(&folder, &plan).gives(
        1,
        "ended    caps/a.capture (by plans/ended.image)\naccepted caps/sub/b.capture\naccepted caps/sub/deep/c.capture\n3 captures: 2 accepted, 1 ended; 466 readings\n",
        "hint: caps/a.capture: line 1, column 1: the machine came this far; ended at place 0 in state 0 with symbol 0, at '1' (by plans/ended.image)\n    1-2 F\n    ^\n",
    );
}

#[test]
fn a_row_that_finds_no_capture_is_told() {
    let folder = folder();
    let plan =
        row("\"**\"", "grammars = [\"ring.peg\"]\nmatching = \"leading\"") + &row("[\"none*\", \"sub/none\"]", BY_RING);
    shift(&folder, &plan).gives(
        2,
        "accepted caps/a.capture\naccepted caps/sub/b.capture\naccepted caps/sub/deep/c.capture\nerror    (no capture)\nerror    (no capture)\n3 captures: 3 accepted, 2 error; 465 readings\n",
        "error: (no capture): row 2 of the plan finds no capture: none*\nerror: (no capture): row 2 of the plan finds no capture: sub/none\n",
    );
    let quiet = folder.words("shift -q plans/plan.toml caps");
    quiet.gives(2, "", "error: (no capture): row 2 of the plan finds no capture: none*\nerror: (no capture): row 2 of the plan finds no capture: sub/none\n");
}

/// A capture that the plan lists by name and that is not there has not passed.
#[test]
fn a_pattern_of_a_list_that_finds_none_is_told() {
    let folder = folder();
    let plan = row("[\"**\", \"missing.capture\"]", "grammars = [\"ring.peg\"]\nmatching = \"leading\"");
    let ran = shift(&folder, &plan);
    assert_eq!(ran.status, Some(2), "{ran:?}");
    assert!(ran.stderr.contains("missing.capture"), "{ran:?}");
}

/// A pattern is shown as a name is: on one line, and without what a terminal obeys.
#[test]
fn a_pattern_that_finds_none_is_escaped() {
    let folder = folder();
    let plan =
        row("\"**\"", "grammars = [\"ring.peg\"]\nmatching = \"leading\"") + &row("\"x\\naccepted y\\u001b\"", BY_RING);
    let ran = shift(&folder, &plan);
    assert_eq!(ran.stderr, "error: (no capture): row 2 of the plan finds no capture: x\\naccepted y\\u{1b}\n");
}

/// Nor does a field that is not known make a line of its own.
#[test]
fn a_field_that_is_not_known_is_escaped() {
    let folder = folder();
    let ran = shift(&folder, &format!("\"x\\u001b[31m\\naccepted caps/y\" = 1\n{ROW}"));
    assert_eq!((ran.status, ran.stdout.as_str(), ran.stderr.lines().count()), (Some(2), "", 1), "{ran:?}");
    assert!(!ran.stderr.contains('\x1b'), "{ran:?}");
}

/// In each format what no row names, and a row that names nothing, are errors.
#[test]
fn what_was_not_judged_passes_in_no_format() {
    let folder = folder();
    folder.file("plans/plan.toml", row("\"sub/**\"", BY_RING) + &row("\"none\"", BY_RING));
    let run = |format: &str| {
        let ran = folder.words(&format!("shift plans/plan.toml caps --format {format}"));
        assert_eq!(ran.status, Some(2), "{format}");
        ran.stdout
    };
    let unnamed = "no row of the plan names it";
    let unfound = "row 2 of the plan finds no capture: none";
    let record: Value = serde_json::from_str(&run("json")).unwrap();
    let captures = record["captures"].as_array().unwrap();
    let told: Vec<_> =
        captures.iter().map(|capture| (&capture["file"], &capture["verdict"], &capture["error"])).collect();
    let text = |words: &str| Value::from(words);
    let verdicts = [
        (&text("caps/a.capture"), &text("error"), &text(unnamed)),
        (&text("caps/sub/b.capture"), &text("accepted"), &Value::Null),
        (&text("caps/sub/deep/c.capture"), &text("stuck"), &Value::Null),
        (&Value::Null, &text("error"), &text(unfound)),
    ];
    assert_eq!(told, verdicts);
    assert_eq!(
        (&record["status"], &record["totals"]["captures"], &record["totals"]["error"]),
        (&2.into(), &3.into(), &2.into())
    );
    let rows: Vec<Value> = run("jsonl").lines().map(|line| serde_json::from_str(line).unwrap()).collect();
    assert_eq!(rows.iter().map(|row| (&row["file"], &row["verdict"], &row["error"])).collect::<Vec<_>>(), verdicts);
    let table = run("csv");
    let mut reader = csv::Reader::from_reader(table.as_bytes());
    let rows: Vec<_> =
        reader.records().map(|row| row.unwrap()).map(|row| [0, 6, 17].map(|field| row[field].to_string())).collect();
    let shown = |value: &Value| value.as_str().unwrap_or("").to_string();
    assert_eq!(rows, verdicts.map(|(file, verdict, error)| [shown(file), shown(verdict), shown(error)]));
    let xml = run("junit");
    assert!(xml.contains("<testsuite name=\"sejimakpu\" tests=\"4\" failures=\"1\" errors=\"2\" "), "{xml}");
    for (class, words) in [("caps/a.capture", unnamed), ("(no capture)", unfound)] {
        let case = format!(
            "<testcase classname=\"{class}\" name=\"{class}\">\n    <error message=\"{words}\">{words}</error>"
        );
        assert!(xml.contains(&case), "{xml}");
    }
    assert_eq!(
        run("text"),
        "error    caps/a.capture\naccepted caps/sub/b.capture\nstuck    caps/sub/deep/c.capture\nerror    (no capture)\n3 captures: 1 accepted, 1 stuck, 2 error; 279 readings\n"
    );
}

/// A plan that is not as it must be: nothing is judged, and nothing is on standard output or in a record.
#[test]
fn a_wrong_plan_judges_nothing() {
    let folder = folder();
    let not = "row 1 needs a pattern of captures, and a grammar or an image";
    for (plan, words) in [
        (String::new(), "the plan has no row".to_string()),
        ("row = []\n".into(), "the plan has no row".into()),
        (row("\"**\"", ""), not.into()),
        (row("\"**\"", "grammars = []\nimages = []"), not.into()),
        (row("[]", BY_RING), not.into()),
        (ROW.to_string() + &row("\"**\"", ""), not.replace('1', "2")),
        (row("\"[a\"", BY_RING), "row 1: error parsing glob '[a': unclosed character class; missing ']'".into()),
        (
            row("[\"a\", \"{b\"]", BY_RING),
            "row 1: error parsing glob '{b': unclosed alternate group; missing '}' (maybe escape '{' with '[{]'?)"
                .into(),
        ),
    ] {
        let ran = shift(&folder, &plan);
        ran.gives(2, "", &format!("error: plans/plan.toml: {words}\n"));
    }
    // These are worded by the reader of TOML.
    for (plan, named) in [
        ("[[row]\n".to_string(), "line 1"),
        ("rows = 3\n".into(), "unknown field `rows`"),
        (row("\"**\"", "grammar = [\"ring.peg\"]"), "unknown field `grammar`"),
        (format!("{ROW}[row.more]\n"), "unknown field `more`"),
        (row("\"**\"", "grammars = [\"ring.peg\"]\nleading = true"), "unknown field `leading`"),
        (row("\"**\"", "grammars = [\"ring.peg\"]\nmatching = \"most\""), "unknown variant `most`"),
        (row("\"**\"", "grammars = \"ring.peg\""), "row.grammars"),
        (row("3", BY_RING), "row.captures"),
        ("[[row]]\ngrammars = [\"ring.peg\"]\n".into(), "missing field `captures`"),
        (format!("{ROW}captures = \"*\"\n"), "duplicate field `captures`"),
    ] {
        let ran = shift(&folder, &plan);
        assert_eq!((ran.status, ran.stdout.as_str(), ran.stderr.lines().count()), (Some(2), "", 1), "{ran:?}");
        assert!(ran.stderr.starts_with("error: plans/plan.toml: ") && ran.stderr.contains(named), "{ran:?}");
    }
    folder.file("record.json", "old");
    folder.words("shift plans/plan.toml caps --out record.json");
    assert_eq!(folder.text("record.json"), "old");
}

#[test]
fn a_plan_or_folder_that_cannot_be_read() {
    let folder = folder();
    folder.file("plans/plan.toml", ROW);
    folder.file("plans/bytes.toml", b"\xff");
    folder.folder("none/below");
    let no_file = "cannot be read: No such file or directory (os error 2)";
    for (arguments, words) in [
        ("plans/no.toml caps", format!("plans/no.toml: {no_file}")),
        ("plans caps", "plans: cannot be read: Is a directory (os error 21)".into()),
        ("plans/bytes.toml caps", "plans/bytes.toml: cannot be read: stream did not contain valid UTF-8".into()),
        ("plans/plan.toml no", "no: is no folder".into()),
        ("plans/plan.toml caps/a.capture", "caps/a.capture: is no folder".into()),
    ] {
        folder.words(&format!("shift {arguments}")).gives(2, "", &format!("error: {words}\n"));
    }
    folder.words("shift plans/plan.toml none").gives(
        2,
        "error    none\nerror    (no capture)\n1 capture: 0 accepted, 2 error; 0 readings\n",
        "error: none: there is no capture in this folder\nerror: (no capture): row 1 of the plan finds no capture: **\n",
    );
}

#[test]
fn what_is_no_file_in_the_folder_is_an_error() {
    let folder = folder();
    folder.pipe("caps/pipe");
    folder.link("nowhere", "caps/sub/link");
    shift(&folder, &row("\"**\"", BY_RING)).writes(
        2,
        "accepted caps/a.capture\nerror    caps/pipe\naccepted caps/sub/b.capture\nstuck    caps/sub/deep/c.capture\nerror    caps/sub/link\n5 captures: 2 accepted, 1 stuck, 2 error; 453 readings\n",
    );
}

/// A grammar that is refused or missing fails the captures of its row, and no others.
#[test]
fn a_bad_grammar_fails_its_rows_captures() {
    let folder = folder();
    folder.file("plans/bad.peg", "a");
    for (grammar, word) in [("bad.peg", "refused"), ("no.peg", "error")] {
        let plan = row("\"**\"", "grammars = [\"ring.peg\"]\nmatching = \"leading\"")
            + &row("\"sub/*.capture\"", &format!("grammars = [{grammar:?}]"));
        let by = format!("(by plans/{grammar})");
        shift(&folder, &plan).writes(
            2,
            &format!(
                "accepted caps/a.capture\n{word:<8} caps/sub/b.capture {by}\naccepted caps/sub/deep/c.capture\n3 captures: 2 accepted, 1 {word}; 465 readings\n"
            ),
        );
    }
}

/// Grammars are found from the plan's place, whatever the folder is called.
#[test]
fn grammars_are_relative_to_the_plan() {
    let folder = folder();
    folder.file("plans/plan.toml", row("\"**\"", "grammars = [\"../plans/ring.peg\"]\nmatching = \"leading\""));
    for (plan, captures, start) in [
        ("plans/plan.toml", "caps/", "caps/"),
        ("./plans/plan.toml", "./caps", "./caps/"),
        ("plans/../plans/plan.toml", "plans/../caps", "plans/../caps/"),
    ] {
        let lines =
            ["a.capture", "sub/b.capture", "sub/deep/c.capture"].map(|name| format!("accepted {start}{name}\n"));
        folder.words(&format!("shift {plan} {captures}")).gives(
            0,
            &format!("{}3 captures: 3 accepted; 465 readings\n", lines.concat()),
            "",
        );
    }
    let inside = ran(folder.program(TOOL).current_dir(folder.path("caps")).args(["shift", "../plans/plan.toml", "."]));
    assert_eq!((inside.status, inside.stdout.lines().next()), (Some(0), Some("accepted ./a.capture")));
}
