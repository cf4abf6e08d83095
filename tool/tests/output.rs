//! Where the tool writes: standard output and error, files that appear when they are whole, colours, and what happens
//! where it cannot write.
use crate::common::*;
use std::fs::{self, File};
use std::io::{BufRead, BufReader, Read};
use std::os::unix::fs::PermissionsExt;

const ACCEPTED: &str = "accepted formed.capture\n1 capture: 1 accepted; 174 readings\n";
const BOTH: &str = "accepted formed.capture\nstuck    broken.capture\n2 captures: 1 accepted, 1 stuck; 279 readings\n";
const NO_SPACE: &str = "No space left on device (os error 28)";

#[test]
fn a_pipe_that_is_closed_early_is_2_and_no_panic() {
    let folder = Folder::ring();
    for number in 0..2_000 {
        folder.file(format!("shift/a-rather-long-name-of-a-capture-{number:04}"), FORMED);
    }
    for (format, first) in [
        ("text", "accepted shift/a-rather-long-name-of-a-capture-0000\n"),
        ("json", "{\n"),
        ("csv", "file,bytes,sha256,grammar,grammar_sha256,matching,verdict,readings,end_state,end_head,end_symbol,line,column,expected,found,refusal,place,error,tool_version,tool_commit,archive_version,archive_sha256,time\n"),
        ("junit", "<?xml version=\"1.0\" encoding=\"UTF-8\"?>\n"),
    ] {
        let mut child = folder.tool(["judge", "-g", "ring.peg", "-f", format, "shift"]).spawn().unwrap();
        let mut reader = BufReader::with_capacity(64, child.stdout.take().unwrap());
        let mut line = String::new();
        reader.read_line(&mut line).unwrap();
        drop(reader);
        assert_eq!(line, first);
        let mut stderr = String::new();
        child.stderr.take().unwrap().read_to_string(&mut stderr).unwrap();
        assert_eq!(stderr, "error: standard output: cannot be written: Broken pipe (os error 32)\n");
        assert_eq!(child.wait().unwrap().code(), Some(2));
    }
}

#[test]
fn a_full_standard_output_is_2() {
    let folder = Folder::ring();
    for format in ["text", "json", "jsonl", "csv", "junit"] {
        let full = File::options().write(true).open("/dev/full").unwrap();
        let ran = ran(folder.tool(["judge", "-g", "ring.peg", "-f", format, "formed.capture"]).stdout(full));
        ran.gives(2, "", &format!("error: standard output: cannot be written: {NO_SPACE}\n"));
    }
    for arguments in ["grammar check ring.peg", "grammar show ring.peg", "selftest"] {
        let full = File::options().write(true).open("/dev/full").unwrap();
        let ran = ran(folder.tool(arguments.split(' ')).stdout(full));
        ran.gives(2, "", &format!("error: standard output: cannot be written: {NO_SPACE}\n"));
    }
}

/// What was written is not there, so that the record is not whole.
#[test]
fn a_closed_standard_output_is_2() {
    let folder = Folder::ring();
    for format in ["text", "json"] {
        let ran = folder.shell("exec \"$@\" >&-", &format!("judge -g ring.peg -f {format} formed.capture"));
        assert_eq!(ran.status, Some(2), "{format}: {ran:?}");
    }
}

/// A standard error that cannot be written changes neither lines nor status.
#[test]
fn a_full_or_closed_standard_error_changes_nothing() {
    let folder = Folder::ring();
    let arguments = "judge -g ring.peg formed.capture broken.capture";
    folder.shell("exec \"$@\" 2>/dev/full", arguments).gives(1, BOTH, "");
    folder.shell("exec \"$@\" 2>&-", arguments).gives(1, BOTH, "");
}

#[test]
fn out_to_a_full_device_or_a_folder_is_2() {
    let folder = Folder::ring();
    folder.folder("records");
    for option in ["--out", "--report"] {
        folder.words(&format!("judge -g ring.peg {option} records formed.capture")).gives(
            2,
            ACCEPTED,
            "error: records: cannot be written: Is a directory (os error 21)\n",
        );
    }
    folder.words("judge -g ring.peg -f json --out /dev/full formed.capture").gives(
        2,
        ACCEPTED,
        &format!("error: /dev/full: cannot be written: {NO_SPACE}\n"),
    );
    assert!(folder.path("records").is_dir());
    folder.words("judge -g ring.peg -f json --out records/none/a.json formed.capture").gives(
        2,
        ACCEPTED,
        "error: records/none/a.json: cannot be written: No such file or directory (os error 2)\n",
    );
    assert_eq!(fs::read_dir(folder.path("records")).unwrap().count(), 0);
}

#[test]
fn out_replaces_an_old_file_when_it_is_whole() {
    let folder = Folder::ring();
    folder.file("record.txt", "an old record, longer than the new one".repeat(50));
    let before = folder.names();
    folder.words("judge -g ring.peg --out record.txt formed.capture broken.capture").gives(1, BOTH, BROKEN_HINT);
    assert_eq!(folder.text("record.txt"), BOTH);
    folder.words("judge -g ring.peg --out record.txt formed.capture").gives(0, ACCEPTED, "");
    assert_eq!(folder.text("record.txt"), ACCEPTED);
    assert_eq!(folder.names(), before);
}

/// A file may have no byte here, and the signal for that is ignored: every writing fails.
#[test]
fn the_old_file_stays_where_writing_fails() {
    let folder = Folder::ring();
    for name in ["old.json", "old.html"] {
        folder.file(name, "old");
    }
    let before = folder.names();
    let script = "trap '' XFSZ; ulimit -f 0; exec \"$@\"";
    let ran = folder.shell(script, "judge -g ring.peg --out old.json formed.capture");
    ran.gives(2, ACCEPTED, "error: old.json: cannot be written: File too large (os error 27)\n");
    folder.shell(script, "judge -g ring.peg --report old.html formed.capture").gives(
        2,
        ACCEPTED,
        "error: old.html: cannot be written: File too large (os error 27)\n",
    );
    folder.shell(script, "judge -g ring.peg --out new.json formed.capture").gives(
        2,
        ACCEPTED,
        "error: new.json: cannot be written: File too large (os error 27)\n",
    );
    assert_eq!((folder.text("old.json"), folder.text("old.html")), ("old".into(), "old".into()));
    assert_eq!(folder.names(), before);
}

#[test]
fn out_on_a_link_keeps_the_link() {
    let folder = Folder::ring();
    folder.file("records/real.txt", "old");
    folder.link("records/real.txt", "link.txt");
    folder.words("judge -g ring.peg --out link.txt formed.capture").gives(0, ACCEPTED, "");
    assert_eq!(fs::read_link(folder.path("link.txt")).unwrap().to_str(), Some("records/real.txt"));
    assert_eq!(folder.text("records/real.txt"), ACCEPTED);
}

/// The first record through a link: the file is made where it points.
#[test]
fn out_on_a_link_to_no_file_yet_keeps_the_link() {
    let folder = Folder::ring();
    folder.folder("records");
    folder.link("records/real.txt", "link.txt");
    folder.words("judge -g ring.peg --out link.txt formed.capture").gives(0, ACCEPTED, "");
    let link = fs::read_link(folder.path("link.txt"));
    assert_eq!(link.ok().as_deref().and_then(|link| link.to_str()), Some("records/real.txt"));
    assert_eq!(folder.text("records/real.txt"), ACCEPTED);
}

/// The longest name that a file may have.
#[test]
fn out_with_a_long_name() {
    let folder = Folder::ring();
    let name = "x".repeat(255);
    folder.words(&format!("judge -g ring.peg --out {name} formed.capture")).gives(0, ACCEPTED, "");
    assert_eq!(folder.text(&name), ACCEPTED);
}

/// A record that only its owner may read stays so.
#[test]
fn out_keeps_the_permissions_of_an_old_file() {
    let folder = Folder::ring();
    let file = folder.file("record.txt", "old");
    fs::set_permissions(&file, fs::Permissions::from_mode(0o600)).unwrap();
    folder.words("judge -g ring.peg --out record.txt formed.capture").gives(0, ACCEPTED, "");
    assert_eq!(fs::metadata(&file).unwrap().permissions().mode() & 0o777, 0o600);
}

#[test]
fn out_to_a_pipe_or_to_standard_output() {
    let folder = Folder::ring();
    let script = "\"$@\" --out >(cat > copy; echo done > ready) formed.capture; status=$?; wait $!; exit $status";
    folder.shell(script, "judge -g ring.peg").gives(0, ACCEPTED, "");
    assert_eq!((folder.text("copy"), folder.text("ready")), (ACCEPTED.into(), "done\n".into()));
    folder.words("judge -g ring.peg -q --out /dev/stdout formed.capture").gives(0, ACCEPTED, "");
}

/// One of the two would be lost.
#[test]
fn out_and_report_to_one_file_is_2() {
    let folder = Folder::ring();
    let ran = folder.words("judge -g ring.peg --out same.html --report same.html formed.capture");
    assert_eq!(ran.status, Some(2), "{ran:?}");
}

/// What stands in a file to which standard output is appended stays.
#[test]
fn out_to_an_appended_standard_output() {
    let folder = Folder::ring();
    folder.file("log", "old\n");
    folder.shell("exec \"$@\" >> log", "judge -q -g ring.peg --out /dev/stdout formed.capture").gives(0, "", "");
    assert_eq!(folder.text("log"), format!("old\n{ACCEPTED}"));
}

#[test]
fn quiet_tells_only_what_could_not_be_done() {
    let folder = Folder::ring();
    folder.file("list.peg", "list = list / empty;");
    folder.file("bad.peg", "a");
    folder.file("halt.image", image(HALTING));
    folder.words("judge -q -g ring.peg formed.capture").gives(0, "", "");
    folder.words("judge -q -g ring.peg formed.capture broken.capture").gives(1, "", "");
    folder.words("judge --quiet -g list.peg formed.capture").gives(1, "", "");
    folder.words("judge -q -i halt.image formed.capture").gives(1, "", "");
    folder.words("judge -q -g ring.peg formed.capture broken.capture no.capture").gives(
        2,
        "",
        "error: no.capture: cannot be read: No such file or directory (os error 2)\n",
    );
    folder.words("judge -q -g bad.peg formed.capture").gives(
        2,
        "",
        "error: bad.peg: line 1, column 2: the text ends early (refusal 15)\n    a\n     ^\n",
    );
    folder.file("long.capture", [0; 65_536]);
    folder.words("judge -q -g ring.peg long.capture").gives(
        2,
        "",
        "refused: long.capture: refused 7 65536: the capture is longer than 65,535 bytes\n",
    );
    // The record is not text for a person.
    folder.words("judge -q -g ring.peg --out a.txt broken.capture").gives(1, "", "");
    assert_eq!(folder.text("a.txt"), "stuck    broken.capture\n1 capture: 0 accepted, 1 stuck; 105 readings\n");
    assert_eq!(folder.words("judge -q -f jsonl -g ring.peg formed.capture").stdout.lines().count(), 1);
}

/// Also where another grammar could not judge.
#[test]
fn quiet_has_no_hint_beside_a_refusal() {
    let folder = Folder::ring();
    folder.file("bad.peg", "a");
    folder.words("judge -q -g ring.peg -g bad.peg broken.capture").gives(
        2,
        "",
        "error: bad.peg: line 1, column 2: the text ends early (refusal 15)\n    a\n     ^\n",
    );
}

#[test]
fn colours() {
    let folder = Folder::ring();
    folder.file("bad.peg", "a");
    let arguments = ["judge", "-g", "ring.peg", "formed.capture", "broken.capture", "no.capture"];
    let plain_out = "accepted formed.capture\nstuck    broken.capture\nerror    no.capture\n3 captures: 1 accepted, 1 stuck, 1 error; 279 readings\n";
    let no_file = "error: no.capture: cannot be read: No such file or directory (os error 2)\n";
    let plain_err = format!("{BROKEN_HINT}{no_file}");
    let coloured_out = "\x1b[32maccepted\x1b[0m formed.capture\n\x1b[31mstuck   \x1b[0m broken.capture\n\x1b[33merror   \x1b[0m no.capture\n3 captures: 1 accepted, 1 stuck, 1 error; 279 readings\n";
    let coloured_err = plain_err.replace("hint:", "\x1b[1mhint:\x1b[0m").replace("error:", "\x1b[1merror:\x1b[0m");
    let run = |options: &[&str], environment: &[(&str, &str)]| {
        ran(folder.tool(arguments.iter().chain(options)).envs(environment.iter().copied()))
    };
    // Piped, as here, there are none.
    run(&[], &[]).gives(2, plain_out, &plain_err);
    run(&["--color", "auto"], &[("NO_COLOR", "1")]).gives(2, plain_out, &plain_err);
    run(&["--color", "auto"], &[("NO_COLOR", "1"), ("CLICOLOR_FORCE", "1")]).gives(2, plain_out, &plain_err);
    run(&["--color", "never"], &[("CLICOLOR_FORCE", "1")]).gives(2, plain_out, &plain_err);
    run(&["--color", "always"], &[]).gives(2, coloured_out, &coloured_err);
    run(&["--color", "always"], &[("NO_COLOR", "1")]).gives(2, coloured_out, &coloured_err);
    run(&[], &[("CLICOLOR_FORCE", "1")]).gives(2, coloured_out, &coloured_err);
    // A record has none.
    run(&["--color", "always", "--out", "record.txt"], &[]).gives(2, coloured_out, &coloured_err);
    assert_eq!(folder.text("record.txt"), plain_out);
    let ran = folder.words("judge --color always -f json -g ring.peg broken.capture");
    assert!(!ran.stdout.contains('\x1b'), "{}", ran.stdout);
    let ran = folder.words("judge --color always -g bad.peg formed.capture");
    assert!(ran.stderr.starts_with("\x1b[1merror:\x1b[0m bad.peg: line 1, column 2: "), "{}", ran.stderr);
}

/// By its convention 0 forces nothing.
#[test]
fn colours_are_not_forced_by_0() {
    let folder = Folder::ring();
    let ran = ran(folder.tool(["judge", "-g", "ring.peg", "formed.capture"]).env("CLICOLOR_FORCE", "0"));
    ran.gives(0, ACCEPTED, "");
}

/// One line for each capture and one of totals on standard output; with a record there, nothing else.
#[test]
fn standard_output_has_lines_and_totals_or_the_record() {
    let folder = Folder::ring();
    let arguments = "judge -g ring.peg -g ring.grammar formed.capture broken.capture no.capture";
    let ran = folder.words(arguments);
    let words: Vec<_> = ran.stdout.lines().map(|line| line.split(' ').next().unwrap()).collect();
    assert_eq!(words, ["accepted", "stuck", "error", "3"]);
    for (format, lines) in [("jsonl", 5), ("csv", 6)] {
        let record = folder.words(&format!("{arguments} -f {format}"));
        assert_eq!(record.stdout.lines().count(), lines);
        assert_eq!((record.status, &record.stderr), (ran.status, &ran.stderr));
    }
}
