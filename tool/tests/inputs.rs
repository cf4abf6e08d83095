//! What captures are: files, folders, links, pipes and devices; their names; and how many and how long they may be.
use crate::common::*;
use std::ffi::OsStr;
use std::os::unix::ffi::OsStrExt;
use std::process::Stdio;
use std::thread;

const TOTALS: &str = "1 capture: 1 accepted; 174 readings\n";

/// The lines of accepted captures, and the totals.
fn all_accepted(names: &[&str]) -> String {
    let lines: String = names.iter().map(|name| format!("accepted {name}\n")).collect();
    let readings = if names.len() == 8 { "1,392".into() } else { (174 * names.len()).to_string() };
    format!("{lines}{0} captures: {0} accepted; {readings} readings\n", names.len())
}

#[test]
fn a_folder_is_every_file_below_by_name() {
    let folder = Folder::ring();
    let names =
        ["shift/.hidden", "shift/.old/c", "shift/10", "shift/9", "shift/B", "shift/a", "shift/b/.x/y", "shift/b/a"];
    for name in names.iter().rev() {
        folder.file(name, FORMED);
    }
    folder.folder("shift/bare/barer");
    folder.words("judge -g ring.peg shift").gives(0, &all_accepted(&names), "");
    // Folders and files in the order given; a name that is given twice is judged twice.
    folder.words("judge -g ring.peg shift/b formed.capture shift/.old shift/b/a").gives(
        0,
        &all_accepted(&["shift/b/.x/y", "shift/b/a", "formed.capture", "shift/.old/c", "shift/b/a"]),
        "",
    );
    let ran =
        ran(folder.program(TOOL).current_dir(folder.path("shift/b")).args(["judge", "-g", "../../ring.peg", "."]));
    ran.gives(0, &all_accepted(&["./.x/y", "./a"]), "");
}

#[test]
fn an_empty_folder_is_an_error() {
    let folder = Folder::ring();
    folder.folder("none/below");
    folder.words("judge -g ring.peg none formed.capture").gives(
        2,
        "error    none\naccepted formed.capture\n2 captures: 1 accepted, 1 error; 174 readings\n",
        "error: none: there is no capture in this folder\n",
    );
}

#[test]
fn what_is_no_file_in_a_folder_is_told_in_its_place() {
    let folder = Folder::ring();
    folder.file("shift/a", FORMED);
    folder.pipe("shift/b");
    folder.link("nowhere", folder.path("shift/c"));
    folder.link("..", folder.path("shift/d"));
    folder.link("a", folder.path("shift/e"));
    folder.link("f", folder.path("shift/f"));
    folder.file("shift/g", FORMED);
    folder.link("../shift", folder.path("shift/h"));
    folder.link("../other", folder.path("shift/i"));
    folder.file("other/z", FORMED);
    folder.link("/dev/zero", folder.path("shift/j"));
    let ran = folder.words("judge -g ring.peg shift");
    // Link d leads to the folder above, where shift is met again: its files are not judged twice.
    let below_d = ["ring.peg", "ring.grammar", "formed.capture", "broken.capture", "other"];
    let lines: Vec<&str> = ran.stdout.lines().filter(|line| !below_d.iter().any(|name| line.contains(name))).collect();
    assert_eq!(
        lines[..lines.len() - 1],
        [
            "accepted shift/a",
            "error    shift/b",
            "error    shift/c",
            "error    shift/d/shift",
            "accepted shift/e",
            "error    shift/f",
            "accepted shift/g",
            "error    shift/h",
            "accepted shift/i/z",
            "error    shift/j",
        ]
    );
    assert_eq!(ran.status, Some(2));
    for line in [
        "error: shift/b: is no file",
        "error: shift/c: cannot be read: No such file or directory (os error 2)",
        "error: shift/d/shift: a link leads back to a folder above it",
        "error: shift/f: cannot be read: Too many levels of symbolic links (os error 40)",
        "error: shift/h: a link leads back to a folder above it",
        "error: shift/j: is no file",
    ] {
        assert_eq!(ran.stderr.lines().filter(|other| *other == line).count(), 1, "{line}\n{}", ran.stderr);
    }
}

#[test]
fn links_and_what_cannot_be_read_as_arguments() {
    let folder = Folder::ring();
    folder.link("formed.capture", "link");
    folder.link("nowhere", "dangling");
    folder.link("round", "round");
    folder.file("shift/a", FORMED);
    folder.link("shift", "folder");
    folder.words("judge -g ring.peg link dangling round /proc/self/mem folder").gives(
        2,
        "accepted link\nerror    dangling\nerror    round\nerror    /proc/self/mem\naccepted folder/a\n5 captures: 2 accepted, 3 error; 348 readings\n",
        "error: dangling: cannot be read: No such file or directory (os error 2)
error: round: cannot be read: Too many levels of symbolic links (os error 40)
error: /proc/self/mem: cannot be read: Input/output error (os error 5)
",
    );
    folder.words("judge -g ring.peg formed.capture/a").gives(
        2,
        "error    formed.capture/a\n1 capture: 0 accepted, 1 error; 0 readings\n",
        "error: formed.capture/a: cannot be read: Not a directory (os error 20)\n",
    );
}

#[test]
fn every_name_is_one_line_and_escaped() {
    let folder = Folder::ring();
    let names: [(&[u8], &str); 11] = [
        (b"a b", "a b"),
        (b" lead and trail ", " lead and trail "),
        (b"one\ntwo", "one\\ntwo"),
        (b"one\\ntwo", "one\\\\ntwo"),
        (b"accepted x\r", "accepted x\\r"),
        (b"\x1b[32mgreen", "\\u{1b}[32mgreen"),
        (b"\xff\xfe.capture", "\\xff\\xfe.capture"),
        (b"cut\xc3", "cut\\xc3"),
        (b"quote'\"<&>,", "quote'\"<&>,"),
        ("prüfung".as_bytes(), "prüfung"),
        ("\u{202e}\u{200b}x\u{85}".as_bytes(), "\\u{202e}\\u{200b}x\\u{85}"),
    ];
    for (name, shown) in names {
        folder.file(OsStr::from_bytes(name), FORMED);
        let arguments = [OsStr::new("judge"), OsStr::new("-g"), OsStr::new("ring.peg"), OsStr::from_bytes(name)];
        folder.run(arguments).gives(0, &format!("accepted {shown}\n{TOTALS}"), "");
        folder.file(OsStr::from_bytes(name), BROKEN);
        let ran = folder.run(arguments);
        ran.gives(
            1,
            &format!("stuck    {shown}\n1 capture: 0 accepted, 1 stuck; 105 readings\n"),
            &BROKEN_HINT.replace("broken.capture", shown),
        );
    }
}

#[test]
fn names_with_a_leading_dash() {
    let folder = Folder::ring();
    for name in ["-x", "--out", "--"] {
        folder.file(name, FORMED);
        let expected = format!("accepted {name}\n{TOTALS}");
        folder.run(["judge", "-g", "ring.peg", "--", name]).gives(0, &expected, "");
    }
    // A file that is called as standard input is.
    folder.file("-", BROKEN);
    folder.words("judge -g ring.peg ./-").gives(
        1,
        "stuck    ./-\n1 capture: 0 accepted, 1 stuck; 105 readings\n",
        &BROKEN_HINT.replace("broken.capture", "./-"),
    );
    let ran = folder.run(["judge", "-g", "ring.peg", "formed.capture", "-x"]);
    assert_eq!((ran.status, ran.stdout.as_str()), (Some(2), ""));
}

#[test]
fn a_pipe_that_is_named_is_read() {
    let folder = Folder::ring();
    let pipe = folder.pipe("pipe");
    let writer = thread::spawn(move || std::fs::write(pipe, FORMED).unwrap());
    folder.words("judge -g ring.peg pipe").gives(0, &format!("accepted pipe\n{TOTALS}"), "");
    writer.join().unwrap();
    // A grammar too; its name does not end in .peg, so that it is bytes.
    let script = "\"$@\" -g <(cat ring.grammar) <(cat formed.capture; cat formed.capture) | sed s,/dev/fd/[0-9]*,fd,; exit ${PIPESTATUS[0]}";
    folder.shell(script, "judge").gives(0, "accepted fd\n1 capture: 1 accepted; 329 readings\n", "");
}

#[test]
fn an_endless_capture_is_refused() {
    let folder = Folder::ring();
    folder.words("judge -g ring.peg /dev/zero formed.capture").gives(
        2,
        "refused  /dev/zero\naccepted formed.capture\n2 captures: 1 accepted, 1 refused; 174 readings\n",
        "refused: /dev/zero: refused 7 65536: the capture is longer than 65,535 bytes\n",
    );
    let file = std::fs::File::open("/dev/zero").unwrap();
    ran(folder.tool(["judge", "-g", "ring.peg", "-"]).stdin(Stdio::from(file))).gives(
        2,
        "refused  -\n1 capture: 0 accepted, 1 refused; 0 readings\n",
        "refused: -: refused 7 65536: the capture is longer than 65,535 bytes\n",
    );
    // Of a file the length is told, also above 32 bits.
    std::fs::File::create(folder.path("sparse")).unwrap().set_len((1 << 32) + 24).unwrap();
    folder.words("judge -g ring.peg sparse").gives(
        2,
        "refused  sparse\n1 capture: 0 accepted, 1 refused; 0 readings\n",
        "refused: sparse: refused 7 4294967320: the capture is longer than 65,535 bytes\n",
    );
}

#[test]
fn a_thousand_captures_in_order_with_any_number_of_jobs() {
    let folder = Folder::ring();
    let (mut lines, mut hints) = (String::new(), String::new());
    for number in 0..1_000 {
        let name = format!("shift/{number:04}");
        // Of different lengths, so that one may be judged before another that comes first.
        let line = &FORMED[..6];
        let mut bytes = line.repeat(1 + number * 7 % 40);
        if number % 10 == 3 {
            bytes.extend(b"1-2 F?");
            let row = bytes.len() / 6;
            hints += &format!(
                "hint: {name}: line {row}, column 6: expected '\\n' (feed), found '?'\n    1-2 F?\n         ^\n"
            );
            lines += &format!("stuck    {name}\n");
        } else {
            lines += &format!("accepted {name}\n");
        }
        folder.file(&name, bytes);
    }
    let first = folder.words("judge -g ring.peg -j 1 shift");
    let (captures, totals) = first.stdout.split_at(lines.len());
    assert_eq!(captures, lines);
    let readings = totals.rsplit_once("; ").unwrap().1;
    assert_eq!(totals, format!("1,000 captures: 900 accepted, 100 stuck; {readings}"));
    assert_eq!(first.stderr, hints);
    assert_eq!(first.status, Some(1));
    for jobs in ["2", "7", "2000"] {
        folder.words(&format!("judge -g ring.peg -j {jobs} shift")).gives(1, &first.stdout, &first.stderr);
    }
}

#[test]
fn every_count_of_the_totals_has_its_thousands_apart() {
    let folder = Folder::ring();
    for number in 0..1_001 {
        folder.file(format!("good/{number:04}"), FORMED);
        folder.file(format!("worse/{number:04}"), BROKEN);
    }
    let ran = folder.words("judge -g ring.peg good worse");
    assert_eq!(ran.stdout.lines().last().unwrap(), "2,002 captures: 1,001 accepted, 1,001 stuck; 279,279 readings");
}

#[test]
fn the_longest_captures() {
    let folder = Folder::ring();
    folder.file("all.peg", "all = '1-1'*;");
    for length in [60_000, 65_535, 65_536, 65_537] {
        folder.file(format!("shift/{length}"), vec![b'1'; length]);
    }
    folder.file("shift/0", "");
    let lines =
        "accepted shift/0\naccepted shift/60000\naccepted shift/65535\nrefused  shift/65536\nrefused  shift/65537\n";
    for jobs in [1, 3] {
        // Of this grammar 10 for no byte, else 12 and 6 for each.
        let readings = "753,244";
        folder.words(&format!("judge -g all.peg -j {jobs} shift")).gives(
            2,
            &format!("{lines}5 captures: 3 accepted, 2 refused; {readings} readings\n"),
            "refused: shift/65536: refused 7 65536: the capture is longer than 65,535 bytes
refused: shift/65537: refused 7 65537: the capture is longer than 65,535 bytes
",
        );
    }
    // A fault at the end of 60,000 bytes is found there.
    let mut bytes = FORMED.repeat(2_500);
    bytes[59_998] = b'?';
    folder.file("late", bytes);
    folder.words("judge -g ring.peg late").gives(
        1,
        "stuck    late\n1 capture: 0 accepted, 1 stuck; 387,505 readings\n",
        "hint: late: line 10000, column 5: expected 'F' (state) or 'B' (state), found '?'\n    4-1 ?\n        ^\n",
    );
}

/// What cannot be read is no empty capture, which this grammar accepts.
#[test]
fn a_standard_input_that_cannot_be_read_is_an_error() {
    let folder = Folder::ring();
    folder.file("all.peg", "all = .*;");
    let lines = "error    -\n1 capture: 0 accepted, 1 error; 0 readings\n";
    let folder_as_input = folder.shell("exec \"$@\" < .", "judge -g all.peg -");
    folder_as_input.gives(2, lines, "error: -: cannot be read: Is a directory (os error 21)\n");
    folder.shell("exec \"$@\" <&-", "judge -g all.peg -").writes(2, lines);
}

/// Where so many threads cannot be had, fewer judge. Each is given 300 MB for its stack here, and there is 1 GB for all.
#[test]
fn more_jobs_than_threads() {
    let folder = Folder::ring();
    for number in 0..40 {
        folder.file(format!("shift/{number:02}"), FORMED);
    }
    let script = "ulimit -v 1000000; RUST_MIN_STACK=300000000 exec \"$@\"";
    let lines: String = (0..40).map(|number| format!("accepted shift/{number:02}\n")).collect();
    let lines = format!("{lines}40 captures: 40 accepted; 6,960 readings\n");
    folder.shell(script, "judge -j 1 -g ring.peg shift").gives(0, &lines, "");
    folder.shell(script, "judge -j 40 -g ring.peg shift").gives(0, &lines, "");
}
