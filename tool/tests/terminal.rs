//! On a terminal: colours and progress are there, and only there. The terminal is one of script(1).
use crate::common::*;

const LINES: &str = "accepted formed.capture\nstuck    broken.capture\n2 captures: 1 accepted, 1 stuck; 279 readings\n";
const GREEN: &str = "\x1b[32maccepted\x1b[0m formed.capture";
const RED: &str = "\x1b[31mstuck   \x1b[0m broken.capture";

/// All that a terminal gets of a shell's command, in which "tool" is the tool's command for the two captures.
fn terminal(folder: &Folder, command: &str, environment: &[(&str, &str)]) -> Ran {
    let tool = format!("'{TOOL}' judge -g ring.peg formed.capture broken.capture");
    let mut script = folder.program("script");
    script.args(["-qec", &command.replace("tool", &tool), "/dev/null"]);
    ran(script.env("TERM", "xterm").env("SHELL", "/bin/sh").envs(environment.iter().copied()))
}

/// A terminal ends its lines by two bytes.
fn lines(text: &str) -> String {
    text.replace('\n', "\r\n")
}

#[test]
fn colours_and_progress_on_a_terminal() {
    let folder = Folder::ring();
    let ran = terminal(&folder, "tool", &[]);
    for part in [GREEN, RED, "\x1b[1mhint:\x1b[0m broken.capture: line 3, column 3: ", " 0/2 captures, "] {
        assert!(ran.stdout.contains(part), "{part:?} in {:?}", ran.stdout);
    }
    assert_eq!(ran.status, Some(1));
    // What stays at the end is not the bar.
    assert!(ran.stdout.ends_with("2 captures: 1 accepted, 1 stuck; 279 readings\r\n"), "{:?}", ran.stdout);
}

#[test]
fn no_colours_where_they_are_not_wanted() {
    let folder = Folder::ring();
    for (command, environment) in [
        ("tool", &[("NO_COLOR", "1")][..]),
        ("tool --color auto", &[("NO_COLOR", "yes"), ("CLICOLOR_FORCE", "1")]),
        ("tool", &[("TERM", "dumb")]),
        ("tool --color never", &[("CLICOLOR_FORCE", "1")]),
    ] {
        let ran = terminal(&folder, command, environment);
        assert_eq!(ran.status, Some(1));
        assert!(ran.stdout.contains("accepted formed.capture\r\n"), "{:?}", ran.stdout);
        for colour in ["\x1b[1m", "\x1b[31m", "\x1b[32m", "\x1b[33m"] {
            assert!(!ran.stdout.contains(colour), "{command} {environment:?}: {:?}", ran.stdout);
        }
    }
    // An empty one is not set.
    assert!(terminal(&folder, "tool", &[("NO_COLOR", "")]).stdout.contains(GREEN));
}

#[test]
fn what_is_not_the_terminal_has_neither() {
    let folder = Folder::ring();
    let ran = terminal(&folder, "tool > lines", &[]);
    assert_eq!((ran.status, folder.text("lines").as_str()), (Some(1), LINES));
    assert!(ran.stdout.contains("\x1b[1mhint:\x1b[0m "), "{:?}", ran.stdout);
    let ran = terminal(&folder, "tool 2> hints", &[]);
    assert_eq!((ran.status, folder.text("hints").as_str()), (Some(1), BROKEN_HINT));
    let totals = "2 captures: 1 accepted, 1 stuck; 279 readings\n";
    assert_eq!(ran.stdout, lines(&format!("{GREEN}\n{RED}\n{totals}")));
}

#[test]
fn quiet_writes_nothing_to_a_terminal() {
    let ran = terminal(&Folder::ring(), "tool --quiet", &[]);
    ran.gives(1, "", "");
}
