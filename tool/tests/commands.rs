//! The other commands: selftest, versions, help and completions.
use crate::common::*;
use std::fs::File;

#[test]
fn selftest() {
    Folder::new().words("selftest").gives(0, "15 examples: 15 as they must be\n", "");
}

/// Hexadecimal digits of so many places.
#[track_caller]
fn is_hex(digits: &str, length: usize) {
    assert!(digits.len() == length && digits.bytes().all(|byte| b"0123456789abcdef".contains(&byte)), "{digits}");
}

#[test]
fn versions() {
    let folder = Folder::new();
    let long = folder.words("--version");
    let lines: Vec<&str> = long.stdout.lines().collect();
    let [tool, archive, sha256, commit] = lines[..] else { panic!("{}", long.stdout) };
    assert_eq!((long.status, long.stderr.as_str()), (Some(0), ""));
    assert_eq!(tool, format!("sejimakpu {}", env!("CARGO_PKG_VERSION")));
    let archive = archive.strip_prefix("archive ").unwrap();
    assert!(archive.split('.').count() == 3 && archive.split('.').all(|part| part.parse::<u32>().is_ok()), "{archive}");
    is_hex(sha256.strip_prefix("archive sha256 ").unwrap(), 64);
    let commit = commit.strip_prefix("commit ").unwrap();
    if commit != "unknown" {
        is_hex(commit.strip_suffix("-dirty").unwrap_or(commit), 12);
    }
    let version = env!("CARGO_PKG_VERSION");
    folder.words("-V").gives(0, &format!("sejimakpu {version} (archive {archive}, commit {commit})\n"), "");
    for command in ["judge", "shift", "grammar", "selftest", "completions"] {
        let short = folder.words(&format!("{command} -V"));
        assert_eq!((short.status, short.stdout.lines().count()), (Some(0), 1), "{command}");
        assert!(short.stdout.ends_with(&format!(" {version} (archive {archive}, commit {commit})\n")), "{short:?}");
    }
}

/// The checksum is that of the archive which was linked, where it still stands.
#[test]
fn the_archives_checksum() {
    let folder = std::env::var("SEJIMAKPU_LIB_DIR")
        .unwrap_or(concat!(env!("CARGO_MANIFEST_DIR"), "/../target/staticlib").into());
    let archive = std::fs::read(format!("{folder}/libsejimakpu.a")).unwrap();
    let version = Folder::new().words("--version").stdout;
    let told = version.lines().find_map(|line| line.strip_prefix("archive sha256 "));
    assert_eq!(told, Some(sha256(&archive).as_str()));
}

#[test]
fn help_of_every_command() {
    let folder = Folder::new();
    for (command, usage, words) in [
        ("", "sejimakpu <COMMAND>", &["judge", "shift", "grammar", "selftest", "completions", "Status: 0"][..]),
        (
            "judge",
            "sejimakpu judge -g <GRAMMAR>.. [OPTIONS] <CAPTURE>..",
            &["--grammar", "--image", "--leading", "--format", "--out", "--report", "--jobs", "--quiet", "--color"],
        ),
        (
            "shift",
            "sejimakpu shift [OPTIONS] <PLAN.toml> <DIR>",
            &["--format", "--out", "--report", "--jobs", "--quiet", "--color"],
        ),
        ("grammar", "sejimakpu grammar <COMMAND>", &["check", "show"]),
        ("grammar check", "sejimakpu grammar check <GRAMMAR>...", &[".peg"]),
        ("grammar show", "sejimakpu grammar show <GRAMMAR>", &[".peg"]),
        ("selftest", "sejimakpu selftest", &["C1 to C10"]),
        ("completions", "sejimakpu completions <SHELL>", &["bash", "zsh", "fish"]),
    ] {
        for option in ["--help", "-h"] {
            let ran = folder.words(&format!("{command} {option}"));
            assert_eq!((ran.status, ran.stderr.as_str()), (Some(0), ""), "{command} {option}");
            let line = format!("Usage: {usage}");
            assert_eq!(ran.stdout.lines().filter(|other| *other == line).count(), 1, "{line}\n{}", ran.stdout);
            // The short help of the tool itself leaves the statuses to the long one.
            let missing = words.iter().filter(|word| !ran.stdout.contains(**word)).collect::<Vec<_>>();
            assert!(
                missing.is_empty() || option == "-h" && *missing == [&"Status: 0"],
                "{command} {option}: {missing:?}"
            );
            assert!(ran.stdout.lines().all(|line| line.chars().count() <= 100), "{}", ran.stdout);
        }
    }
}

#[test]
fn an_unknown_command_is_2() {
    let folder = Folder::new();
    for arguments in ["", "nonsense", "Judge", "jud", "grammar nonsense", "--nonsense", "judges -g a b"] {
        let ran = folder.words(arguments);
        assert_eq!((ran.status, ran.stdout.as_str()), (Some(2), ""), "{arguments}");
        assert!(ran.stderr.contains("Usage: sejimakpu"), "{arguments}: {}", ran.stderr);
    }
}

#[test]
fn completions() {
    let folder = Folder::new();
    for (shell, start) in
        [("bash", "_sejimakpu() {\n"), ("zsh", "#compdef sejimakpu\n"), ("fish", "complete -c sejimakpu ")]
    {
        let ran = folder.words(&format!("completions {shell}"));
        assert_eq!((ran.status, ran.stderr.as_str()), (Some(0), ""), "{shell}");
        assert!(ran.stdout.starts_with(start), "{shell}: {}", ran.stdout);
        for word in ["judge", "shift", "grammar", "check", "show", "selftest", "completions", "leading", "junit"] {
            assert!(ran.stdout.contains(word), "{shell}: {word}");
        }
        folder.file(shell, ran.stdout);
    }
    ran(folder.program("bash").args(["-n", "bash"])).gives(0, "", "");
    // Sourced, it completes the commands.
    let script = "source ./bash && COMP_WORDS=(sejimakpu s) COMP_CWORD=1 && _sejimakpu sejimakpu s sejimakpu && echo ${COMPREPLY[@]}";
    ran(folder.program("bash").args(["-c", script])).gives(0, "shift selftest\n", "");
}

/// Where a script cannot be written whole, that is said, and the status is 2.
#[test]
fn completions_that_cannot_be_written_are_2() {
    let folder = Folder::new();
    for shell in ["bash", "zsh", "fish"] {
        let full = File::options().write(true).open("/dev/full").unwrap();
        let ran = ran(folder.tool(["completions", shell]).stdout(full));
        ran.gives(2, "", "error: standard output: cannot be written: No space left on device (os error 28)\n");
    }
}
