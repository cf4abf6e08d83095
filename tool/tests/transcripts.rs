//! The transcripts that README.md and the pages of docs/ print: each command is run, and must print what stands below it.
//!
//! A transcript is an indented block in which lines begin with `$ `. Its commands run one after another in a folder that has the
//! repository's examples and a link to `judge`, with `sejimakpu` on the path, standard error with standard output. With
//! TRANSCRIPTS=write in the environment the pages get what the commands print.
use std::fs;
use std::path::{Path, PathBuf};
use std::process::Command;

const PAGES: [&str; 4] = ["README.md", "docs/GRAMMARS.md", "docs/RECORD.md", "docs/PROGRAM.md"];

fn top() -> PathBuf {
    Path::new(env!("CARGO_MANIFEST_DIR")).join("..").canonicalize().unwrap()
}

/// A folder for one page's transcripts, removed with what their commands left there.
struct Folder(PathBuf);

impl Folder {
    fn new(page: &str) -> Folder {
        let name = format!("sejimakpu-transcripts-{}-{}", page.replace('/', "-"), std::process::id());
        let path = std::env::temp_dir().join(name);
        fs::create_dir(&path).unwrap();
        let copied = Command::new("cp").arg("-R").arg(top().join("examples")).arg(&path).status().unwrap();
        assert!(copied.success());
        std::os::unix::fs::symlink(top().join("judge"), path.join("judge")).unwrap();
        Folder(path)
    }

    /// What a command prints.
    fn printed(&self, command: &str) -> String {
        let tool = Path::new(env!("CARGO_BIN_EXE_sejimakpu")).parent().unwrap();
        let path = format!("{}:{}", tool.display(), std::env::var("PATH").unwrap());
        let output = Command::new("bash")
            .args(["-c", &format!("exec 2>&1\n{command}")])
            .current_dir(&self.0)
            .env("PATH", path)
            .env("TERM", "dumb")
            .output()
            .unwrap();
        String::from_utf8(output.stdout).unwrap()
    }
}

impl Drop for Folder {
    fn drop(&mut self) {
        let _ = fs::remove_dir_all(&self.0);
    }
}

/// What differs from run to run and from commit to commit: times, commits, the archive's checksum.
fn steady(line: &str) -> String {
    let words = |word: &str| {
        let bare = word.trim_matches(|c: char| !c.is_ascii_alphanumeric() && c != '-');
        let hex = |text: &str| !text.is_empty() && text.chars().all(|c| c.is_ascii_hexdigit());
        let commit = bare.strip_suffix("-dirty").unwrap_or(bare);
        let time = bare.len() == 20 && bare.ends_with('Z') && bare.as_bytes()[10] == b'T';
        if hex(commit) && commit.len() == 12 || time {
            return word.replace(bare, "*");
        }
        if hex(bare) && bare.len() == 64 && line.contains("archive") {
            return word.replace(bare, "*");
        }
        word.into()
    };
    line.split_inclusive([' ', ',']).map(words).collect()
}

/// The page with what its commands print in the place of what stands there, and how many commands were run.
fn run(page: &str) -> (String, usize) {
    let text = fs::read_to_string(top().join(page)).unwrap();
    let folder = Folder::new(page);
    let (mut made, mut commands, mut skipping) = (String::new(), 0, false);
    for line in text.lines() {
        let indented = line.strip_prefix("    ");
        match indented {
            Some(inner) if inner.starts_with("$ ") => {
                commands += 1;
                made += &format!("{line}\n");
                for printed in folder.printed(&inner[2..]).lines() {
                    made += format!("    {printed}").trim_end();
                    made.push('\n');
                }
                skipping = true;
            }
            // A printed line may be empty: what a command prints ends with the block, before a line that is not indented.
            _ if skipping && (indented.is_some() || line.is_empty() && is_inside(&text, line)) => {}
            _ => {
                skipping = false;
                made += &format!("{line}\n");
            }
        }
    }
    (made, commands)
}

/// Whether an empty line stands between two lines of one block: told by its address in the text.
fn is_inside(text: &str, line: &str) -> bool {
    let place = line.as_ptr() as usize - text.as_ptr() as usize;
    let next = text[place..].lines().find(|line| !line.is_empty());
    next.is_some_and(|next| next.starts_with("    ") && !next.starts_with("    $ "))
}

#[test]
fn pages_print_what_the_tool_prints() {
    for page in PAGES {
        let (made, commands) = run(page);
        assert!(commands > 0, "{page} has no transcript");
        let file = top().join(page);
        let text = fs::read_to_string(&file).unwrap();
        if std::env::var_os("TRANSCRIPTS").is_some_and(|value| value == "write") {
            fs::write(&file, &made).unwrap();
            continue;
        }
        let lines = |text: &str| text.lines().map(steady).collect::<Vec<_>>();
        let (stands, prints) = (lines(&text), lines(&made));
        for (number, (stands, prints)) in (1..).zip(stands.iter().zip(&prints)) {
            assert_eq!(stands, prints, "{page}, line {number}");
        }
        assert_eq!(stands.len(), prints.len(), "{page}");
    }
}

#[test]
fn only_times_and_versions_may_differ() {
    assert_eq!(steady(r#"  "time": "2026-11-17T15:08:28Z","#), r#"  "time": "*","#);
    assert_eq!(
        steady("sejimakpu 0.1.0 (archive 0.1.0, commit 0123456789ab-dirty)"),
        "sejimakpu 0.1.0 (archive 0.1.0, commit *)"
    );
    let sum = "a".repeat(64);
    assert_eq!(steady(&format!("archive sha256 {sum}")), "archive sha256 *");
    assert_eq!(steady(&format!("sha256 {sum}")), format!("sha256 {sum}"));
    assert_eq!(steady("stuck 105 2 13 0"), "stuck 105 2 13 0");
}
