//! The four worked dumps of docs/GRAMMARS.md: the good ones pass, the bad ones do not, and neither does a good one that is cut
//! short, lacks a line or has a line twice. Of the boot log what stands after the prompt is not judged.
use crate::common::*;
use std::fs;
use std::ops::Range;
use std::path::PathBuf;

fn dumps() -> PathBuf {
    PathBuf::from(concat!(env!("CARGO_MANIFEST_DIR"), "/../examples/dumps"))
}

/// A dump by its grammars, and what is not looked at: from this text on.
struct Dump {
    name: &'static str,
    grammars: &'static [&'static str],
    unseen_after: Option<&'static [u8]>,
}

const DUMPS: [Dump; 4] = [
    Dump { name: "mrp", grammars: &["mrp-state", "mrp-roles", "mrp-ports"], unseen_after: None },
    Dump { name: "counters", grammars: &["counters-links", "counters-errors"], unseen_after: None },
    Dump { name: "boot", grammars: &["boot-tests", "boot-stamps"], unseen_after: Some(b"\r\n\r\nLog") },
    Dump { name: "version", grammars: &["version-firmware", "version-serial", "version-mac"], unseen_after: None },
];

impl Dump {
    fn good(&self) -> Vec<u8> {
        fs::read(dumps().join("good").join(format!("{}.capture", self.name))).unwrap()
    }

    /// The length of what is judged: all, or up to the end of the text after which nothing is looked at.
    fn seen(&self, good: &[u8]) -> usize {
        let Some(text) = self.unseen_after else { return good.len() };
        good.windows(text.len()).position(|part| part == text).unwrap() + text.len()
    }

    /// The names of the captures that are accepted, of these.
    fn accepted(&self, captures: &[(String, Vec<u8>)]) -> Vec<String> {
        let folder = Folder::new();
        for (name, bytes) in captures {
            folder.file(name, bytes);
        }
        let grammars: String =
            self.grammars.iter().map(|name| format!(" -g {}/{name}.peg", dumps().display())).collect();
        let leading = if self.unseen_after.is_some() { " --leading" } else { "" };
        let ran = folder.words(&format!("judge -f jsonl{leading}{grammars} ."));
        let rows: Vec<serde_json::Value> = ran.stdout.lines().map(|line| serde_json::from_str(line).unwrap()).collect();
        assert_eq!(rows.len(), captures.len() * self.grammars.len());
        let by_capture = rows.chunks(self.grammars.len());
        let passed = by_capture.filter(|rows| rows.iter().all(|row| row["verdict"] == "accepted"));
        passed.map(|rows| rows[0]["file"].as_str().unwrap().trim_start_matches("./").to_string()).collect()
    }
}

/// Where each line stands, with its line feed.
fn lines(text: &[u8]) -> Vec<Range<usize>> {
    let ends = text.iter().enumerate().filter(|(_, &byte)| byte == b'\n').map(|(place, _)| place + 1);
    let mut ends: Vec<usize> = ends.collect();
    if ends.last() != Some(&text.len()) {
        ends.push(text.len());
    }
    let starts = [0].into_iter().chain(ends.clone());
    starts.zip(ends.clone()).map(|(start, end)| start..end).collect()
}

#[test]
fn good_ones_pass_and_bad_ones_do_not() {
    let plan = dumps().join("plan.toml");
    for (shift, status) in [("good", 0), ("bad", 1)] {
        let folder = dumps().join(shift);
        let ran = Folder::new().words(&format!("shift -q {} {}", plan.display(), folder.display()));
        ran.gives(status, "", "");
    }
}

#[test]
fn cut_at_every_length() {
    for dump in DUMPS {
        let (good, seen) = (dump.good(), dump.seen(&dump.good()));
        let cuts: Vec<_> = (0..good.len()).map(|length| (format!("{length:05}"), good[..length].to_vec())).collect();
        let expected: Vec<String> = (seen..good.len()).map(|length| format!("{length:05}")).collect();
        assert_eq!(dump.accepted(&cuts), expected, "{}", dump.name);
    }
}

#[test]
fn without_each_line_and_with_each_twice() {
    for dump in DUMPS {
        let (good, seen) = (dump.good(), dump.seen(&dump.good()));
        let (mut captures, mut expected) = (Vec::new(), Vec::new());
        for (number, line) in lines(&good).into_iter().enumerate() {
            let without = [&good[..line.start], &good[line.end..]].concat();
            let twice = [&good[..line.end], &good[line.start..]].concat();
            captures.push((format!("{number:03}-without"), without));
            captures.push((format!("{number:03}-twice"), twice));
            // The line in which the judging ends may come twice, but not be missing; later ones are not looked at.
            if line.end > seen {
                expected.push(format!("{number:03}-twice"));
            }
            if line.start >= seen {
                expected.push(format!("{number:03}-without"));
            }
        }
        assert_eq!(dump.accepted(&captures), expected, "{}", dump.name);
    }
}
