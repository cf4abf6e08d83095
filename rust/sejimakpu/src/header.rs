//! The C header has the numbers and words of this crate. Tests only.
use crate::{Reason, Verdict};
use std::fmt::Display;

const HEADER: &str = include_str!("../../../include/sejimakpu.h");

/// Whether a line of the header begins so, and no digit follows.
fn has(beginning: &str) -> bool {
    HEADER.lines().any(|line| {
        let rest = line.trim_start().strip_prefix(beginning);
        rest.is_some_and(|rest| !rest.starts_with(|c: char| c.is_ascii_digit()))
    })
}

/// A constant has this number, and this word in the function that gives the words.
fn named(name: &str, number: u32, word: &str) {
    for line in [format!("SEJIMAKPU_{name} = {number}"), format!("case SEJIMAKPU_{name}: return \"{word}\";")] {
        assert!(has(&line), "no {line}");
    }
}

/// A macro has this number.
pub(crate) fn defines(name: &str, number: impl Display) {
    let line = format!("#define SEJIMAKPU_{name} {number}");
    assert!(has(&line), "no {line}");
}

#[test]
fn verdicts() {
    named("NO_VERDICT", 0, "none");
    assert_eq!(Verdict::of_number(0), None);
    let names = ["ACCEPTED", "ENDED", "STUCK", "LOOPING", "SPENT", "DEEP", "HALTED"];
    for (number, name) in (1..).zip(names) {
        let verdict = Verdict::of_number(number.into()).unwrap();
        assert_eq!(verdict.number(), number as usize);
        assert_eq!(format!("{verdict:?}").to_uppercase(), name);
        named(name, number, &verdict.to_string());
    }
    assert_eq!(Verdict::of_number(8), None);
}

#[test]
fn refusals() {
    named("ANSWERED", 0, "not refused");
    assert_eq!(Reason::of_number(0), None);
    let names = [
        "IMAGE_SHORT",
        "IMAGE_DIRECTORY",
        "IMAGE_COUNTS",
        "IMAGE_LENGTH",
        "IMAGE_CLASS",
        "IMAGE_RULE",
        "CAPTURE_LONG",
        "NOTES_SHORT",
        "WORK_SHORT",
        "STACK_EMPTY",
        "GRAMMAR_LENGTH",
        "GRAMMAR_RULE",
        "IMAGE_BUFFER_SHORT",
        "TEXT_SYNTAX",
        "TEXT_RULES",
        "TEXT_DEPTH",
        "BUNDLE",
        "LEFT_RECURSION",
    ];
    assert_eq!(Reason::ALL.len(), names.len());
    // 14 is the programs' own.
    let numbers = (1..).filter(|&number| number != 14);
    for (number, name) in numbers.zip(names) {
        let reason = Reason::of_number(number).unwrap();
        assert_eq!(format!("{reason:?}").to_uppercase(), name.replace('_', ""));
        named(name, number, &reason.to_string());
    }
    assert_eq!(Reason::of_number(14), None);
    assert_eq!(Reason::of_number(20), None);
}

#[test]
fn limits() {
    for (name, number) in [
        ("MAX_CAPTURE", crate::MAX_CAPTURE),
        ("MAX_CAPTURES", crate::MAX_CAPTURES),
        ("MAX_GRAMMAR", crate::MAX_GRAMMAR),
        ("MAX_BUILT_IMAGE", crate::MAX_BUILT_IMAGE),
    ] {
        defines(name, number);
    }
}
