//! The hint's text on a table of damaged ring dumps: every byte replaced, deleted, inserted or swapped, and every length.
use crate::common::*;

/// What a ring dump wants at each column of a line: by a typed grammar, and by its bytes.
const WANTED: [[&str; 2]; 6] = [
    ["'1'-'8' (port)", "'1'-'8' (rule 7)"],
    ["'-' (dash)", "'-' (rule 8)"],
    ["'1'-'8' (port)", "'1'-'8' (rule 7)"],
    ["' ' (space)", "' ' (rule 9)"],
    ["'F' (state) or 'B' (state)", "'F' (rule 11) or 'B' (rule 12)"],
    ["'\\n' (feed)", "'\\n' (rule 13)"],
];

/// A byte as a hint shows it. Here only these do not print.
fn shown(byte: u8) -> String {
    match byte {
        b'\n' => "\\n".into(),
        b'\r' => "\\r".into(),
        b'\t' => "\\t".into(),
        b'\\' => "\\\\".into(),
        b' '..=b'~' => char::from(byte).to_string(),
        _ => format!("\\x{byte:02x}"),
    }
}

/// The hint of a dump that is wrong, found by going along it: in every line each column allows only some bytes. None where
/// the dump is right.
fn told(name: &str, dump: &[u8], kind: usize) -> Option<String> {
    let (mut line, mut column) = (1, 0);
    for place in 0..=dump.len() {
        let right = match (column, dump.get(place)) {
            (0, None) if line > 1 => return None,
            (0 | 2, Some(b'1'..=b'8')) | (1, Some(b'-')) | (3, Some(b' ')) | (4, Some(b'F' | b'B')) => true,
            (5, Some(b'\n')) => true,
            _ => false,
        };
        if !right {
            let start = place - column;
            let end = dump[start..].iter().position(|&byte| byte == b'\n').map_or(dump.len(), |feed| start + feed);
            let whole: String = dump[start..end].iter().map(|&byte| shown(byte)).collect();
            let carets = if place < end { shown(dump[place]).len() } else { 1 };
            let end_too = if column == 0 && line > 1 { "the end of the capture or " } else { "" };
            let found = match dump.get(place) {
                None => "the end of the capture".into(),
                Some(b'\'') => "'\\''".into(),
                Some(&byte) => format!("'{}'", shown(byte)),
            };
            let lines = [format!("    {whole}"), format!("    {}{}", " ".repeat(column), "^".repeat(carets))];
            return Some(format!(
                "hint: {name}: line {line}, column {}: expected {end_too}{}, found {found}\n{}\n{}\n",
                column + 1,
                WANTED[column][kind],
                lines[0].trim_end(),
                lines[1],
            ));
        }
        (line, column) = if column == 5 { (line + 1, 0) } else { (line, column + 1) };
    }
    unreachable!("the end of the dump is always right or wrong")
}

/// Judges the dumps by text and by bytes, and compares all lines and all hints.
#[track_caller]
fn judged(dumps: &[Vec<u8>]) {
    let folder = Folder::ring();
    for (number, dump) in dumps.iter().enumerate() {
        folder.file(format!("dumps/{number:03}"), dump);
    }
    for (kind, grammar) in ["ring.peg", "ring.grammar"].into_iter().enumerate() {
        let (mut lines, mut hints) = (Vec::new(), String::new());
        for (number, dump) in dumps.iter().enumerate() {
            let name = format!("dumps/{number:03}");
            let hint = told(&name, dump, kind);
            lines.push(format!("{} {name}", if hint.is_some() { "stuck   " } else { "accepted" }));
            hints.extend(hint);
        }
        let ran = folder.words(&format!("judge -g {grammar} dumps"));
        let given: Vec<&str> = ran.stdout.lines().collect();
        assert_eq!(given[..given.len() - 1], lines);
        assert_eq!(ran.stderr, hints);
        assert_eq!(ran.status, Some(i32::from(!hints.is_empty())));
    }
}

#[test]
fn every_byte_replaced() {
    for byte in [b'?', b'0', b'F', b'-', b'\n', b' ', b'\r', b'\t', b'\\', 0, 0x1b, 0x7f, 0x80, 0xff] {
        let replaced = |place: usize| [&FORMED[..place], &[byte], &FORMED[place + 1..]].concat();
        let dumps: Vec<_> = (0..FORMED.len()).map(replaced).collect();
        judged(&dumps);
        if byte == b'?' {
            // It is the byte itself that is told.
            for (place, dump) in dumps.iter().enumerate() {
                let words = format!("hint: x: line {}, column {}: expected ", place / 6 + 1, place % 6 + 1);
                let hint = told("x", dump, 0).unwrap();
                assert!(hint.starts_with(&words) && hint.contains(", found '?'\n"), "{hint}");
            }
        }
    }
}

#[test]
fn every_value_of_a_byte() {
    for place in [0, 9, 22] {
        let replaced = |byte: u8| [&FORMED[..place], &[byte], &FORMED[place + 1..]].concat();
        judged(&(0..=255).map(replaced).collect::<Vec<_>>());
    }
}

#[test]
fn every_byte_deleted() {
    let deleted = |place: usize| [&FORMED[..place], &FORMED[place + 1..]].concat();
    judged(&(0..FORMED.len()).map(deleted).collect::<Vec<_>>());
}

#[test]
fn a_byte_inserted_at_every_place() {
    for byte in [b'?', b'1', b'F', b'\n', b'\r'] {
        let inserted = |place: usize| [&FORMED[..place], &[byte], &FORMED[place..]].concat();
        judged(&(0..=FORMED.len()).map(inserted).collect::<Vec<_>>());
    }
}

#[test]
fn cut_at_every_length() {
    let dumps: Vec<_> = (0..=FORMED.len()).map(|length| FORMED[..length].to_vec()).collect();
    judged(&dumps);
    let hints = dumps.iter().filter_map(|dump| told("x", dump, 0));
    assert_eq!(hints.filter(|hint| hint.contains(", found the end of the capture\n")).count(), 21);
}

#[test]
fn two_bytes_swapped() {
    let swapped = |place: usize| {
        let mut dump = FORMED.to_vec();
        dump.swap(place, place + 1);
        dump
    };
    judged(&(0..FORMED.len() - 1).map(swapped).collect::<Vec<_>>());
}
