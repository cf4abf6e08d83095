//! The records as JSON, JSON lines and CSV, read back by their own readers: every field of every outcome.
use crate::common::*;
use serde_json::{json, Map, Value};
use std::ffi::OsStr;
use std::os::unix::ffi::OsStrExt;

const FIELDS: &str = "file,bytes,sha256,grammar,grammar_sha256,matching,verdict,readings,end_state,end_head,end_symbol,line,column,expected,found,refusal,place,error,tool_version,tool_commit,archive_version,archive_sha256,time";
const NO_FILE: &str = "cannot be read: No such file or directory (os error 2)";
const LIST: &str = "list = list ',-,' / empty;";
const MACHINES: [&str; 6] = ["ring.peg", "list.peg", "bad.peg", "no.peg", "ended.image", "halted.image"];
const MATRIX: &str = "judge -g ring.peg -g list.peg -g bad.peg -g no.peg -i ended.image -i halted.image formed.capture broken.capture long.capture no.capture";

/// Captures and machines for every outcome.
fn folder() -> Folder {
    let folder = Folder::ring();
    folder.file("list.peg", LIST);
    folder.file("bad.peg", "a = (\n;");
    folder.file("ended.image", image(ENDING));
    folder.file("halted.image", image(HALTING));
    folder.file("long.capture", [b'1'; 65_536]);
    folder
}

/// What the tool says of itself.
fn judged_by(folder: &Folder) -> Value {
    let version = folder.words("--version").stdout;
    let last = |start: &str| version.lines().find_map(|line| line.strip_prefix(start)).unwrap().to_string();
    json!({
        "tool_version": last("sejimakpu "),
        "tool_commit": last("commit "),
        "archive_version": last("archive "),
        "archive_sha256": last("archive sha256 "),
    })
}

/// One object of the fields of several.
fn merged(parts: &[Value]) -> Map<String, Value> {
    parts.iter().flat_map(|part| part.as_object().unwrap().clone()).collect()
}

/// What is the same for every grammar.
fn of_capture(name: &str) -> Value {
    let (bytes, sha256) = match name {
        "formed.capture" => (json!(24), json!(sha256(FORMED))),
        "broken.capture" => (json!(24), json!(sha256(BROKEN))),
        // It is not read to its end.
        "long.capture" => (json!(65_536), Value::Null),
        _ => (Value::Null, Value::Null),
    };
    json!({"file": name, "bytes": bytes, "sha256": sha256})
}

fn of_machine(name: &str) -> Value {
    let (sha256, matching) = match name {
        "ring.peg" => (json!(sha256(RING)), json!("whole")),
        "list.peg" => (json!(sha256(LIST.as_bytes())), json!("whole")),
        "bad.peg" => (json!(sha256(b"a = (\n;")), json!("whole")),
        "no.peg" => (Value::Null, json!("whole")),
        "ended.image" => (json!(sha256(&image(ENDING))), Value::Null),
        _ => (json!(sha256(&image(HALTING))), Value::Null),
    };
    json!({"grammar": name, "grammar_sha256": sha256, "matching": matching})
}

fn judged(verdict: &str, readings: u32, end: [u32; 3]) -> Value {
    let [state, head, symbol] = end;
    json!({"verdict": verdict, "readings": readings, "end_state": state, "end_head": head, "end_symbol": symbol})
}

/// A hint: line, column, expected, found, remark.
fn hint(line: u32, column: u32, expected: &[&str], found: &str, remark: Option<&str>) -> Value {
    json!({"line": line, "column": column, "expected": expected, "found": found, "remark": remark})
}

/// The answer of a capture by a machine, as in JSON.
fn answer(capture: &str, machine: &str) -> Map<String, Value> {
    let none = json!({"readings": null, "end_state": null, "end_head": null, "end_symbol": null, "line": null, "column": null,
        "expected": null, "found": null, "remark": null, "refusal": null, "place": null, "error": null});
    let refused = |number: u32, place: u32| json!({"verdict": "refused", "refusal": number, "place": place});
    let stopped = |word: &str| {
        let remark = format!("the machine came this far; {word} at place 0 in state 0 with symbol 0");
        [judged(word, 1, [0, 0, 0]), hint(1, 1, &[], "'1'", Some(&remark))].to_vec()
    };
    let parts = match (machine, capture) {
        ("bad.peg", _) => vec![refused(15, 6)],
        ("no.peg", _) => vec![json!({"verdict": "error", "error": format!("no.peg: {NO_FILE}")})],
        (_, "long.capture") => vec![refused(7, 65_536)],
        ("ring.peg", "formed.capture") => vec![judged("accepted", 174, [2, 25, 0])],
        ("ring.peg", _) => vec![judged("stuck", 105, [2, 13, 0]), hint(3, 3, &["'1'-'8' (port)"], "'?'", None)],
        ("list.peg", _) => {
            let remark = "list goes round in a circle without reading on";
            vec![judged("looping", 3, [1, 1, 1]), hint(1, 1, &[], "'1'", Some(remark))]
        }
        ("ended.image", _) => stopped("ended"),
        _ => stopped("halted"),
    };
    merged(&[&[none, of_machine(machine)][..], &parts[..]].concat())
}

/// The same as a row: what was expected in words, or the remark.
fn row(folder: &Folder, capture: &str, machine: Option<&str>) -> Map<String, Value> {
    let of_grammar = match machine {
        Some(machine) => Value::Object(answer(capture, machine)),
        None => json!({"verdict": "error", "error": NO_FILE}),
    };
    let mut row: Map<_, _> = FIELDS.split(',').map(|field| (field.to_string(), Value::Null)).collect();
    row.extend(merged(&[of_grammar, of_capture(capture), judged_by(folder)]));
    let expected = row["expected"].as_array().map(|list| list.iter().map(|words| words.as_str().unwrap()));
    let expected = expected.map(|words| words.collect::<Vec<_>>().join(" or "));
    let remark = row.remove("remark").filter(|remark| !remark.is_null());
    row["expected"] = remark.or(expected.map(Value::from)).unwrap_or_default();
    row.remove("time");
    row
}

/// In their order: each capture by each machine; of one that cannot be read a single row.
fn rows(folder: &Folder) -> Vec<Map<String, Value>> {
    let captures = ["formed.capture", "broken.capture", "long.capture"];
    let judged = captures.iter().flat_map(|capture| MACHINES.map(|machine| row(folder, capture, Some(machine))));
    judged.chain([row(folder, "no.capture", None)]).collect()
}

/// The time now, as records have it.
fn now(folder: &Folder) -> String {
    ran(folder.program("date").args(["-u", "+%Y-%m-%dT%H:%M:%SZ"])).stdout.trim().to_string()
}

/// A time of RFC 3339 between two others.
#[track_caller]
fn is_time(value: &Value, from: &str, to: &str) {
    let time = value.as_str().unwrap();
    let shape: String = time.chars().map(|c| if c.is_ascii_digit() { '0' } else { c }).collect();
    assert_eq!(shape, "0000-00-00T00:00:00Z");
    assert!(from <= time && time <= to, "{from} {time} {to}");
}

#[test]
fn json_lines() {
    let folder = folder();
    let from = now(&folder);
    let ran = folder.words(&format!("{MATRIX} --format jsonl"));
    let to = now(&folder);
    assert_eq!(ran.status, Some(2));
    let rows = rows(&folder);
    let lines: Vec<&str> = ran.stdout.lines().collect();
    assert_eq!(lines.len(), rows.len());
    for (line, row) in lines.into_iter().zip(rows) {
        let mut object: Map<String, Value> = serde_json::from_str(line).unwrap();
        is_time(&object.remove("time").unwrap(), &from, &to);
        assert_eq!(object, row);
        // The fields stand in the order of the CSV's names.
        let places: Vec<_> = FIELDS.split(',').map(|field| line.find(&format!("\"{field}\":")).unwrap()).collect();
        assert!(places.is_sorted(), "{line}");
    }
}

#[test]
fn csv_rows() {
    let folder = folder();
    let from = now(&folder);
    let ran = folder.words(&format!("{MATRIX} --format csv"));
    let to = now(&folder);
    assert_eq!(ran.status, Some(2));
    assert_eq!(ran.stdout.lines().next(), Some(FIELDS));
    let mut reader = csv::Reader::from_reader(ran.stdout.as_bytes());
    let records: Vec<csv::StringRecord> = reader.records().map(|record| record.unwrap()).collect();
    let rows = rows(&folder);
    assert_eq!(records.len(), rows.len());
    for (record, row) in records.iter().zip(rows) {
        let mut fields: Map<String, Value> =
            FIELDS.split(',').map(String::from).zip(record.iter().map(Value::from)).collect();
        is_time(&fields.remove("time").unwrap(), &from, &to);
        // A number is its digits, and nothing is an empty field.
        let text = |value: Value| match value {
            Value::Null => "".into(),
            Value::Number(number) => number.to_string().into(),
            text => text,
        };
        assert_eq!(fields, row.into_iter().map(|(field, value)| (field, text(value))).collect());
    }
}

#[test]
fn json_whole() {
    let folder = folder();
    let from = now(&folder);
    let ran = folder.words(&format!("{MATRIX} --format json"));
    let to = now(&folder);
    assert_eq!(ran.status, Some(2));
    let mut record: Map<String, Value> = serde_json::from_str(&ran.stdout).unwrap();
    is_time(&record.remove("started").unwrap(), &from, &to);
    is_time(&record.remove("finished").unwrap(), &from, &to);
    for capture in record["captures"].as_array_mut().unwrap() {
        is_time(&capture.as_object_mut().unwrap().remove("time").unwrap(), &from, &to);
    }
    let grammar = |name: &str, kind: &str, bytes: Value, rules: Value, more: Value| {
        let right =
            json!({"may_loop": null, "refusal": null, "place": null, "line": null, "column": null, "error": null});
        let own = json!({"kind": kind, "grammar_bytes": bytes, "rules": rules});
        Value::Object(merged(&[of_machine(name), own, right, more]))
    };
    let capture = |name: &str, verdict: &str, error: Value, machines: &[&str]| {
        let judgements: Vec<_> = machines.iter().map(|machine| answer(name, machine)).collect();
        let more = json!({"verdict": verdict, "error": error, "judgements": judgements});
        Value::Object(merged(&[of_capture(name), more]))
    };
    let expected = merged(&[
        judged_by(&folder),
        json!({
            "record": 1,
            "status": 2,
            "totals": {"captures": 4, "accepted": 0, "ended": 0, "stuck": 0, "looping": 0, "halted": 0, "refused": 0,
                "error": 4, "readings": 174 + 105 + 2 * 5},
            "grammars": [
                grammar("ring.peg", "text", json!(RING.len()), json!(14), json!({"may_loop": false})),
                grammar("list.peg", "text", json!(LIST.len()), json!(4), json!({"may_loop": true})),
                grammar("bad.peg", "text", json!(7), Value::Null,
                    json!({"refusal": 15, "place": 6, "line": 2, "column": 1})),
                grammar("no.peg", "text", Value::Null, Value::Null, json!({"error": format!("no.peg: {NO_FILE}")})),
                grammar("ended.image", "image", json!(300), Value::Null, json!({})),
                grammar("halted.image", "image", json!(300), Value::Null, json!({})),
            ],
            "captures": [
                capture("formed.capture", "error", Value::Null, &MACHINES),
                capture("broken.capture", "error", Value::Null, &MACHINES),
                capture("long.capture", "error", Value::Null, &MACHINES),
                capture("no.capture", "error", json!(NO_FILE), &[]),
            ],
        }),
    ]);
    assert_eq!(Value::Object(record), Value::Object(expected));
}

/// The status in the record is what the tool leaves with, whatever failed.
#[test]
fn the_status_in_the_record_is_the_tools() {
    let folder = folder();
    let status = |name: &str| serde_json::from_str::<Value>(&folder.text(name)).unwrap()["status"].clone();
    for (captures, number) in [("formed.capture", 0), ("formed.capture broken.capture", 1), ("no.capture", 2)] {
        let ran = folder.words(&format!("judge -g ring.peg --out a.json {captures}"));
        assert_eq!((ran.status, status("a.json")), (Some(number), json!(number)));
    }
    let ran = folder.shell("exec \"$@\" >/dev/full", "judge -g ring.peg --out full.json formed.capture");
    assert_eq!((ran.status, status("full.json")), (Some(2), json!(2)), "standard output is full");
    let ran = folder.words("judge -g ring.peg --out page.json --report no/page.html formed.capture");
    assert_eq!((ran.status, status("page.json")), (Some(2), json!(2)), "the page cannot be written");
}

#[test]
fn the_format_is_by_the_ending_of_out() {
    let folder = Folder::ring();
    let text = "accepted formed.capture\n1 capture: 1 accepted; 174 readings\n";
    for (name, start) in [
        ("a.json", "{\n  \"record\": 1,\n"),
        ("a.jsonl", "{\"file\":\"formed.capture\","),
        ("a.csv", FIELDS),
        ("a.xml", "<?xml version=\"1.0\" encoding=\"UTF-8\"?>\n<testsuite "),
        ("a.txt", text),
        ("json", text),
        ("a.json.old", text),
    ] {
        folder.words(&format!("judge -g ring.peg --out {name} formed.capture")).gives(0, text, "");
        assert!(folder.text(name).starts_with(start), "{name}: {}", folder.text(name));
        // What is asked for counts more than the ending.
        folder.words(&format!("judge -g ring.peg --format csv --out {name} formed.capture")).gives(0, text, "");
        assert!(folder.text(name).starts_with(FIELDS), "{name}: {}", folder.text(name));
    }
}

/// Names that each format has to escape, of captures and of a grammar: every one comes back as it is shown.
#[test]
fn names_survive() {
    let folder = Folder::ring();
    let names: [(&[u8], &str); 5] = [
        (b"a\"b'c,d;e", "a\"b'c,d;e"),
        (b"line\nfeed\r", "line\\nfeed\\r"),
        (b"<&>]]>&amp;", "<&>]]>&amp;"),
        (b"back\\slash\\n", "back\\\\slash\\\\n"),
        (b"\xff\xe2\x82 \x01", "\\xff\\xe2\\x82 \\u{1}"),
    ];
    let grammar = OsStr::from_bytes(b"g<&\">,\n\xff.peg");
    folder.file(grammar, RING);
    let mut arguments =
        vec![OsStr::new("judge"), OsStr::new("-g"), grammar, OsStr::new("--format"), OsStr::new("jsonl")];
    for (name, _) in names {
        folder.file(OsStr::from_bytes(name), BROKEN);
        arguments.push(OsStr::from_bytes(name));
    }
    let expected: Vec<(String, String)> =
        names.iter().map(|(_, shown)| (shown.to_string(), "g<&\">,\\n\\xff.peg".to_string())).collect();
    let lines = folder.run(&arguments).stdout;
    let objects = lines.lines().map(|line| serde_json::from_str::<Value>(line).unwrap());
    let text = |value: &Value| value.as_str().unwrap().to_string();
    assert_eq!(objects.map(|object| (text(&object["file"]), text(&object["grammar"]))).collect::<Vec<_>>(), expected);
    arguments[4] = OsStr::new("csv");
    let rows = folder.run(&arguments).stdout;
    let mut reader = csv::Reader::from_reader(rows.as_bytes());
    let given = reader.records().map(|row| row.unwrap()).map(|row| (row[0].to_string(), row[3].to_string()));
    assert_eq!(given.collect::<Vec<_>>(), expected);
    arguments[4] = OsStr::new("json");
    let record: Value = serde_json::from_str(&folder.run(&arguments).stdout).unwrap();
    let captures = record["captures"].as_array().unwrap().iter();
    let given = captures.map(|capture| (text(&capture["file"]), text(&capture["judgements"][0]["grammar"])));
    assert_eq!(given.collect::<Vec<_>>(), expected);
}
