//! docs/RECORD.md names every field of a record, and CSV has the fields of JSON lines in the same order.
use crate::common::*;
use serde_json::Value;
use std::collections::BTreeSet;

const PAGE: &str = include_str!("../../docs/RECORD.md");

/// The names of an object's fields, and of those below it.
fn names(value: &Value, found: &mut BTreeSet<String>) {
    match value {
        Value::Object(fields) => {
            for (name, value) in fields {
                found.insert(name.clone());
                names(value, found);
            }
        }
        Value::Array(values) => values.iter().for_each(|value| names(value, found)),
        _ => {}
    }
}

#[test]
fn the_page_names_every_field() {
    let folder = Folder::ring();
    let mut found = BTreeSet::new();
    for format in ["json", "jsonl"] {
        let ran = folder.words(&format!("judge -g ring.peg -f {format} broken.capture"));
        names(&serde_json::from_str(&ran.stdout).unwrap(), &mut found);
    }
    assert!(found.len() > 30, "{found:?}");
    let missing: Vec<_> = found.iter().filter(|name| !PAGE.contains(&format!("`{name}`"))).collect();
    assert!(missing.is_empty(), "{missing:?}");
}

#[test]
fn rows_have_their_fields_in_the_page_s_order() {
    let folder = Folder::ring();
    let csv = folder.words("judge -g ring.peg -f csv broken.capture").stdout;
    let heading: Vec<&str> = csv.lines().next().unwrap().split(',').collect();
    let line = folder.words("judge -g ring.peg -f jsonl broken.capture").stdout;
    let places: Vec<_> = heading.iter().map(|name| line.find(&format!("\"{name}\":"))).collect();
    assert!(places.iter().all(Option::is_some) && places.is_sorted(), "{heading:?}");
    let row: Value = serde_json::from_str(&line).unwrap();
    assert_eq!(row.as_object().unwrap().len(), heading.len());
    // The first column of the page's first table has them, in this order.
    let table = PAGE.split("| field | what it is |").nth(1).unwrap().split("\n\n").next().unwrap();
    let cells = table.lines().filter_map(|line| line.strip_prefix("| `")?.split(" | ").next());
    let named: Vec<&str> = cells.flat_map(|cell| cell.trim_end_matches('`').split("` `")).collect();
    assert_eq!(named, heading);
}
