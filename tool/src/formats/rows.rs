//! CSV and JSON lines: a row for each capture and grammar, with the same fields.
use super::fields::Fields;
use crate::record::{self, Capture, Judgement, Record};
use crate::shown;
use serde::Serialize;
use std::io::{self, Write};

/// The fields in their order. One that says nothing is null, and empty in CSV.
#[derive(Serialize)]
struct Row<'a> {
    file: Option<&'a str>,
    bytes: Option<u64>,
    sha256: Option<&'a str>,
    grammar: Option<&'a str>,
    grammar_sha256: Option<&'a str>,
    matching: Option<&'a str>,
    verdict: record::Outcome,
    readings: Option<u32>,
    end_state: Option<u32>,
    end_head: Option<u32>,
    end_symbol: Option<u32>,
    line: Option<usize>,
    column: Option<usize>,
    expected: Option<String>,
    found: Option<&'a str>,
    refusal: Option<u32>,
    place: Option<usize>,
    error: Option<&'a str>,
    tool_version: &'a str,
    tool_commit: &'a str,
    archive_version: &'a str,
    archive_sha256: &'a str,
    time: String,
}

impl<'a> Row<'a> {
    /// What is the same for every grammar.
    fn of_capture(record: &'a Record, capture: &'a Capture) -> Row<'a> {
        Row {
            file: capture.file.as_deref(),
            bytes: capture.bytes,
            sha256: capture.sha256.as_deref(),
            grammar: None,
            grammar_sha256: None,
            matching: None,
            verdict: capture.outcome(),
            readings: None,
            end_state: None,
            end_head: None,
            end_symbol: None,
            line: None,
            column: None,
            expected: None,
            found: None,
            refusal: None,
            place: None,
            error: capture.error.as_deref(),
            tool_version: record.judged_by.tool_version,
            tool_commit: record.judged_by.tool_commit,
            archive_version: record.judged_by.archive_version,
            archive_sha256: record.judged_by.archive_sha256,
            time: record::time(capture.time),
        }
    }

    fn of_judgement(record: &'a Record, capture: &'a Capture, judgement: &'a Judgement) -> Row<'a> {
        let fields = Fields::of(record, judgement);
        // A row has text where the object has a list, or a remark in its place.
        let expected = |expected: &'a [String]| fields.remark.map_or_else(|| shown::list(expected), String::from);
        Row {
            grammar: Some(fields.grammar),
            grammar_sha256: fields.grammar_sha256,
            matching: fields.matching,
            verdict: fields.verdict,
            readings: fields.readings,
            end_state: fields.end_state,
            end_head: fields.end_head,
            end_symbol: fields.end_symbol,
            line: fields.line,
            column: fields.column,
            expected: fields.expected.map(expected),
            found: fields.found,
            refusal: fields.refusal,
            place: fields.place,
            error: fields.error,
            ..Row::of_capture(record, capture)
        }
    }
}

/// One for each grammar; of a capture that was judged by none, one.
fn rows(record: &Record) -> impl Iterator<Item = Row<'_>> {
    record.captures.iter().flat_map(move |capture| {
        let alone = capture.judgements.is_empty().then(|| Row::of_capture(record, capture));
        let each = capture.judgements.iter().map(move |judgement| Row::of_judgement(record, capture, judgement));
        alone.into_iter().chain(each)
    })
}

pub fn write_lines(record: &Record, out: &mut dyn Write) -> io::Result<()> {
    for row in rows(record) {
        serde_json::to_writer(&mut *out, &row)?;
        writeln!(out)?;
    }
    Ok(())
}

pub fn write_csv(record: &Record, out: &mut dyn Write) -> io::Result<()> {
    let mut writer = csv::Writer::from_writer(out);
    for row in rows(record) {
        writer.serialize(row)?;
    }
    writer.flush()
}
