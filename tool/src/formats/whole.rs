//! JSON: one object with what judged, the grammars, the captures and the totals.
use super::fields::Fields;
use crate::record::{self, Capture, Machine, Outcome, Record, Totals};
use crate::status::Status;
use crate::version::JudgedBy;
use serde::Serialize;
use std::io::{self, Write};

#[derive(Serialize)]
struct WholeRecord<'a> {
    /// The form of this object, counted up when a field changes its meaning.
    record: u32,
    #[serde(flatten)]
    judged_by: &'a JudgedBy,
    started: String,
    finished: String,
    status: u8,
    totals: &'a Totals,
    grammars: &'a [Machine],
    captures: Vec<WholeCapture<'a>>,
}

#[derive(Serialize)]
struct WholeCapture<'a> {
    file: Option<&'a str>,
    bytes: Option<u64>,
    sha256: Option<&'a str>,
    verdict: Outcome,
    error: Option<&'a str>,
    time: String,
    judgements: Vec<Fields<'a>>,
}

impl<'a> WholeCapture<'a> {
    fn of(record: &'a Record, capture: &'a Capture) -> WholeCapture<'a> {
        WholeCapture {
            file: capture.file.as_deref(),
            bytes: capture.bytes,
            sha256: capture.sha256.as_deref(),
            verdict: capture.outcome(),
            error: capture.error.as_deref(),
            time: record::time(capture.time),
            judgements: capture.judgements.iter().map(|judgement| Fields::of(record, judgement)).collect(),
        }
    }
}

pub fn write(record: &Record, status: Status, out: &mut dyn Write) -> io::Result<()> {
    let whole = WholeRecord {
        record: 1,
        judged_by: &record.judged_by,
        started: record::time(record.started),
        finished: record::time(record.finished),
        status: status.number(),
        totals: &record.totals,
        grammars: &record.machines,
        captures: record.captures.iter().map(|capture| WholeCapture::of(record, capture)).collect(),
    };
    serde_json::to_writer_pretty(&mut *out, &whole)?;
    writeln!(out)
}
