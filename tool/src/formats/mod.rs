//! The forms of a record. docs/RECORD.md has the names of their fields.
mod fields;
mod junit;
mod rows;
pub mod text;
mod whole;

use crate::cli::Format;
use crate::record::Record;
use crate::status::Status;
use std::io::{self, Write};
use std::path::Path;

/// Writes a whole record.
pub fn write(format: Format, record: &Record, status: Status, out: &mut dyn Write) -> io::Result<()> {
    match format {
        Format::Text => text::write(record, out),
        Format::Json => whole::write(record, status, out),
        Format::Jsonl => rows::write_lines(record, out),
        Format::Csv => rows::write_csv(record, out),
        Format::Junit => junit::write(record, out),
    }
}

/// By the ending of a file's name.
pub fn of_ending(file: &Path) -> Option<Format> {
    Some(match file.extension()?.to_str()? {
        "json" => Format::Json,
        "jsonl" => Format::Jsonl,
        "csv" => Format::Csv,
        "xml" => Format::Junit,
        _ => return None,
    })
}
