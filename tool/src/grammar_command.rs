//! `grammar check` and `grammar show`.
use crate::formats::text;
use crate::machines::{Complaint, Machine};
use crate::output::{self, complain};
use crate::shown::grouped;
use crate::status::Status;
use sejimakpu::{Error, Image, Matching, MAX_CAPTURE};
use std::path::Path;

/// The lengths of captures for which the memory is told.
const LENGTHS: [usize; 3] = [1_000, 10_000, MAX_CAPTURE];

/// What is wrong with each grammar, or what it needs: 0 where all are right, 1 where a capture may loop, 2 where one is refused.
pub fn check(files: &[impl AsRef<Path>]) -> Status {
    files.iter().map(|file| check_one(file.as_ref())).max().unwrap_or(Status::Accepted)
}

fn check_one(file: &Path) -> Status {
    let machine = Machine::of_grammar(file, Matching::Whole);
    if let Some(complaint) = machine.complaint() {
        tell("error:", &complaint);
        return Status::Failed;
    }
    let warning = machine.warning();
    warning.iter().for_each(|warning| tell("warning:", warning));
    let told = match (&machine.grammar, &machine.image) {
        (Some(grammar), Ok(image)) => needs(image).map(|needs| {
            let (rules, classes) = (grammar.rule_count(), image.classes());
            let classes = if classes == 1 { "1 class of bytes".into() } else { format!("{classes} classes of bytes") };
            let looping = if warning.is_some() { "may loop" } else { "never loops" };
            format!("{}: {rules} of 31 rules, {classes}, {looping}\n{needs}", machine.name())
        }),
        // A grammar that is not complained of has both.
        _ => Ok(String::new()),
    };
    let looping = if warning.is_some() { Status::NotAccepted } else { Status::Accepted };
    match told {
        Ok(told) => looping.max(output::print(told.as_bytes())),
        Err(error) => {
            complain(&format!("error: {}: {error}", machine.name()));
            Status::Failed
        }
    }
}

/// What is wrong with a grammar, or may be.
fn tell(kind: &str, complaint: &Complaint) {
    let style = text::Style { coloured: false };
    text::complaint(kind, complaint, style).iter().for_each(|line| complain(line));
}

/// Cells and memory for captures of some lengths: notes and work cells, four bytes each.
fn needs(image: &Image) -> Result<String, Error> {
    let mut lines = String::new();
    for length in LENGTHS {
        let cells = image.cells(length)?;
        let megabytes = (cells * 8) as f64 / 1e6;
        lines += &format!(
            "  {:>6} bytes: {:>10} notes and as many work cells, {megabytes:.1} MB\n",
            grouped(length),
            grouped(cells)
        );
    }
    Ok(lines)
}

/// The rules as text. What is read again is the same grammar.
pub fn show(file: &Path) -> Status {
    let machine = Machine::of_grammar(file, Matching::Whole);
    let Some(grammar) = &machine.grammar else {
        machine.complaint().iter().for_each(|complaint| tell("error:", complaint));
        return Status::Failed;
    };
    output::print(&grammar.to_text())
}
