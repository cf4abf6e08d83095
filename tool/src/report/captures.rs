//! The table of all captures: what needs a person first, and why.
use super::html::{escape, name, number};
use super::ORDER;
use crate::hint::Hint;
use crate::record::{Answer, Capture, Judgement, Machine, Outcome, Record};
use crate::shown::Place;
use std::io::{self, Write};

/// By outcome, and those of one outcome in the order given.
pub fn sorted(captures: &[Capture]) -> Vec<&Capture> {
    let mut sorted: Vec<&Capture> = captures.iter().collect();
    sorted.sort_by_key(|capture| ORDER.iter().position(|&outcome| outcome == capture.outcome()));
    sorted
}

/// The names of the columns. The last says what its hints are worth.
const COLUMNS: [(&str, &str); 7] = [
    ("verdict", "Verdict"),
    ("file", "File"),
    ("bytes number", "Bytes"),
    ("by", "Grammars"),
    ("readings number", "Readings"),
    ("place", "Place"),
    ("why", "Expected, found <small>(hints, not verdicts)</small>"),
];

pub fn write(record: &Record, out: &mut dyn Write) -> io::Result<()> {
    writeln!(out, "<section aria-labelledby=\"captures\">\n<h2 id=\"captures\">Captures</h2>")?;
    writeln!(out, "<p>What needs a person comes first. Verdicts, refusals and readings are the proved library's.")?;
    writeln!(out, "What was expected and found is a hint, not a verdict.</p>")?;
    writeln!(out, "<table class=\"captures\">\n<thead><tr>")?;
    for (class, title) in COLUMNS {
        writeln!(out, "<th scope=\"col\" class=\"{class}\">{title}</th>")?;
    }
    writeln!(out, "</tr></thead>\n<tbody>")?;
    let mut last = None;
    for capture in sorted(&record.captures) {
        let outcome = capture.outcome();
        // The legend leads to the first of each.
        let id = if last == Some(outcome) { String::new() } else { format!(" id=\"{}\"", outcome.word()) };
        last = Some(outcome);
        writeln!(out, "<tr class=\"{}\"{id}>", outcome.word())?;
        write_cells(capture, &record.machines, out)?;
        writeln!(out, "</tr>")?;
    }
    writeln!(out, "</tbody>\n</table>\n</section>")
}

fn write_cells(capture: &Capture, machines: &[Machine], out: &mut dyn Write) -> io::Result<()> {
    let outcome = capture.outcome();
    let file = capture.file.as_deref().map_or("<i>no capture</i>".into(), name);
    writeln!(out, "<td class=\"verdict\"><b>{}</b></td><th scope=\"row\" class=\"file\">{file}</th>", outcome.word())?;
    let judged = capture.judgements.iter().any(|judgement| judgement.answer.outcome().is_judged());
    for (class, label, words) in [
        ("bytes number", "Bytes", capture.bytes.map_or(String::new(), number)),
        ("by", "Grammars", grammars(capture, machines)),
        ("readings number", "Readings", if judged { number(capture.readings()) } else { String::new() }),
        ("place", "Place", capture.deciding().map_or(String::new(), |judgement| place(&judgement.answer))),
    ] {
        writeln!(out, "<td class=\"{class}\" data-label=\"{label}\">{words}</td>")?;
    }
    write!(out, "<td class=\"why\">")?;
    write_why(capture, machines, out)?;
    writeln!(out, "</td>")
}

/// A grammar's name, and how it is matched where that is not the usual way.
fn grammar(machine: &Machine) -> String {
    let matching = machine.matching.filter(|&matching| matching != "whole");
    name(&machine.grammar) + &matching.map_or(String::new(), |matching| format!(" ({matching})"))
}

/// A grammar a line; of several that do not all accept, each with what it gave.
fn grammars(capture: &Capture, machines: &[Machine]) -> String {
    let differ = capture.judgements.len() > 1 && capture.outcome() != Outcome::Accepted;
    let told = |judgement: &Judgement| {
        let outcome = if differ { format!(": {}", judgement.answer.outcome().word()) } else { String::new() };
        format!("<div>{}{outcome}</div>", grammar(&machines[judgement.machine]))
    };
    capture.judgements.iter().map(told).collect()
}

/// A line and column of the capture, or the place that a refusal blames.
fn place(answer: &Answer) -> String {
    match answer {
        Answer::Refused(refusal) => format!("refusal {}, place {}", refusal.number(), refusal.place()),
        _ => answer.hint().map_or(String::new(), |hint| {
            format!("line {}, column {}", number(hint.place.line as u64), number(hint.place.column as u64))
        }),
    }
}

/// Why it is not accepted, for each grammar that does not accept it.
fn write_why(capture: &Capture, machines: &[Machine], out: &mut dyn Write) -> io::Result<()> {
    if let Some(error) = &capture.error {
        write!(out, "<p>{}</p>", escape(error))?;
    }
    if capture.judgements.is_empty() && capture.error.is_none() {
        write!(out, "<p>it was judged by no grammar</p>")?;
    }
    for judgement in capture.judgements.iter().filter(|each| each.answer.outcome() != Outcome::Accepted) {
        let by = match &judgement.answer {
            // One grammar alone stands in its own column.
            Answer::Judged { .. } if capture.judgements.len() == 1 => String::new(),
            // This names the grammar itself.
            Answer::Error(_) => String::new(),
            // What is wrong may be with the grammar and not with the capture.
            _ => format!("{}: ", grammar(&machines[judgement.machine])),
        };
        write!(out, "<div>{}</div>", reason(&judgement.answer, &by))?;
    }
    Ok(())
}

/// What one grammar gave, with the grammar's name before it where it must be told.
fn reason(answer: &Answer, by: &str) -> String {
    match answer {
        Answer::Judged { end, hint, .. } => {
            let (state, head, symbol) = (end.state, end.head, end.symbol);
            let lead = match by {
                "" => String::new(),
                _ => format!("<p>{by}<b>{}</b>, {}</p>", answer.outcome().word(), place(answer)),
            };
            let hint = hint.as_ref().map_or(String::new(), told);
            format!("{lead}{hint}<p class=\"end\">End configuration {state} {head} {symbol}</p>")
        }
        Answer::Refused(refusal) => {
            let (number, place) = (refusal.number(), refusal.place());
            let meaning = escape(&refusal.reason().to_string());
            format!("<p>{by}<b>refusal {number}</b> at place {place}: {meaning}</p>")
        }
        Answer::Error(error) => format!("<p>{by}{}</p>", escape(error)),
    }
}

/// The hint's words, and the line with the byte marked. A word stands for a line feed, and for the capture's end.
fn told(hint: &Hint) -> String {
    let Place { before, at, after, .. } = &hint.place;
    let (class, at) = match (at.as_str(), hint.found.as_str()) {
        ("", "'\\n'") => (" class=\"none\"", "\\n"),
        ("", _) => (" class=\"none\"", "end"),
        (byte, _) => ("", byte),
    };
    let (before, at, after) = (escape(before), escape(at), escape(after));
    let words = escape(&hint.words());
    format!("<p>Hint: {words}</p><pre>{before}<mark{class}>{at}</mark>{after}</pre>")
}
