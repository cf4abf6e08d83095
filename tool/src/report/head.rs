//! The page's head: whether the shift passed, the totals with their bar, what judged, and the grammars.
use super::html::{escape, name, number, time};
use super::ORDER;
use crate::record::{Kind, Machine, Outcome, Record, Totals};
use crate::version::JudgedBy;
use std::io::{self, Write};

/// Everything that is told, with the errors that are of no capture.
fn counted(totals: &Totals) -> u64 {
    Outcome::ALL.iter().map(|&outcome| totals.of(outcome)).sum()
}

/// Passed only where every capture is accepted, and there is one.
fn passed(totals: &Totals) -> bool {
    totals.captures > 0 && totals.accepted == counted(totals)
}

/// The one line that says how the shift came out.
pub fn headline(totals: &Totals) -> String {
    let captures = number(totals.captures);
    let wanting = totals.captures.saturating_sub(totals.accepted);
    // Such as a row of a plan that finds no capture.
    let others = counted(totals).saturating_sub(totals.captures);
    let mut words = match (totals.captures, wanting) {
        (0, _) => "there is no capture".into(),
        (1, 0) => "the one capture accepted".into(),
        (_, 0) => format!("all {captures} captures accepted"),
        (1, _) => "the one capture needs a person".into(),
        (_, 1) => format!("1 of {captures} captures needs a person"),
        _ => format!("{} of {captures} captures need a person", number(wanting)),
    };
    match others {
        0 => {}
        1 => words += ", and 1 error is of no capture",
        _ => words += &format!(", and {} errors are of no capture", number(others)),
    }
    format!("{}: {words}", result(totals))
}

pub fn result(totals: &Totals) -> &'static str {
    if passed(totals) {
        "Passed"
    } else {
        "Not passed"
    }
}

pub fn write(record: &Record, out: &mut dyn Write) -> io::Result<()> {
    let state = if passed(&record.totals) { "passed" } else { "not-passed" };
    let (started, finished) = (time(record.started), time(record.finished));
    writeln!(out, "<header class=\"{state}\">\n<p class=\"kind\">Sejimakpu: record of a shift</p>")?;
    writeln!(out, "<h1>{}</h1>", headline(&record.totals))?;
    writeln!(out, "<p class=\"times\">Started {started}, finished {finished}</p>\n</header>")?;
    write_totals(&record.totals, out)?;
    writeln!(out, "<section aria-labelledby=\"by\">\n<h2 id=\"by\">Judged by</h2>")?;
    write_judged_by(&record.judged_by, out)?;
    write_grammars(&record.machines, out)?;
    writeln!(out, "</section>")
}

/// The bar is a picture to a screen reader: the list below it says the same in words.
fn write_totals(totals: &Totals, out: &mut dyn Write) -> io::Result<()> {
    writeln!(out, "<section aria-labelledby=\"totals\">\n<h2 id=\"totals\">Totals</h2>")?;
    let present = || ORDER.into_iter().filter(|&outcome| totals.of(outcome) > 0);
    let words: Vec<String> = present().map(|outcome| count(totals, outcome)).collect();
    writeln!(out, "<div class=\"bar\" role=\"img\" aria-label=\"{}\">", words.join(", "))?;
    for outcome in present() {
        let (share, words) = (totals.of(outcome), count(totals, outcome));
        let class = outcome.word();
        writeln!(out, "<span class=\"{class}\" style=\"flex-grow:{share}\" title=\"{words}\"><b>{words}</b></span>")?;
    }
    writeln!(out, "</div>\n<ul class=\"legend\">")?;
    for outcome in ORDER {
        writeln!(out, "<li class=\"{}\">{}</li>", outcome.word(), legend(totals, outcome))?;
    }
    writeln!(out, "</ul>\n<dl class=\"figures\">")?;
    let unjudged = totals.refused + totals.error;
    let others = counted(totals) - totals.accepted - unjudged;
    for (what, figure) in [
        ("captures", totals.captures),
        ("accepted", totals.accepted),
        ("with another verdict", others),
        ("not judged", unjudged),
        ("readings", totals.readings),
    ] {
        writeln!(out, "<div><dt>{what}</dt><dd>{}</dd></div>", number(figure))?;
    }
    writeln!(out, "</dl>\n</section>")
}

/// Such as `3 stuck`.
fn count(totals: &Totals, outcome: Outcome) -> String {
    format!("{} {}", number(totals.of(outcome)), outcome.word())
}

/// One that was given leads to the first capture that has it.
fn legend(totals: &Totals, outcome: Outcome) -> String {
    let words = format!("<b>{}</b> {}", number(totals.of(outcome)), outcome.word());
    match totals.of(outcome) {
        0 => format!("<span>{words}</span>"),
        _ => format!("<a href=\"#{}\">{words}</a>", outcome.word()),
    }
}

fn write_judged_by(by: &JudgedBy, out: &mut dyn Write) -> io::Result<()> {
    writeln!(out, "<dl class=\"judged\">")?;
    for (what, value) in [
        ("Tool", by.tool_version),
        ("Commit", by.tool_commit),
        ("Archive", by.archive_version),
        ("Archive's SHA-256", by.archive_sha256),
    ] {
        writeln!(out, "<div><dt>{what}</dt><dd><code>{}</code></dd></div>", escape(value))?;
    }
    writeln!(out, "</dl>")
}

fn write_grammars(machines: &[Machine], out: &mut dyn Write) -> io::Result<()> {
    writeln!(out, "<table class=\"grammars\">\n<thead><tr>")?;
    for (class, title) in [("", "Grammar"), ("", "Kind"), ("", "Matching"), ("number", "Rules"), ("", "SHA-256")] {
        writeln!(out, "<th scope=\"col\" class=\"{class}\">{title}</th>")?;
    }
    writeln!(out, "</tr></thead>\n<tbody>")?;
    for machine in machines {
        let kind = match machine.kind {
            Kind::Text => "text",
            Kind::Bytes => "bytes",
            Kind::Image => "image",
        };
        writeln!(out, "<tr><th scope=\"row\">{}</th><td data-label=\"Kind\">{kind}</td>", name(&machine.grammar))?;
        writeln!(out, "<td data-label=\"Matching\">{}</td>", machine.matching.unwrap_or(""))?;
        let rules = machine.rules.map_or(String::new(), |rules| rules.to_string());
        writeln!(out, "<td class=\"number\" data-label=\"Rules\">{rules}</td>")?;
        let sha256 = machine.grammar_sha256.as_deref().unwrap_or("it could not be read");
        writeln!(out, "<td data-label=\"SHA-256\"><code>{}</code></td></tr>", escape(sha256))?;
    }
    writeln!(out, "</tbody>\n</table>")
}

#[cfg(test)]
mod tests {
    use super::*;

    #[test]
    fn headlines() {
        let totals =
            |captures, accepted, stuck, error| Totals { captures, accepted, stuck, error, ..Totals::default() };
        for (given, words) in [
            (totals(0, 0, 0, 0), "Not passed: there is no capture"),
            (totals(1, 1, 0, 0), "Passed: the one capture accepted"),
            (totals(1200, 1200, 0, 0), "Passed: all 1,200 captures accepted"),
            (totals(1, 0, 1, 0), "Not passed: the one capture needs a person"),
            (totals(120, 119, 1, 0), "Not passed: 1 of 120 captures needs a person"),
            (totals(120, 117, 2, 1), "Not passed: 3 of 120 captures need a person"),
            (totals(2, 2, 0, 1), "Not passed: all 2 captures accepted, and 1 error is of no capture"),
            (totals(0, 0, 0, 2), "Not passed: there is no capture, and 2 errors are of no capture"),
        ] {
            assert_eq!(headline(&given), words);
        }
    }
}
