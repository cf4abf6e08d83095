//! Text: a line for each capture, then the totals; and the hint for a person.
use crate::machines::Complaint;
use crate::record::{Answer, Capture, Machine, Outcome, Record, Totals};
use crate::shown::{self, Place};
use std::io::{self, Write};

/// Colours, or none.
#[derive(Clone, Copy)]
pub struct Style {
    pub coloured: bool,
}

impl Style {
    fn paint(self, colour: &str, words: &str) -> String {
        if self.coloured {
            format!("\x1b[{colour}m{words}\x1b[0m")
        } else {
            words.into()
        }
    }

    fn bold(self, words: &str) -> String {
        self.paint("1", words)
    }

    /// Green for accepted, yellow for what was not judged, red for every other verdict.
    fn outcome(self, outcome: Outcome, words: &str) -> String {
        match outcome {
            Outcome::Accepted => self.paint("32", words),
            Outcome::Refused | Outcome::Error => self.paint("33", words),
            _ => self.paint("31", words),
        }
    }
}

/// The line of a capture: how it came out, its name, and with several grammars which of them decided that.
pub fn line(capture: &Capture, machines: &[Machine], style: Style) -> String {
    let outcome = capture.outcome();
    let mut line = style.outcome(outcome, &format!("{:<8}", outcome.word()));
    line.push(' ');
    line.push_str(capture.name());
    if let (true, true, Some(judgement)) =
        (capture.judgements.len() > 1, outcome != Outcome::Accepted, capture.deciding())
    {
        line.push_str(&format!(" (by {})", machines[judgement.machine].grammar));
    }
    line
}

/// The last line.
pub fn totals(totals: &Totals) -> String {
    let grouped = |number: u64| shown::grouped(number as usize);
    let mut line = shown::count(totals.captures as usize, "capture");
    line.push_str(&format!(": {} accepted", grouped(totals.accepted)));
    for outcome in &Outcome::ALL[1..] {
        match totals.of(*outcome) {
            0 => {}
            some => line.push_str(&format!(", {} {}", grouped(some), outcome.word())),
        }
    }
    line + "; " + &shown::count(totals.readings as usize, "reading")
}

/// What a person is told of a capture beside its line, for each grammar that does not accept it: what could not be done, and
/// with hints why it is not accepted.
pub fn remarks(capture: &Capture, machines: &[Machine], hints: bool, style: Style) -> Vec<String> {
    let file = capture.name();
    let mut lines = Vec::new();
    if let Some(error) = &capture.error {
        lines.push(format!("{} {file}: {error}", style.bold("error:")));
    }
    // What is wrong with a grammar was told before.
    for judgement in capture.judgements.iter().filter(|judgement| !machines[judgement.machine].is_wrong()) {
        let by = match capture.judgements.len() {
            1 => String::new(),
            _ => format!(" (by {})", machines[judgement.machine].grammar),
        };
        match &judgement.answer {
            Answer::Judged { hint: Some(hint), .. } if hints => {
                let Place { line, column, .. } = hint.place;
                let words = hint.words();
                lines.push(format!("{} {file}: line {line}, column {column}: {words}{by}", style.bold("hint:")));
                lines.extend(marked(&hint.place));
            }
            Answer::Judged { .. } => {}
            Answer::Refused(refusal) => lines.push(format!("{} {file}: {refusal}{by}", style.bold("refused:"))),
            Answer::Error(error) => lines.push(format!("{} {file}: {error}{by}", style.bold("error:"))),
        }
    }
    lines
}

/// A line of a text with a place of it marked below.
fn marked(place: &Place) -> [String; 2] {
    place.lines().map(|line| format!("    {line}").trim_end().to_string())
}

/// What is told of a grammar, as an error or as a warning.
pub fn complaint(kind: &str, complaint: &Complaint, style: Style) -> Vec<String> {
    let mut lines = vec![format!("{} {}", style.bold(kind), complaint.words)];
    lines.extend(complaint.place.iter().flat_map(marked));
    lines
}

pub fn write(record: &Record, out: &mut dyn Write) -> io::Result<()> {
    let style = Style { coloured: false };
    for capture in &record.captures {
        writeln!(out, "{}", line(capture, &record.machines, style))?;
    }
    writeln!(out, "{}", totals(&record.totals))
}
