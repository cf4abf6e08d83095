//! The page for a browser: a whole record on one page that needs nothing else, on a screen, in the dark and on paper.
mod captures;
mod head;
mod html;

use crate::record::{Outcome, Record};
use std::io::{self, Write};

const STYLE: &str = include_str!("report/page.css");

/// What needs a person comes first.
const ORDER: [Outcome; 7] = [
    Outcome::Error,
    Outcome::Refused,
    Outcome::Looping,
    Outcome::Stuck,
    Outcome::Ended,
    Outcome::Halted,
    Outcome::Accepted,
];

/// The page may load nothing and run nothing: a browser holds it to that.
const POLICY: &str = "default-src 'none'; style-src 'unsafe-inline'";

pub fn write(record: &Record, out: &mut dyn Write) -> io::Result<()> {
    let headline = head::headline(&record.totals);
    let (result, started) = (head::result(&record.totals), html::utc(record.started));
    writeln!(out, "<!DOCTYPE html>\n<html lang=\"en\">\n<head>\n<meta charset=\"utf-8\">")?;
    writeln!(out, "<meta http-equiv=\"Content-Security-Policy\" content=\"{POLICY}\">")?;
    writeln!(out, "<meta name=\"viewport\" content=\"width=device-width, initial-scale=1\">")?;
    writeln!(out, "<meta name=\"color-scheme\" content=\"light dark\">")?;
    writeln!(out, "<title>{headline} - Sejimakpu</title>\n<style>\n{STYLE}")?;
    // Each sheet of paper says which shift it is of, and how that came out.
    writeln!(out, "@page {{ @top-center {{ content: \"{result}\" }} @top-right {{ content: \"{started}\" }} }}")?;
    writeln!(out, "</style>\n</head>\n<body>\n<main>")?;
    head::write(record, out)?;
    captures::write(record, out)?;
    write_meanings(out)?;
    writeln!(out, "</main>\n</body>\n</html>")
}

fn write_meanings(out: &mut dyn Write) -> io::Result<()> {
    writeln!(
        out,
        "<section aria-labelledby=\"words\">\n<h2 id=\"words\">What the words mean</h2>\n<dl class=\"words\">"
    )?;
    for outcome in ORDER {
        writeln!(out, "<div><dt>{}</dt><dd>{}</dd></div>", outcome.word(), meaning(outcome))?;
    }
    writeln!(out, "</dl>\n<p>Only <b>accepted</b> passes a unit. Times are in UTC.</p>\n</section>")
}

fn meaning(outcome: Outcome) -> &'static str {
    match outcome {
        Outcome::Error => "Something could not be read, or no grammar is named for it. Nothing was judged.",
        Outcome::Refused => "The grammar, the image or the capture is not as it must be. Nothing was judged.",
        Outcome::Looping => "The grammar goes round in a circle on this capture without reading on: mend the grammar.",
        Outcome::Stuck => "The capture is something else than the grammar describes.",
        Outcome::Ended => "A machine made by hand stopped by itself without accepting.",
        Outcome::Halted => "A machine made by hand came to a rule that is written to stop it.",
        Outcome::Accepted => "Every grammar accepts it: the whole capture, or with leading its start.",
    }
}

#[cfg(test)]
mod tests {
    use super::*;
    use crate::hint::Hint;
    use crate::record::{Answer, Capture, Judgement, Kind, Machine, Totals};
    use crate::shown::Place;
    use crate::version::JudgedBy;
    use sejimakpu::{Config, Reason, Refusal, Verdict};
    use std::time::SystemTime;

    fn hint(capture: &[u8], offset: usize, found: &str, remark: Option<&str>) -> Hint {
        let (place, expected) = (Place::of(capture, offset), vec!["'1'-'8' (port)".into()]);
        Hint { place, expected, found: found.into(), remark: remark.map(String::from) }
    }

    fn answer(verdict: Verdict, hint: Option<Hint>) -> Answer {
        Answer::Judged { verdict, readings: 1234, end: Config { state: 2, head: 13, symbol: 7 }, hint }
    }

    fn judged(verdict: Verdict, remark: Option<&str>) -> Answer {
        let hint = hint(b"1-2 F\n3-<b> F\n", 8, "'<'", remark);
        answer(verdict, Some(hint).filter(|_| verdict != Verdict::Accepted))
    }

    fn capture(file: &str, answers: Vec<Answer>) -> Capture {
        let judgements = (0..).zip(answers).map(|(machine, answer)| Judgement { machine, answer }).collect();
        let time = SystemTime::UNIX_EPOCH;
        Capture { file: Some(file.into()), bytes: Some(65536), sha256: None, judgements, error: None, time }
    }

    fn machine(name: &str, matching: &'static str) -> Machine {
        let grammar_sha256 = Some("0123abcd".into());
        let (grammar, matching) = (name.into(), Some(matching));
        Machine {
            grammar,
            kind: Kind::Text,
            matching,
            grammar_bytes: Some(4),
            grammar_sha256,
            rules: Some(14),
            may_loop: Some(false),
            refusal: None,
            place: None,
            line: None,
            column: None,
            error: None,
        }
    }

    /// A record with every outcome, the best first, and an error that is of no capture.
    fn every_outcome() -> Record {
        let refusal = Refusal::new(Reason::CaptureLong, 65536);
        let mut captures = vec![
            capture("first accepted", vec![judged(Verdict::Accepted, None)]),
            capture("one halted", vec![judged(Verdict::Halted, Some("the machine came this far"))]),
            capture("one ended", vec![judged(Verdict::Ended, None)]),
            capture("one stuck", vec![judged(Verdict::Accepted, None), judged(Verdict::Stuck, None)]),
            capture("one looping", vec![judged(Verdict::Looping, Some("line goes round in a circle"))]),
            capture("one refused", vec![Answer::Refused(refusal)]),
            capture("one <error>&\"", vec![Answer::Error("ring.peg: cannot be read: <why>".into())]),
            capture("last accepted", vec![judged(Verdict::Accepted, None)]),
        ];
        let error = Some("row 1 of the plan finds no capture".into());
        captures.push(Capture { file: None, bytes: None, error, ..capture("", Vec::new()) });
        let mut totals = Totals::default();
        captures.iter().for_each(|capture| totals.add(capture));
        let machines = vec![machine("ring.peg", "whole"), machine("a<b>.peg", "leading")];
        let (started, finished) = (SystemTime::UNIX_EPOCH, SystemTime::UNIX_EPOCH);
        Record { machines, captures, totals, started, finished, judged_by: JudgedBy::this() }
    }

    fn page(record: &Record) -> String {
        let mut out = Vec::new();
        write(record, &mut out).unwrap();
        String::from_utf8(out).unwrap()
    }

    #[test]
    fn every_outcome_is_told() {
        let page = page(&every_outcome());
        for words in [
            "<h1>Not passed: 6 of 8 captures need a person, and 1 error is of no capture</h1>",
            "aria-label=\"2 error, 1 refused, 1 looping, 1 stuck, 1 ended, 1 halted, 2 accepted\"",
            "<span class=\"error\" style=\"flex-grow:2\" title=\"2 error\"><b>2 error</b></span>",
            "<th scope=\"row\" class=\"file\"><bdi>one &lt;error&gt;&amp;&quot;</bdi></th>",
            "<p>ring.peg: cannot be read: &lt;why&gt;</p>",
            "<p>row 1 of the plan finds no capture</p>",
            "<p><bdi>ring.peg</bdi>: <b>refusal 7</b> at place 65536: the capture is longer than 65,535 bytes",
            "Hint: line goes round in a circle, at &#39;&lt;&#39;",
            "<div><bdi>ring.peg</bdi>: accepted</div><div><bdi>a&lt;b&gt;.peg</bdi> (leading): stuck</div>",
            "Hint: expected &#39;1&#39;-&#39;8&#39; (port), found &#39;&lt;&#39;",
            "<pre>3-<mark>&lt;</mark>b&gt; F</pre>",
            "End configuration 2 13 7",
            "<td class=\"place\" data-label=\"Place\">line 2, column 3</td>",
            "What was expected and found is a hint, not a verdict.",
        ] {
            assert!(page.contains(words), "{words}\n{page}");
        }
    }

    #[test]
    fn what_needs_a_person_is_first() {
        let record = every_outcome();
        let names: Vec<_> = captures::sorted(&record.captures).into_iter().map(|each| each.file.as_deref()).collect();
        let first = [Some("one <error>&\""), None, Some("one refused"), Some("one looping"), Some("one stuck")];
        let last = [Some("one ended"), Some("one halted"), Some("first accepted"), Some("last accepted")];
        assert_eq!(names, [&first[..], &last[..]].concat());
        let page = page(&record);
        let places = ORDER.map(|outcome| page.find(&format!("id=\"{}\"", outcome.word())));
        assert!(places.iter().all(Option::is_some) && places.is_sorted());
    }

    #[test]
    fn marks_where_no_byte_is_shown() {
        let end = "the end of the capture";
        for (offset, found, line) in [
            (5, "'\\n'", "<pre>1-2 F<mark class=\"none\">\\n</mark></pre>"),
            (6, end, "<pre><mark class=\"none\">end</mark></pre>"),
        ] {
            let answer = answer(Verdict::Stuck, Some(hint(b"1-2 F\n", offset, found, None)));
            let record = Record { captures: vec![capture("a", vec![answer])], ..every_outcome() };
            assert!(page(&record).contains(line), "{line}");
        }
    }

    #[test]
    fn nothing_is_loaded() {
        let page = page(&every_outcome()).replace("http-equiv", "");
        for word in ["http", "//", "url(", "@import", "<script", "<link", "<img", " src="] {
            assert!(!page.contains(word), "{word}");
        }
        assert!(page.contains("content=\"default-src 'none'; style-src 'unsafe-inline'\""));
    }
}
