//! JUnit's XML: a test case for each capture and grammar. A verdict that is not accepted is a failure; what was not judged is an error.
use crate::record::{self, Answer, Capture, Machine, Outcome, Record};
use quick_xml::events::{BytesDecl, BytesEnd, BytesStart, BytesText, Event};
use quick_xml::Writer;
use std::io::{self, Write};

/// What a test case is told to be: nothing where it passed.
enum Told {
    Passed,
    Failure(String),
    Error(String),
}

struct Case {
    class: String,
    name: String,
    told: Told,
}

fn told(answer: &Answer) -> Told {
    match answer {
        Answer::Judged { .. } if answer.outcome() == Outcome::Accepted => Told::Passed,
        Answer::Judged { readings, end, hint, .. } => {
            let mut words = answer.outcome().word().to_string();
            if let Some(hint) = hint {
                words += &format!(": line {}, column {}: {}", hint.place.line, hint.place.column, hint.words());
            }
            let (state, head, symbol) = (end.state, end.head, end.symbol);
            Told::Failure(words + &format!(" (readings {readings}, end {state} {head} {symbol})"))
        }
        Answer::Refused(refusal) => Told::Error(refusal.to_string()),
        Answer::Error(error) => Told::Error(error.clone()),
    }
}

/// The grammar's name. One grammar may judge by both matchings, and no two cases may have one name.
fn name(machine: &Machine) -> String {
    match machine.matching {
        Some("leading") => format!("{} (leading)", machine.grammar),
        _ => machine.grammar.clone(),
    }
}

fn cases(record: &Record, capture: &Capture) -> Vec<Case> {
    let class = capture.name().to_string();
    if capture.judgements.is_empty() {
        let error = capture.error.clone().unwrap_or_else(|| "it was judged by no grammar".into());
        return vec![Case { name: class.clone(), class, told: Told::Error(error) }];
    }
    let case = |judgement: &record::Judgement| Case {
        class: class.clone(),
        name: name(&record.machines[judgement.machine]),
        told: told(&judgement.answer),
    };
    capture.judgements.iter().map(case).collect()
}

/// The failure of the writing itself, as the other forms tell it.
fn failure(error: quick_xml::Error) -> io::Error {
    match error {
        quick_xml::Error::Io(error) => {
            error.raw_os_error().map_or_else(|| error.kind().into(), io::Error::from_raw_os_error)
        }
        other => io::Error::other(other),
    }
}

pub fn write(record: &Record, out: &mut dyn Write) -> io::Result<()> {
    let cases: Vec<Case> = record.captures.iter().flat_map(|capture| cases(record, capture)).collect();
    let count = |of: fn(&Told) -> bool| cases.iter().filter(|case| of(&case.told)).count().to_string();
    let failures = count(|told| matches!(told, Told::Failure(_)));
    let errors = count(|told| matches!(told, Told::Error(_)));
    let tests = cases.len().to_string();

    let mut writer = Writer::new_with_indent(&mut *out, b' ', 2);
    let mut put = |event| writer.write_event(event).map_err(failure);
    put(Event::Decl(BytesDecl::new("1.0", Some("UTF-8"), None)))?;
    let mut suite = BytesStart::new("testsuite");
    let started = record::time(record.started);
    let counts = [("tests", &tests), ("failures", &failures), ("errors", &errors), ("timestamp", &started)];
    suite.push_attribute(("name", "sejimakpu"));
    counts.into_iter().for_each(|(key, value)| suite.push_attribute((key, value.as_str())));
    put(Event::Start(suite))?;

    put(Event::Start(BytesStart::new("properties")))?;
    let by = &record.judged_by;
    for (name, value) in [
        ("tool_version", by.tool_version),
        ("tool_commit", by.tool_commit),
        ("archive_version", by.archive_version),
        ("archive_sha256", by.archive_sha256),
    ] {
        put(Event::Empty(BytesStart::new("property").with_attributes([("name", name), ("value", value)])))?;
    }
    put(Event::End(BytesEnd::new("properties")))?;

    for case in &cases {
        let start = BytesStart::new("testcase")
            .with_attributes([("classname", case.class.as_str()), ("name", case.name.as_str())]);
        let (element, words) = match &case.told {
            Told::Passed => {
                put(Event::Empty(start))?;
                continue;
            }
            Told::Failure(words) => ("failure", words),
            Told::Error(words) => ("error", words),
        };
        put(Event::Start(start))?;
        put(Event::Start(BytesStart::new(element).with_attributes([("message", words.as_str())])))?;
        put(Event::Text(BytesText::new(words)))?;
        put(Event::End(BytesEnd::new(element)))?;
        put(Event::End(BytesEnd::new("testcase")))?;
    }
    put(Event::End(BytesEnd::new("testsuite")))?;
    writeln!(out)
}
