//! The checks for left recursion, of a grammar and of a text, by the library and by the twin.
use crate::measure::{alternate, Times};
use crate::table::{grouped, Table};
use crate::twin;
use crate::workloads::recursion;
use sejimakpu::{Error, Reason};
use std::{hint::black_box, time::Duration};

const LONG: Duration = Duration::from_millis(400);

type Check = fn(&[u8]) -> Result<(), Error>;

/// Measures the check of grammars and prints a table.
pub fn grammars() {
    let mut table = Table::new(&["left recursion", "rules", "answer", "judge ns", "twin ns", "ratio"]);
    for grammar in recursion::grammars() {
        let calls: [Check; 2] = [sejimakpu::check_recursion, twin::check_recursion];
        let checked = compare(calls, grammar.rules.as_flattened());
        let named = checked.err().and_then(|error| error.refusal()).map(|refusal| (refusal.reason(), refusal.place()));
        assert_eq!(named, grammar.named.map(|rule| (Reason::LeftRecursion, rule)), "{}", grammar.name);
        let [judge, twin] = time(calls, grammar.rules.as_flattened());
        table.row(vec![
            grammar.name.into(),
            grammar.rules.len().to_string(),
            answer(checked),
            format!("{:.1}", judge.least()),
            format!("{:.1}", twin.least()),
            format!("{:.2}", judge.least() / twin.least()),
        ]);
    }
    table.print();
}

/// Measures the check of texts and prints a table.
pub fn texts() {
    let mut table = Table::new(&["left recursion, texts", "bytes", "answer", "judge us", "twin us", "ratio"]);
    for text in recursion::texts() {
        let calls: [Check; 2] = [sejimakpu::check_text_recursion, twin::check_text_recursion];
        let checked = compare(calls, &text.text);
        let number = checked.err().and_then(|error| error.refusal()).map_or(0, |refusal| refusal.number());
        assert_eq!(number, text.refusal, "{}", text.name);
        let [judge, twin] = time(calls, &text.text);
        table.row(vec![
            text.name.into(),
            grouped(text.text.len()),
            answer(checked),
            format!("{:.2}", judge.least() / 1e3),
            format!("{:.2}", twin.least() / 1e3),
            format!("{:.2}", judge.least() / twin.least()),
        ]);
    }
    table.print();
}

/// Checks by both, and fails unless they answer the same.
fn compare([library, twin]: [Check; 2], input: &[u8]) -> Result<(), Error> {
    let checked = library(input);
    assert_eq!(twin(input), checked, "both answer the same");
    checked
}

fn answer(checked: Result<(), Error>) -> String {
    match checked {
        Ok(()) => "passes".into(),
        Err(error) => error.refusal().map_or(error.to_string(), |refusal| {
            let name = refusal.name().map_or(String::new(), |name| format!(" at {name}"));
            format!("refused {} {}{name}", refusal.number(), grouped(refusal.place()))
        }),
    }
}

fn time([library, twin]: [Check; 2], mut input: &[u8]) -> [Times; 2] {
    let call = |check: Check, input: &[u8]| {
        let _ = black_box(check(black_box(input)));
    };
    alternate(LONG, &mut input, [&|input| call(library, input), &|input| call(twin, input)])
}
