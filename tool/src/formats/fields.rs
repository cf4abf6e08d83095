//! The fields of a judgement, by their names in docs/RECORD.md: one JSON object has them so, and rows are made of them.
use crate::record::{Answer, Judgement, Outcome, Record};
use serde::Serialize;

/// A field that says nothing is null.
#[derive(Serialize)]
pub struct Fields<'a> {
    pub grammar: &'a str,
    pub grammar_sha256: Option<&'a str>,
    pub matching: Option<&'a str>,
    pub verdict: Outcome,
    pub readings: Option<u32>,
    pub end_state: Option<u32>,
    pub end_head: Option<u32>,
    pub end_symbol: Option<u32>,
    pub line: Option<usize>,
    pub column: Option<usize>,
    pub expected: Option<&'a [String]>,
    pub found: Option<&'a str>,
    pub remark: Option<&'a str>,
    pub refusal: Option<u32>,
    pub place: Option<usize>,
    pub error: Option<&'a str>,
}

impl<'a> Fields<'a> {
    pub fn of(record: &'a Record, judgement: &'a Judgement) -> Fields<'a> {
        let machine = &record.machines[judgement.machine];
        let (mut judged, mut refused, mut error) = (None, None, None);
        match &judgement.answer {
            Answer::Judged { readings, end, .. } => judged = Some((*readings, *end)),
            Answer::Refused(refusal) => refused = Some(*refusal),
            Answer::Error(words) => error = Some(words.as_str()),
        }
        let hint = judgement.answer.hint();
        Fields {
            grammar: &machine.grammar,
            grammar_sha256: machine.grammar_sha256.as_deref(),
            matching: machine.matching,
            verdict: judgement.answer.outcome(),
            readings: judged.map(|(readings, _)| readings),
            end_state: judged.map(|(_, end)| end.state),
            end_head: judged.map(|(_, end)| end.head),
            end_symbol: judged.map(|(_, end)| end.symbol),
            line: hint.map(|hint| hint.place.line),
            column: hint.map(|hint| hint.place.column),
            expected: hint.map(|hint| hint.expected.as_slice()),
            found: hint.map(|hint| hint.found.as_str()),
            remark: hint.and_then(|hint| hint.remark.as_deref()),
            refusal: refused.map(|refusal| refusal.number()),
            place: refused.map(|refusal| refusal.place()),
            error,
        }
    }
}
