//! Judging by a grammar's image beside parsing itself: the verdict, the most readings there may be, and a leading match
//! beside a whole one.

use crate::compare;
use crate::findings::Findings;
use model::answer::{Config, Judged, Verdict};
use model::building::Matching;
use model::grammar::{self, Part};
use model::parse::{most_readings, parse, parse_from, Parsed};
use model::text::{self, meaning};

/// Parsing that takes more calls is not compared: the judge has no such limit, plain recursion has.
const PARSE_CALLS: usize = 20_000;

/// On captures of up to so many bytes every line of a text is parsed from every place.
const SHORT: usize = 40;

/// The state after a success.
const OK: usize = 2;

/// Readings of a grammar's machine are at most 6 m (n + 1) + 2, and n more for a leading match.
pub fn few_readings(found: &mut Findings, matching: Matching, bytes: &[u8], capture: &[u8], judged: Judged) {
    let bound = most_readings(matching, bytes.len() / 4, capture.len());
    let many = (judged.readings > bound).then(|| format!("{matching:?}: {} readings, over {bound}", judged.readings));
    found.note(many, &[("grammar", bytes), ("capture", capture)]);
}

/// The verdict is what parsing says, and the readings are few.
pub fn parses_so(found: &mut Findings, matching: Matching, bytes: &[u8], capture: &[u8], judged: Judged) {
    few_readings(found, matching, bytes, capture, judged);
    let parts = grammar::read(bytes).expect("it was built");
    let Some(parsed) = parse(&parts, capture, PARSE_CALLS) else { return };
    judged_as(found, parsed, matching, capture, judged, ("grammar", bytes));
}

/// The verdict is the one of what parsing came to.
pub fn judged_as(
    found: &mut Findings,
    parsed: Parsed,
    matching: Matching,
    capture: &[u8],
    judged: Judged,
    input: (&str, &[u8]),
) {
    found.parsed += 1;
    let differs = parsed.verdict(matching, capture.len()) != judged.verdict;
    let words = || format!("{matching:?}: parsed {parsed:?}, judged {}", judged.verdict);
    found.note(differs.then(words), &[input, ("capture", capture)]);
}

/// The verdict is what the text's own equations say; and so is what each line's rule comes to, at every place.
pub fn means_so(found: &mut Findings, text: &[u8], capture: &[u8], judged: Judged, parts: &[Part]) {
    let typed = text::read(text).expect("it was read");
    let meaning = meaning::of(&typed, capture);
    judged_as(found, meaning.line(0, 0), Matching::Whole, capture, judged, ("text", text));
    if capture.len() > SHORT {
        return;
    }
    for (line, place) in (0..typed.bodies.len()).flat_map(|line| (0..=capture.len()).map(move |place| (line, place))) {
        let Some(by_rule) = parse_from(parts, capture, (line, place), PARSE_CALLS) else { continue };
        let means = meaning.line(line, place);
        let differs =
            (means != by_rule).then(|| format!("line {line} at {place}: {means:?}, and {by_rule:?} by its rule"));
        found.note(differs, &[("text", text), ("capture", capture)]);
    }
}

/// What whole comes to tells what leading comes to: where whole is stuck after a success the bytes left over are passed,
/// one reading each, and the run accepts; else nothing differs. So what is accepted whole is accepted leading.
pub fn leads_on(found: &mut Findings, bytes: &[u8], capture: &[u8], whole: Judged, leading: Judged) {
    let told = if whole.verdict == Verdict::Stuck && whole.end.state == OK {
        let head = capture.len() + 1;
        let readings = whole.readings + head - whole.end.head;
        Judged { verdict: Verdict::Accepted, readings, end: Config { head, ..whole.end } }
    } else {
        whole
    };
    let differs = compare::answers("leading, by what whole gives", &told, &leading);
    found.note(differs, &[("grammar", bytes), ("capture", capture)]);
}
