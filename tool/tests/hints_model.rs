//! Verdicts and hints beside a parser of a few lines that was written apart from the tool: pseudo-random grammars and
//! captures, by whole and leading matching.
use crate::common::*;
use serde_json::Value;
use std::collections::{BTreeMap, BTreeSet};

type Rule = [u8; 4];

/// What a rule that was tried at a place came to: up to where it matched, or none where it failed.
type Result = Option<usize>;

struct Model<'a> {
    rules: &'a [Rule],
    capture: &'a [u8],
    /// None while a rule is being tried.
    results: BTreeMap<(usize, usize), Option<Result>>,
    met: BTreeSet<(usize, usize, bool)>,
    wanted: Vec<(usize, String)>,
}

impl Model<'_> {
    /// Parsing; an error where a rule is met again at the place where it is being tried.
    fn parse(&mut self, rule: usize, place: usize) -> std::result::Result<Result, ()> {
        match self.results.get(&(rule, place)) {
            Some(Some(result)) => return Ok(*result),
            Some(None) => return Err(()),
            None => {}
        }
        self.results.insert((rule, place), None);
        let [kind, b, c, _] = self.rules[rule];
        let (first, second) = (usize::from(b), usize::from(c));
        let result = match kind {
            1 => match self.parse(first, place)? {
                Some(end) => self.parse(second, end)?,
                None => None,
            },
            2 => match self.parse(first, place)? {
                Some(end) => Some(end),
                None => self.parse(second, place)?,
            },
            3 => self.parse(first, place)?.is_none().then_some(place),
            4 => Some(place),
            _ => self.capture.get(place).filter(|&&byte| b <= byte && byte <= c).map(|_| place + 1),
        };
        self.results.insert((rule, place), Some(result));
        Ok(result)
    }

    fn result(&self, rule: usize, place: usize) -> Result {
        self.results[&(rule, place)].unwrap()
    }

    /// Notes what failed, but under an odd count of nots.
    fn walk(&mut self, rule: usize, place: usize, odd: bool) {
        if !self.met.insert((rule, place, odd)) {
            return;
        }
        let [kind, b, c, _] = self.rules[rule];
        let (first, second) = (usize::from(b), usize::from(c));
        if self.result(rule, place).is_none() && !odd {
            let words = match (kind, self.rules.get(first)) {
                (5, _) if b <= c => Some(format!("{} (rule {rule})", range(b, c))),
                (3, Some([5, 0, 255, _])) => Some("the end of the capture".into()),
                (3, Some([5, low, high, _])) => Some(format!("no {} (rule {rule})", range(*low, *high))),
                (3, _) => Some(format!("no rule {first} (rule {rule})")),
                _ => None,
            };
            self.wanted.extend(words.map(|words| (place, words)));
        }
        match kind {
            1 => {
                self.walk(first, place, odd);
                if let Some(end) = self.result(first, place) {
                    self.walk(second, end, odd);
                }
            }
            2 => {
                self.walk(first, place, odd);
                if self.result(first, place).is_none() {
                    self.walk(second, place, odd);
                }
            }
            3 => self.walk(first, place, !odd),
            _ => {}
        }
    }
}

fn range(low: u8, high: u8) -> String {
    let shown = |byte| if byte == b'\n' { "'\\n'".into() } else { format!("'{}'", char::from(byte)) };
    match (low, high) {
        (0, 255) => "any byte".into(),
        _ if low == high => shown(low),
        _ => format!("{}-{}", shown(low), shown(high)),
    }
}

/// The verdict, and where it is stuck the furthest place and what was expected there. Empty where that is only a not of a
/// rule that is no range: how that is worded is not asked here.
fn modelled(rules: &[Rule], capture: &[u8], leading: bool) -> (&'static str, usize, BTreeSet<String>) {
    let mut model = Model { rules, capture, results: BTreeMap::new(), met: BTreeSet::new(), wanted: Vec::new() };
    let verdict = match model.parse(0, 0) {
        Err(()) => "looping",
        Ok(Some(end)) if leading || end == capture.len() => "accepted",
        Ok(_) => "stuck",
    };
    if verdict != "stuck" {
        return (verdict, 0, BTreeSet::new());
    }
    model.walk(0, 0, false);
    if let Some(end) = model.result(0, 0) {
        model.wanted.push((end, "the end of the capture".into()));
    }
    let furthest = model.wanted.iter().map(|(place, _)| *place).max().unwrap_or(0);
    let at = model.wanted.into_iter().filter(|(place, _)| *place == furthest);
    let mut words: BTreeSet<String> =
        at.map(|(_, words)| words).filter(|words| !words.starts_with("no rule")).collect();
    if words.iter().any(|words| !words.starts_with("any byte")) {
        words.retain(|words| !words.starts_with("any byte"));
    }
    (verdict, furthest, words)
}

fn grammar(numbers: &mut Numbers) -> Vec<Rule> {
    let count = 1 + numbers.below(9);
    let rule = |numbers: &mut Numbers| {
        let (b, c) = (numbers.below(count) as u8, numbers.below(count) as u8);
        match numbers.below(12) {
            0..=3 => [1, b, c, 0],
            4..=5 => [2, b, c, 0],
            6 => [3, b, 0, 0],
            7 => [4, 0, 0, 0],
            _ => {
                let (low, high) = [(b'a', b'a'), (b'b', b'b'), (b'a', b'b'), (0, 255), (b'\n', b'\n'), (b'b', b'a')]
                    [numbers.below(6)];
                [5, low, high, 0]
            }
        }
    };
    (0..count).map(|_| rule(numbers)).collect()
}

#[test]
fn verdicts_and_hints_are_the_models() {
    let mut numbers = Numbers(20);
    let folder = Folder::new();
    let mut met: BTreeMap<&str, usize> = BTreeMap::new();
    for round in 0..400 {
        // One that loops or accepts everything at once says little; take the first of some that does not.
        let rules = (0..200).map(|_| grammar(&mut numbers)).find(|rules| {
            let verdicts = ["", "a", "ab", "ba\n"].map(|capture| modelled(rules, capture.as_bytes(), false).0);
            verdicts.iter().all(|verdict| *verdict != "looping") && verdicts.contains(&"stuck") || round % 20 == 0
        });
        let rules = rules.unwrap();
        let leading = round % 4 == 3;
        folder.file("g.grammar", rules.as_flattened());
        let captures: Vec<Vec<u8>> =
            (0..12).map(|length| (0..length).map(|_| b"ab\nabb"[numbers.below(6)]).collect()).collect();
        for (number, capture) in captures.iter().enumerate() {
            folder.file(format!("captures/{number:02}"), capture);
        }
        let options = if leading { "--leading" } else { "" };
        let ran = folder.words(&format!("judge {options} -g g.grammar -f json captures"));
        let record: Value = serde_json::from_str(&ran.stdout).unwrap();
        for (number, capture) in captures.iter().enumerate() {
            let (verdict, place, words) = modelled(&rules, capture, leading);
            let judged = &record["captures"][number]["judgements"][0];
            let about = format!("{rules:?} on {:?}, leading {leading}", String::from_utf8_lossy(capture));
            assert_eq!(judged["verdict"], verdict, "{about}");
            *met.entry(verdict).or_default() += 1;
            if words.is_empty() {
                continue;
            }
            *met.entry("hints").or_default() += 1;
            let line = 1 + capture[..place].iter().filter(|&&byte| byte == b'\n').count();
            let column =
                place + 1 - capture[..place].iter().rposition(|&byte| byte == b'\n').map_or(0, |feed| feed + 1);
            let found = capture.get(place).map_or("the end of the capture".into(), |&byte| range(byte, byte));
            let expected: BTreeSet<String> = judged["expected"]
                .as_array()
                .unwrap()
                .iter()
                .map(|words| words.as_str().unwrap().to_string())
                .filter(|words| !words.starts_with("no rule"))
                .collect();
            assert_eq!((&judged["line"], &judged["column"]), (&line.into(), &column.into()), "{about}");
            assert_eq!(judged["found"], found.as_str(), "{about}");
            assert_eq!(expected, words, "{about}");
        }
    }
    // So many of each were met that something was asked.
    assert!(met["accepted"] > 200 && met["looping"] > 20 && met["stuck"] > 2_000 && met["hints"] > 2_000, "{met:?}");
}
