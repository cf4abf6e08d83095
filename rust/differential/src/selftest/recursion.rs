//! A wrong check for left recursion is seen: the definitions with one mistake each, over grammars and texts that are compared.

use crate::compare::{answers, checking, Checking};
use crate::findings::Findings;
use crate::recursion::{ends, small_count, small_grammar, Seen, SMALL};
use crate::rng::Rng;
use crate::sides::{old_checking, put_checked};
use crate::texts;
use model::answer::{Refusal, Verdict};
use model::grammar::{self, Part};
use model::recursion::{check, check_text, TextRefusal};
use model::text::{self, Typed};

/// One mistake in the definitions, or nowhere one.
#[derive(Clone, Copy, Debug, PartialEq)]
enum Mistake {
    Nowhere,
    SecondPartForgotten,
    SecondPartAlways,
    NotIsNeverNothing,
    NotLeadsNowhere,
    SequenceIsNothingByOnePart,
    ChoiceIsNothingByBothParts,
    ChoiceLeadsToItsFirst,
    ChoiceLeadsToItsSecond,
    RangeOfNoByteIsNothing,
    OneRoundOfNothing,
    GreatestSetOfNothing,
    OneStep,
    FromRuleZeroAlone,
    LeadsIntoACircle,
    Highest,
    Offset,
}

use Mistake::*;

const MISTAKES: [Mistake; 16] = [
    SecondPartForgotten,
    SecondPartAlways,
    NotIsNeverNothing,
    NotLeadsNowhere,
    SequenceIsNothingByOnePart,
    ChoiceIsNothingByBothParts,
    ChoiceLeadsToItsFirst,
    ChoiceLeadsToItsSecond,
    RangeOfNoByteIsNothing,
    OneRoundOfNothing,
    GreatestSetOfNothing,
    OneStep,
    FromRuleZeroAlone,
    LeadsIntoACircle,
    Highest,
    Offset,
];

fn matching_nothing(mistake: Mistake, rules: &[Part]) -> Vec<bool> {
    let mut nothing = vec![mistake == GreatestSetOfNothing; rules.len()];
    let rounds = if mistake == OneRoundOfNothing { 1 } else { rules.len() };
    for _ in 0..rounds {
        let may = |part: &Part| match *part {
            Part::Empty => true,
            Part::Not(_) => mistake != NotIsNeverNothing,
            Part::Sequence(b, c) if mistake == SequenceIsNothingByOnePart => nothing[b] || nothing[c],
            Part::Sequence(b, c) => nothing[b] && nothing[c],
            Part::Choice(b, c) if mistake == ChoiceIsNothingByBothParts => nothing[b] && nothing[c],
            Part::Choice(b, c) => nothing[b] || nothing[c],
            Part::Byte(low, high) => mistake == RangeOfNoByteIsNothing && low > high,
        };
        nothing = rules.iter().map(may).collect();
    }
    nothing
}

fn leads_to(mistake: Mistake, part: Part, nothing: &[bool]) -> Vec<usize> {
    match part {
        Part::Sequence(b, _) if mistake == SecondPartForgotten => vec![b],
        Part::Sequence(b, c) if mistake == SecondPartAlways || nothing[b] => vec![b, c],
        Part::Sequence(b, _) => vec![b],
        Part::Choice(b, _) if mistake == ChoiceLeadsToItsFirst => vec![b],
        Part::Choice(_, c) if mistake == ChoiceLeadsToItsSecond => vec![c],
        Part::Choice(b, c) => vec![b, c],
        Part::Not(_) if mistake == NotLeadsNowhere => vec![],
        Part::Not(b) => vec![b],
        Part::Empty | Part::Byte(..) => vec![],
    }
}

/// The check of a good grammar, with the mistake.
fn check_with(mistake: Mistake, bytes: &[u8]) -> Result<(), Refusal> {
    let rules = grammar::read(bytes)?;
    let nothing = matching_nothing(mistake, &rules);
    let steps = if mistake == OneStep { 1 } else { rules.len() };
    // All that is come to from a rule, by one step or more.
    let reach = |rule: usize| {
        let mut met = leads_to(mistake, rules[rule], &nothing);
        for _ in 1..steps {
            let further: Vec<usize> = met.iter().flat_map(|&at| leads_to(mistake, rules[at], &nothing)).collect();
            met.extend(further);
            met.sort_unstable();
            met.dedup();
        }
        met
    };
    let leads_back = |rule: usize| match mistake {
        FromRuleZeroAlone => reach(rule).contains(&rule) && (rule == 0 || reach(0).contains(&rule)),
        LeadsIntoACircle => reach(rule).into_iter().chain([rule]).any(|at| reach(at).contains(&at)),
        _ => reach(rule).contains(&rule),
    };
    let mut named = (0..rules.len()).filter(|&rule| leads_back(rule));
    let rule = if mistake == Highest { named.next_back() } else { named.next() };
    match rule {
        None => Ok(()),
        Some(rule) => Err(Refusal { number: 19, place: if mistake == Offset { 4 * rule } else { rule } }),
    }
}

/// Whether the comparison of what the archive's function leaves tells the two apart, and that of what the wrapper says.
fn told_apart(right: Result<(), TextRefusal>, wrong: Result<(), TextRefusal>) -> bool {
    let old = old_checking(&mut Rng::of_case(5, 6));
    let (mut left, mut other) = (old, old);
    put_checked(&mut left, &right);
    put_checked(&mut other, &wrong);
    let seen = checking("check", &left, &other).is_some();
    assert_eq!(answers("check", &right, &wrong).is_some(), seen, "{right:?} and {wrong:?}");
    seen
}

/// How many of the small grammars show the mistake.
fn shown_by(mistake: Mistake) -> usize {
    let numbers = (1..=SMALL).flat_map(|rules| (0..small_count(rules)).map(move |number| (rules, number)));
    let grammars = numbers.map(|(rules, number)| small_grammar(rules, number));
    let checked = |by: Result<(), Refusal>| by.map_err(TextRefusal::from);
    grammars.filter(|bytes| told_apart(checked(check(bytes)), checked(check_with(mistake, bytes)))).count()
}

#[test]
fn every_mistake_is_seen() {
    assert_eq!(shown_by(Nowhere), 0, "these are the definitions");
    for mistake in MISTAKES {
        assert!(shown_by(mistake) > 0, "{mistake:?}");
    }
}

/// A mistake in the name that is told of a rule, or none.
#[derive(Clone, Copy, Debug, PartialEq)]
enum WrongName {
    Right,
    FirstLine,
    LastLine,
    LineBefore,
    LineAfter,
    /// As if a line's own rule stood among its helper rules.
    OwnRuleAmongHelpers,
    BlanksBeforeIt,
    BehindIt,
}

fn name_with(wrong: WrongName, text: &[u8], typed: &Typed, rule: usize) -> usize {
    let of_rules = typed.line_of_each_rule();
    let (line, last) = (of_rules[rule], typed.names.len() - 1);
    let blanks = |name: usize| text[..name].iter().rev().take_while(|&&byte| byte == b' ' || byte == b'\n').count();
    match wrong {
        WrongName::Right => typed.names[line],
        WrongName::FirstLine => typed.names[0],
        WrongName::LastLine => typed.names[last],
        WrongName::LineBefore => typed.names[line.saturating_sub(1)],
        WrongName::LineAfter => typed.names[last.min(line + 1)],
        WrongName::OwnRuleAmongHelpers => {
            let mut sorted = of_rules.clone();
            sorted.sort_unstable();
            typed.names[if rule <= last { rule } else { sorted[rule - last - 1] }]
        }
        WrongName::BlanksBeforeIt => typed.names[line] - blanks(typed.names[line]),
        WrongName::BehindIt => typed.names[line] + 1,
    }
}

/// How many of some random texts show the mistake.
fn texts_that_show(wrong: WrongName) -> usize {
    let drawn = (0..3000).map(|case| texts::good(&mut Rng::of_case(7, case)));
    let shows = |text: &Vec<u8>| {
        let right = check_text(text);
        let Err(TextRefusal { refusal, name: Some(_) }) = right else { return false };
        let typed = text::read(text).expect("it was read");
        told_apart(right, Err(TextRefusal { refusal, name: Some(name_with(wrong, text, &typed, refusal.place)) }))
    };
    drawn.filter(shows).count()
}

#[test]
fn every_wrong_name_is_seen() {
    use WrongName::{BehindIt, BlanksBeforeIt, FirstLine, LastLine, LineAfter, LineBefore, OwnRuleAmongHelpers};
    assert_eq!(texts_that_show(WrongName::Right), 0);
    for wrong in [FirstLine, LastLine, LineBefore, LineAfter, OwnRuleAmongHelpers, BlanksBeforeIt, BehindIt] {
        assert!(texts_that_show(wrong) > 0, "{wrong:?}");
    }
}

#[test]
fn every_wrong_number_of_a_check_is_seen() {
    let mut right = old_checking(&mut Rng::of_case(8, 9));
    let old = right.cells;
    let refusal = Refusal { number: 19, place: 4 };
    put_checked(&mut right, &Err(TextRefusal { refusal, name: Some(17) }));
    // One on either side of what was lent stays.
    assert_eq!((right.returned, right.cells), (19, [old[0], 4, 0, 17, 0, 0, 0, old[7]]));
    assert_eq!(checking("check", &right, &right.clone()), None);
    for at in 0..8 {
        let mut wrong = right;
        wrong.cells[at] ^= 1 << 63;
        assert!(checking("check", &right, &wrong).is_some(), "{at}");
    }
    for returned in [0, 12, 18, 20] {
        assert!(checking("check", &right, &Checking { returned, ..right }).is_some());
    }
    put_checked(&mut right, &Ok(()));
    assert_eq!((right.returned, right.cells), (0, [old[0], 0, 0, 0, 0, 0, 0, old[7]]));
}

#[test]
fn looping_after_a_pass_is_seen() {
    for (passed, verdict, seen) in
        [(true, Verdict::Looping, true), (true, Verdict::Stuck, false), (false, Verdict::Looping, false)]
    {
        let mut found = Findings::default();
        ends(&mut found, passed, verdict, &[]);
        assert_eq!(!found.differences.is_empty(), seen);
        assert_eq!(found.recursion.judged, passed as usize);
    }
}

#[test]
fn a_count_of_none_is_seen() {
    let full = Seen { passed: 1, judged: 1, named: [1; 31], looping: 1, ending: 1 };
    let seen = |spoil: &dyn Fn(&mut Seen)| {
        let mut seen = full.clone();
        spoil(&mut seen);
        let (mut small, mut random) = (Findings::default(), Findings::default());
        seen.enough_small(&mut small);
        seen.enough(&mut random, 31);
        (!small.differences.is_empty(), !random.differences.is_empty())
    };
    assert_eq!(seen(&|_| ()), (false, false));
    assert_eq!(seen(&|seen| seen.passed = 0), (true, true));
    assert_eq!(seen(&|seen| seen.judged = 0), (true, true));
    assert_eq!(seen(&|seen| seen.named[2] = 0), (true, true));
    assert_eq!(seen(&|seen| seen.named[30] = 0), (false, true));
    assert_eq!(seen(&|seen| seen.looping = 0), (true, false));
    assert_eq!(seen(&|seen| seen.ending = 0), (true, false));
}
