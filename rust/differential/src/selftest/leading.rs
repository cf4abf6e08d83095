//! A wrong image of a leading match is seen, one mistake each: by its bytes for every small grammar, and by what is judged
//! wherever a run comes to the mistake.

use crate::compare::{building, Building};
use crate::edges::tools::{built, change, pop, LEFT, NONE, RIGHT, STAY};
use crate::exhaustive::{grammar, grammar_count, CAPTURES};
use crate::findings::Findings;
use crate::parsing::{few_readings, judged_as, leads_on, parses_so};
use model::answer::{Config, Judged, Verdict};
use model::building::Matching;
use model::parse::{most_readings, Parsed};
use model::{calls, image, summary};

/// One mistake in what is built, or nowhere one.
#[derive(Clone, Copy, Debug, PartialEq)]
enum Mistake {
    Nowhere,
    OnTheLeftMarkerToo,
    OnSymbolOne,
    LastClassMissing,
    FirstClassMissing,
    MovesLeft,
    Stays,
    ToAnotherState,
    PopsAtOnce,
    /// Where none is chosen the image is that for the whole capture.
    WholeByDefault,
    WholeWithTheRow,
}

use Mistake::*;

/// No run comes to this one: state 2 is entered to the right of the left marker, and none moves left.
const UNREACHED: Mistake = OnTheLeftMarkerToo;

const REACHED: [Mistake; 9] = [
    OnSymbolOne,
    LastClassMissing,
    FirstClassMissing,
    MovesLeft,
    Stays,
    ToAnotherState,
    PopsAtOnce,
    WholeByDefault,
    WholeWithTheRow,
];

/// The image that is built with the mistake.
fn built_with(mistake: Mistake, bytes: &[u8], matching: Matching) -> Vec<u8> {
    match (mistake, matching) {
        (WholeByDefault, Matching::Leading) => return built(bytes, Matching::Whole),
        (WholeWithTheRow, Matching::Whole) => return built(bytes, Matching::Leading),
        (_, Matching::Whole) => return built(bytes, Matching::Whole),
        (_, Matching::Leading) => {}
    }
    let mut image = built(bytes, Matching::Leading);
    let (classes, symbols) = (image[25] as usize, image[26] as usize);
    let mut set = |class: usize, symbol: usize, rule: [u8; 4]| {
        image[288 + 4 * ((2 * (classes + 2) + class) * symbols + symbol)..][..4].copy_from_slice(&rule);
    };
    match mistake {
        OnTheLeftMarkerToo => set(classes, 0, change(2, 0, RIGHT)),
        LastClassMissing => set(classes - 1, 0, NONE),
        FirstClassMissing => set(0, 0, NONE),
        OnSymbolOne => (0..classes).for_each(|class| {
            set(class, 0, NONE);
            set(class, 1, change(2, 1, RIGHT));
        }),
        MovesLeft => (0..classes).for_each(|class| set(class, 0, change(2, 0, LEFT))),
        Stays => (0..classes).for_each(|class| set(class, 0, change(2, 0, STAY))),
        ToAnotherState => (0..classes).for_each(|class| set(class, 0, change(4, 0, RIGHT))),
        PopsAtOnce => (0..classes).for_each(|class| set(class, 0, pop(4))),
        Nowhere | WholeByDefault | WholeWithTheRow => {}
    }
    image
}

/// All grammars of one rule and of two.
fn small_grammars() -> Vec<Vec<u8>> {
    (1..=2).flat_map(|rules| (0..grammar_count(rules)).map(move |number| grammar(rules, number))).collect()
}

/// Whether the comparison of what is built tells the mistake from what is right, for one of the matchings.
fn built_apart(mistake: Mistake, bytes: &[u8]) -> bool {
    let left = |image: Vec<u8>| Building { answer: Ok(image.len()), buffer: [image, vec![9; 5]].concat() };
    Matching::BOTH.iter().any(|&matching| {
        let (right, wrong) = (built(bytes, matching), built_with(mistake, bytes, matching));
        building("build", &left(right), &left(wrong)).is_some()
    })
}

/// How many differences are noted where all captures are judged by the images with the mistake, beside parsing.
fn judged_apart(mistake: Mistake, bytes: &[u8]) -> usize {
    let mut found = Findings::default();
    for capture in CAPTURES {
        for matching in Matching::BOTH {
            let image = built_with(mistake, bytes, matching);
            let outcome = summary::judge(image::read(&image).expect("such a rule is good"), capture);
            let (mut notes, mut work) = (outcome.notes.clone(), outcome.notes.clone());
            let judged = calls::judge_answer(&outcome, &mut notes, &mut work);
            parses_so(&mut found, matching, bytes, capture, judged);
        }
    }
    found.differences.len()
}

#[test]
fn every_mistake_is_seen() {
    let grammars = small_grammars();
    let by_image = |mistake| grammars.iter().filter(|bytes| built_apart(mistake, bytes)).count();
    let by_verdict = |mistake| grammars.iter().map(|bytes| judged_apart(mistake, bytes)).sum::<usize>();
    assert_eq!((by_image(Nowhere), by_verdict(Nowhere)), (0, 0), "these are the images");
    for mistake in REACHED {
        assert_eq!(by_image(mistake), grammars.len(), "{mistake:?}");
        assert!(by_verdict(mistake) > 100, "{mistake:?}");
    }
    assert_eq!((by_image(UNREACHED), by_verdict(UNREACHED)), (grammars.len(), 0), "the bytes alone show it");
}

/// Whether something is noted.
fn seen(note: impl FnOnce(&mut Findings)) -> bool {
    let mut found = Findings::default();
    note(&mut found);
    !found.differences.is_empty()
}

fn judged(verdict: Verdict, readings: usize, head: usize) -> Judged {
    Judged { verdict, readings, end: Config { state: 2, head, symbol: 0 } }
}

#[test]
fn every_wrong_verdict_is_seen() {
    use Verdict::{Accepted, Ended, Halted, Looping, Stuck};
    for (parsed, whole, leading) in [
        (Parsed::Rest(3), Accepted, Accepted),
        (Parsed::Rest(2), Stuck, Accepted),
        (Parsed::Rest(0), Stuck, Accepted),
        (Parsed::Failure, Stuck, Stuck),
        (Parsed::NoResult, Looping, Looping),
    ] {
        for (matching, right) in [(Matching::Whole, whole), (Matching::Leading, leading)] {
            for verdict in [Accepted, Ended, Stuck, Looping, Halted] {
                let judged = judged(verdict, 9, 1);
                let noted = seen(|found| judged_as(found, parsed, matching, b"abc", judged, ("grammar", b"")));
                assert_eq!(noted, verdict != right, "{parsed:?}, {matching:?}, {verdict}");
            }
        }
    }
}

#[test]
fn too_many_readings_are_seen() {
    // Two rules on three bytes.
    assert_eq!(Matching::BOTH.map(|matching| most_readings(matching, 2, 3)), [50, 53]);
    for (matching, readings, many) in [
        (Matching::Whole, 50, false),
        (Matching::Whole, 51, true),
        (Matching::Leading, 53, false),
        (Matching::Leading, 54, true),
    ] {
        let judged = judged(Verdict::Accepted, readings, 4);
        assert_eq!(seen(|found| few_readings(found, matching, &[0; 8], b"abc", judged)), many, "{matching:?}");
    }
}

#[test]
fn a_leading_match_that_does_not_go_with_the_whole_one_is_seen() {
    use Verdict::{Accepted, Looping, Stuck};
    let apart = |whole, leading| seen(|found| leads_on(found, b"", b"abc", whole, leading));
    // Stuck after a success before three bytes, two, one.
    for head in 1..=3 {
        let whole = judged(Stuck, 9, head);
        assert!(!apart(whole, judged(Accepted, 9 + 4 - head, 4)));
        for leading in [
            whole,
            judged(Accepted, 9, 4),
            judged(Accepted, 9 + 3 - head, 4),
            judged(Accepted, 9 + 5 - head, 4),
            judged(Accepted, 9 + 4 - head, 3),
            judged(Stuck, 9 + 4 - head, 4),
            judged(Looping, 9, head),
        ] {
            assert!(apart(whole, leading), "{leading:?}");
        }
    }
    let failed = Judged { end: Config { state: 3, head: 1, symbol: 0 }, ..judged(Stuck, 9, 1) };
    for whole in [judged(Accepted, 9, 4), failed, judged(Looping, 9, 1)] {
        assert!(!apart(whole, whole));
        for leading in [judged(Accepted, 12, 4), judged(Stuck, 9, 4), judged(Looping, 10, 1)] {
            assert!(apart(whole, leading), "{whole:?} and {leading:?}");
        }
    }
}
