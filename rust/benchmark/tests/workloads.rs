//! The workloads are what they say, at lengths far below those measured.
use benchmark::backtracking_parser::{parse, TooManySteps};
use benchmark::workloads::{self, backtracking, banner, bundles::BUNDLES, lines, recursion, texts};
use benchmark::{twin, workloads::building};
use sejimakpu::{Judged, Matching, Reason, Refusal, Verdict, MAX_BUILT_IMAGE, MAX_GRAMMAR};

fn judged(image: &[u8], capture: &[u8]) -> Judged {
    let cells = usize::from(image[24]) * (capture.len() + 2) * usize::from(image[26]);
    twin::judge(image, capture, &mut vec![0; cells], &mut vec![0; cells]).unwrap()
}

#[test]
fn verdicts() {
    for workload in workloads::all().into_iter().chain([banner::workload()]) {
        for n in 2..200 {
            let capture = (workload.capture)(n);
            assert_eq!(capture.len(), n);
            assert_eq!(judged(&workload.image, &capture).verdict, workload.verdict, "{} of {n}", workload.name);
            assert!(judged(&workload.image, &workload.short_capture(n)).readings < 100, "{} of {n}", workload.name);
        }
    }
}

#[test]
fn parser_without_memory() {
    let mut calls_before = 0;
    for n in 0..12 {
        let (accepted, calls) = parse(&backtracking::GRAMMAR, &backtracking::capture(n), 1_000_000).unwrap();
        assert!(accepted && calls > 2 * calls_before, "each byte doubles the calls");
        calls_before = calls;
    }
    assert_eq!(parse(&backtracking::GRAMMAR, &backtracking::capture(30), 1_000_000), Err(TooManySteps));

    // It says what the judge says of captures that are wrong somewhere, too.
    let workload = lines::workload();
    for n in 2..120 {
        let mut capture = (workload.capture)(n);
        capture[n / 2] = b" \n#"[n % 3];
        let (accepted, _) = parse(&lines::GRAMMAR, &capture, 1_000_000).unwrap();
        assert_eq!(judged(&workload.image, &capture).verdict == Verdict::Accepted, accepted, "{n}");
    }
}

#[test]
fn most_rules_and_classes() {
    for matching in [Matching::Whole, Matching::Leading] {
        let mut image = vec![0; MAX_BUILT_IMAGE];
        assert_eq!(twin::build(&building::widest(), matching, &mut image), Ok(MAX_BUILT_IMAGE));
        assert_eq!((image[25], image[26]), (63, 63));
    }
}

/// The banner is left over: the run passes it byte by byte, and the whole capture is no match.
#[test]
fn banners_are_passed() {
    let leading = banner::workload();
    let mut whole = vec![0; MAX_BUILT_IMAGE];
    let length = twin::build(banner::GRAMMAR.as_flattened(), Matching::Whole, &mut whole).unwrap();
    for n in 4..200 {
        let capture = (leading.capture)(n);
        let (one, other) = (judged(&whole[..length], &capture), judged(&leading.image, &capture));
        assert_eq!((one.verdict, one.end.head as usize), (Verdict::Stuck, 1 + n.div_ceil(2)));
        assert_eq!(other.readings - one.readings, n as u32 / 2, "a reading for each byte of the banner");
        assert_eq!((other.verdict, other.end.head as usize), (Verdict::Accepted, n + 1));
    }
}

#[test]
fn texts_are_read_to_their_end() {
    let mut grammar = [0; MAX_GRAMMAR];
    for n in 100..1200 {
        let blanks = texts::blanks(n);
        assert_eq!((blanks.len(), twin::read_grammar(&blanks, &mut grammar)), (n.max(texts::RING.len()), Ok(56)));
        let too_many = Err(Refusal::new(Reason::TextRules, n).into());
        let operators = texts::operators(n);
        assert_eq!(operators.len(), n);
        if n >= 200 {
            assert_eq!(twin::read_grammar(&operators, &mut grammar), too_many, "{n}");
        }
        let names = texts::names(n, n / 32);
        assert_eq!(names.len(), n);
        if n >= 300 {
            assert_eq!(twin::read_grammar(&names, &mut grammar), too_many, "{n}");
        }
    }
}

#[test]
fn left_recursion() {
    for grammar in recursion::grammars() {
        let refusal = grammar.named.map(|rule| Refusal::new(Reason::LeftRecursion, rule).into());
        assert_eq!(twin::check_recursion(grammar.rules.as_flattened()).err(), refusal, "{}", grammar.name);
        assert!(grammar.rules.len() == if grammar.name == "lines" { 12 } else { 31 }, "{}", grammar.name);
    }
    // The ring's lines are rules 0 to 7; one more is rule 8, and the star in it is the last three rules, from 17 on.
    let refusals = [
        None,
        None,
        Some(Refusal::new(Reason::TextRules, 16_000)),
        Some(Refusal::new(Reason::LeftRecursion, 8).with_name(texts::RING.len())),
        Some(Refusal::new(Reason::LeftRecursion, 17).with_name(texts::RING.len())),
    ];
    let texts = recursion::texts();
    assert_eq!(texts.len(), refusals.len());
    for (text, refusal) in texts.iter().zip(refusals) {
        assert_eq!(twin::check_text_recursion(&text.text).err(), refusal.map(Into::into), "{}", text.name);
        assert_eq!(refusal.map_or(0, |refusal| refusal.number()), text.refusal);
    }
}

#[test]
fn bundles_of_all_lengths() {
    let image = lines::workload().image;
    for bundle in &BUNDLES {
        let captures = bundle.make();
        assert_eq!(captures.len(), 64);
        let mut lengths: Vec<usize> = captures.iter().map(Vec::len).collect();
        assert!(!lengths.is_sorted(), "short and long ones take turns");
        lengths.sort_unstable();
        assert_eq!((lengths[0], lengths[63]), (bundle.least, bundle.most));
        assert!(captures.iter().all(|capture| judged(&image, capture).verdict == Verdict::Accepted));
    }
}

#[test]
fn the_ring_is_accepted() {
    for lines in [1, 4, 50] {
        let mut image = vec![0; MAX_BUILT_IMAGE];
        let (mut notes, mut work) = (vec![0; 100_000], vec![0; 100_000]);
        let judged = twin::judge_text(texts::RING, &texts::table(lines), &mut image, &mut notes, &mut work);
        assert_eq!(judged.unwrap().verdict, Verdict::Accepted);
    }
}
