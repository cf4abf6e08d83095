//! The document's table C1 to C10, and what each matching means, held against the model itself.

use model::answer::{Config, Judged, Verdict};
use model::building::{self, Matching};
use model::grammar::Part;
use model::image::{read, write, Parts};
use model::parse::{most_readings, parse, Parsed};
use model::{calls, grammar, plain, program, summary, walk};

fn built(bytes: &[u8]) -> Vec<u8> {
    building::build(&grammar::read(bytes).unwrap(), Matching::Whole)
}

/// Judges both ways, runs plainly, and compares with a row of the table. No steps: the run has no end.
fn row(
    image: &[u8],
    capture: &[u8],
    verdict: Verdict,
    readings: usize,
    end: (usize, usize, usize),
    steps: Option<u64>,
) {
    let machine = read(image).unwrap();
    let outcome = walk::judge(machine, capture, 1000).unwrap().outcome;
    assert_eq!(outcome, summary::judge(machine, capture));
    let (mut notes, mut work) = (outcome.notes.clone(), outcome.notes.clone());
    let judged = calls::judge_answer(&outcome, &mut notes, &mut work);
    let end = Config { state: end.0, head: end.1, symbol: end.2 };
    assert_eq!((judged.verdict, judged.readings, judged.end), (verdict, readings, end));
    let ran = plain::run(machine, capture, 1000, 2000);
    match steps {
        Some(steps) => assert_eq!((ran.verdict, ran.steps, ran.reached), (verdict, steps, end)),
        None => assert_eq!((ran.verdict, ran.steps), (Verdict::Spent, 1000)),
    }
}

#[test]
fn the_table() {
    use Verdict::*;
    let empty = built(&[4, 0, 0, 0]);
    row(&empty, b"", Accepted, 3, (2, 1, 0), Some(3));
    row(&empty, b"a", Stuck, 3, (2, 1, 0), Some(2));
    let byte = built(&[5, 0x61, 0x61, 0]);
    row(&byte, b"a", Accepted, 4, (2, 2, 0), Some(4));
    row(&byte, b"b", Stuck, 3, (3, 1, 0), Some(2));
    row(&built(&[1, 0, 0, 0]), b"", Looping, 2, (1, 1, 1), None);
    row(&built(&[1, 1, 1, 0, 1, 2, 2, 0, 4, 0, 0, 0]), b"", Accepted, 11, (2, 1, 0), Some(18));
    let not = built(&[3, 1, 0, 0, 5, 0x61, 0x61, 0]);
    row(&not, b"", Accepted, 5, (2, 1, 0), Some(5));
    row(&not, b"a", Stuck, 6, (3, 1, 0), Some(5));
    row(&built(&[2, 1, 2, 0, 5, 0x61, 0x61, 0, 4, 0, 0, 0]), b"", Accepted, 8, (2, 1, 0), Some(8));
    let rules = vec![[0; 4], [3, 0, 0, 0], [0; 4]];
    let pops = write(&Parts { states: 1, classes: 1, symbols: 1, finals: 0, class_map: [0; 256], rules });
    row(&pops, b"", Ended, 1, (0, 0, 0), Some(1));
}

/// C1 to C9 where only the beginning has to match: C2 alone has another answer, by a step over its byte.
#[test]
fn the_table_for_a_leading_match() {
    use Verdict::*;
    let built = |bytes: &[u8]| building::build(&grammar::read(bytes).unwrap(), Matching::Leading);
    let empty = built(&[4, 0, 0, 0]);
    row(&empty, b"", Accepted, 3, (2, 1, 0), Some(3));
    row(&empty, b"a", Accepted, 4, (2, 2, 0), Some(4));
    let byte = built(&[5, 0x61, 0x61, 0]);
    row(&byte, b"a", Accepted, 4, (2, 2, 0), Some(4));
    row(&byte, b"b", Stuck, 3, (3, 1, 0), Some(2));
    row(&built(&[1, 0, 0, 0]), b"", Looping, 2, (1, 1, 1), None);
    row(&built(&[1, 1, 1, 0, 1, 2, 2, 0, 4, 0, 0, 0]), b"", Accepted, 11, (2, 1, 0), Some(18));
    let not = built(&[3, 1, 0, 0, 5, 0x61, 0x61, 0]);
    row(&not, b"", Accepted, 5, (2, 1, 0), Some(5));
    row(&not, b"a", Stuck, 6, (3, 1, 0), Some(5));
    row(&built(&[2, 1, 2, 0, 5, 0x61, 0x61, 0, 4, 0, 0, 0]), b"", Accepted, 8, (2, 1, 0), Some(8));
    // A byte that matches and three that are left over, of both classes: three readings and three steps more.
    row(&byte, b"abba", Accepted, 7, (2, 5, 0), Some(7));
    row(&empty, b"abba", Accepted, 7, (2, 5, 0), Some(7));
    row(&not, b"ba", Accepted, 7, (2, 3, 0), Some(7));
}

#[test]
fn leading_where_nothing_is_said() {
    assert_eq!(Matching::default(), Matching::Leading);
    assert_eq!(Matching::BOTH, [Matching::Whole, Matching::Leading]);
}

/// All grammars of so many rules, with a range of one byte and one of none.
fn small_grammars(rules: usize) -> Vec<Vec<Part>> {
    let mut parts = vec![Part::Empty, Part::Byte(b'a', b'a'), Part::Byte(b'b', b'a')];
    for one in 0..rules {
        parts.push(Part::Not(one));
        parts.extend((0..rules).flat_map(|other| [Part::Sequence(one, other), Part::Choice(one, other)]));
    }
    let count = parts.len();
    let part = |number: usize, rule: usize| parts[number / count.pow(rule as u32) % count];
    (0..count.pow(rules as u32)).map(|number| (0..rules).map(|rule| part(number, rule)).collect()).collect()
}

/// Judged by the machine of a grammar, both ways.
fn judged(grammar: &[Part], matching: Matching, capture: &[u8]) -> Judged {
    let image = building::build(grammar, matching);
    let machine = read(&image).unwrap();
    let outcome = walk::judge(machine, capture, 10_000).unwrap().outcome;
    assert_eq!(outcome, summary::judge(machine, capture));
    let (mut notes, mut work) = (outcome.notes.clone(), outcome.notes.clone());
    calls::judge_answer(&outcome, &mut notes, &mut work)
}

#[test]
fn the_machine_says_what_parsing_says() {
    let captures: [&[u8]; 8] = [b"", b"a", b"b", b"aa", b"ab", b"ba", b"bb", b"aab"];
    // By what parsing comes to: all consumed, some left over, failure, no result.
    let mut seen = [0; 4];
    for grammar in (1..=3).flat_map(small_grammars) {
        for capture in captures {
            let parsed = parse(&grammar, capture, 10_000).unwrap();
            let [whole, leading] = Matching::BOTH.map(|matching| {
                let judged = judged(&grammar, matching, capture);
                assert!(judged.readings <= most_readings(matching, grammar.len(), capture.len()), "{grammar:?}");
                assert_eq!(judged.verdict, parsed.verdict(matching, capture.len()), "{grammar:?} on {capture:?}");
                judged
            });
            let (at, verdicts) = match parsed {
                Parsed::Rest(rest) if rest == capture.len() => (0, [Verdict::Accepted, Verdict::Accepted]),
                Parsed::Rest(_) => (1, [Verdict::Stuck, Verdict::Accepted]),
                Parsed::Failure => (2, [Verdict::Stuck, Verdict::Stuck]),
                Parsed::NoResult => (3, [Verdict::Looping, Verdict::Looping]),
            };
            seen[at] += 1;
            assert_eq!([whole.verdict, leading.verdict], verdicts, "{grammar:?} on {capture:?}");
            match parsed {
                // Each byte that is left over is one reading more, and the end is the right marker.
                Parsed::Rest(rest) => {
                    let left = capture.len() - rest;
                    let end = Config { state: 2, head: capture.len() + 1, symbol: 0 };
                    assert_eq!((leading.readings, leading.end), (whole.readings + left, end));
                    assert_eq!(whole.end, Config { head: rest + 1, ..end });
                }
                Parsed::Failure | Parsed::NoResult => assert_eq!(leading, whole),
            }
        }
    }
    assert!(seen.iter().all(|&count| count > 1000), "{seen:?}");
}

#[test]
fn bytes_left_over_on_long_captures() {
    for length in [1, 1000, 65_535] {
        let (capture, end) = (vec![b'x'; length], Config { state: 2, head: length + 1, symbol: 0 });
        let image = building::build(&[Part::Empty], Matching::Leading);
        let outcome = summary::judge(read(&image).unwrap(), &capture);
        let readings = outcome.notes.iter().filter(|&&note| note != 0).count();
        assert_eq!((outcome.verdict, outcome.end, readings), (Verdict::Accepted, end, length + 3));
        let ran = plain::run(read(&image).unwrap(), &capture, u32::MAX, 2);
        assert_eq!((ran.verdict, ran.steps, ran.reached), (Verdict::Accepted, length as u64 + 3, end));
    }
}

#[test]
fn the_two_images_differ_in_one_row() {
    let widest: Vec<Part> = (0..31).map(|rule| Part::Byte(2 + 8 * rule, 5 + 8 * rule)).collect();
    for grammar in (1..=2).flat_map(small_grammars).chain([widest]) {
        let [whole, leading] = Matching::BOTH.map(|matching| building::build(&grammar, matching));
        let (classes, symbols) = (whole[25] as usize, whole[26] as usize);
        let mut changed = whole.clone();
        for class in 0..classes {
            // State 2 and symbol 0.
            let at = 288 + 4 * (2 * (classes + 2) + class) * symbols;
            assert_eq!(changed[at..at + 4], [0; 4]);
            changed[at..at + 4].copy_from_slice(&[1, 2, 0, 1]);
        }
        assert_eq!(changed, leading);
    }
}

#[test]
fn numbers_told_beside_the_table() {
    let image = built(&[4, 0, 0, 0]);
    assert_eq!(image.len(), 468);
    let machine = read(&image).unwrap();
    assert_eq!(machine.configs(0), 30);
    assert_eq!(plain::run(machine, b"", 3, 2).verdict, Verdict::Accepted);
    assert_eq!(plain::run(machine, b"", 2, 2).verdict, Verdict::Spent);
    let deep = plain::run(machine, b"", 3, 1);
    assert_eq!((deep.verdict, deep.steps), (Verdict::Deep, 0));
    let input = program::input(&[1, 0, 0, 0], b"");
    let hex: String = input.iter().map(|byte| format!("{byte:02x}")).collect();
    assert_eq!(hex, "1000000004000000140000000000000001000000");
    assert_eq!(program::output(&input), "looping 2 1 1 1\n");
}

#[test]
fn parsing() {
    let grammar = [Part::Choice(1, 3), Part::Sequence(2, 0), Part::Byte(b'a', b'b'), Part::Empty];
    assert_eq!(parse(&grammar, b"abac", 100), Some(Parsed::Rest(3)));
    assert_eq!(parse(&grammar, b"abac", 3), None);
    assert_eq!(parse(&[Part::Not(0)], b"a", 100), Some(Parsed::NoResult));
    assert_eq!(parse(&[Part::Not(1), Part::Byte(b'a', b'a')], b"a", 100), Some(Parsed::Failure));
    assert_eq!(parse(&[Part::Not(1), Part::Byte(b'a', b'a')], b"b", 100), Some(Parsed::Rest(0)));
}

#[test]
fn a_range_that_has_no_byte() {
    let parts = grammar::read(&[5, b'z', b'a', 0]).unwrap();
    assert_eq!(parts, [Part::Byte(b'z', b'a')]);
    for capture in [&b""[..], b"a", b"m", b"z"] {
        assert_eq!(parse(&parts, capture, 100), Some(Parsed::Failure));
        assert_eq!(program::output(&program::input(&[5, b'z', b'a', 0], capture)), "stuck 3 3 1 0\n");
    }
    for matching in Matching::BOTH {
        assert_eq!(building::build(&parts, matching).len(), 288 + 4 * 5 * 3 * 3);
    }
    assert!(grammar::read(&[5, b'z', b'a', 1]).is_err());
}
