//! Bundles whose answers were written down by hand, held against the model itself.

use model::answer::{Config, Judged, Refusal, Verdict};
use model::bundle::{judge, read, totals, write, Line, Report, Totals};
use model::image::{self, Parts};
use model::machine::Machine;
use model::{calls, summary, walk};

fn refused(bundle: &[u8], place: usize) {
    assert_eq!(read(bundle), Err(Refusal { number: 18, place }), "{bundle:?}");
}

fn holds(bundle: &[u8], captures: &[&[u8]]) {
    assert_eq!(read(bundle).as_deref(), Ok(captures), "{bundle:?}");
}

/// As many empty captures as the count says, right behind the pairs.
fn of_empty_captures(count: u32) -> Vec<u8> {
    write(count, &vec![(4 + 8 * count, 0); count as usize], b"")
}

#[test]
fn counts() {
    for count in [1, 2, 63, 64] {
        let captures = vec![&b""[..]; count as usize];
        holds(&of_empty_captures(count), &captures);
        // A bundle one byte short of its pairs.
        refused(&of_empty_captures(count)[..3 + 8 * count as usize], 0);
    }
    for count in [0, 65, 66, 256, 1 << 16, 1 << 24, 1 << 29, u32::MAX] {
        refused(&write(count, &[], &[0; 2000]), 0);
        refused(&write(count, &[], &[0xff; 2000]), 0);
    }
    refused(&of_empty_captures(65), 0);
    // Right but for its count: the high bytes count too.
    let mut bundle = of_empty_captures(1);
    bundle[3] = 1;
    refused(&bundle, 0);
}

#[test]
fn short_bundles() {
    let bundle = write(1, &[(12, 0)], b"");
    for length in 0..12 {
        refused(&bundle[..length], 0);
        refused(&vec![1; length], 0);
    }
    holds(&bundle, &[b""]);
}

#[test]
fn starts() {
    // The first: the pairs end at 20. A pair is wrong at its own place.
    refused(&write(2, &[(19, 1), (20, 1)], b"abcd"), 4);
    holds(&write(2, &[(20, 1), (21, 1)], b"abcd"), &[b"a", b"b"]);
    holds(&write(2, &[(21, 1), (22, 1)], b"abcd"), &[b"b", b"c"]);
    refused(&write(2, &[(0, 0), (20, 1)], b"abcd"), 4);
    // The second: the first ends at 22.
    refused(&write(2, &[(20, 2), (21, 1)], b"abcd"), 12);
    holds(&write(2, &[(20, 2), (22, 1)], b"abcd"), &[b"ab", b"c"]);
    holds(&write(2, &[(20, 2), (23, 1)], b"abcd"), &[b"ab", b"d"]);
    // The same offset again: after an empty capture alone.
    holds(&write(2, &[(21, 0), (21, 2)], b"abcd"), &[b"", b"bc"]);
    refused(&write(2, &[(21, 1), (21, 2)], b"abcd"), 12);
    // An empty one inside the one before.
    refused(&write(2, &[(20, 2), (21, 0)], b"abcd"), 12);
    // In another order than their offsets'.
    refused(&write(2, &[(22, 1), (20, 1)], b"abcd"), 12);
}

#[test]
fn ends() {
    // Of 16 bytes.
    holds(&write(1, &[(12, 3)], b"abcd"), &[b"abc"]);
    holds(&write(1, &[(12, 4)], b"abcd"), &[b"abcd"]);
    refused(&write(1, &[(12, 5)], b"abcd"), 4);
    holds(&write(1, &[(15, 1)], b"abcd"), &[b"d"]);
    refused(&write(1, &[(15, 2)], b"abcd"), 4);
    holds(&write(1, &[(16, 0)], b"abcd"), &[b""]);
    refused(&write(1, &[(16, 1)], b"abcd"), 4);
    refused(&write(1, &[(17, 0)], b"abcd"), 4);
    // Ends of 33 bits: modulo 2 to the 32nd they would be 0, 11, 15 and 16, inside the bundle.
    refused(&write(1, &[(12, u32::MAX - 11)], b"abcd"), 4);
    refused(&write(1, &[(12, u32::MAX)], b"abcd"), 4);
    refused(&write(1, &[(16, u32::MAX)], b"abcd"), 4);
    refused(&write(1, &[(u32::MAX, 17)], b"abcd"), 4);
    refused(&write(1, &[(u32::MAX, u32::MAX)], b"abcd"), 4);
    // The second starts no earlier than such an end modulo 2 to the 32nd; the first is wrong all the same.
    refused(&write(2, &[(20, u32::MAX), (20, 1)], b"abcd"), 4);
}

#[test]
fn the_first_wrong_pair() {
    let good = |pair: u32| (516 + pair, 1);
    for wrong in 0..64 {
        let mut pairs: Vec<(u32, u32)> = (0..64).map(good).collect();
        pairs[wrong].1 = 1000;
        refused(&write(64, &pairs, &[0; 64]), 4 + 8 * wrong);
        // All after it wrong too.
        pairs[wrong..].fill((0, 0));
        refused(&write(64, &pairs, &[0; 64]), 4 + 8 * wrong);
    }
}

/// A machine by whose classes the first byte that is no `a` decides: `e` ends, `l` loops, any other is stuck; else the
/// right marker accepts. Two states, of which 1 is final, and one symbol.
fn deciding() -> Vec<u8> {
    let mut class_map = [2; 256];
    (class_map[b'a' as usize], class_map[b'e' as usize], class_map[b'l' as usize]) = (0, 1, 3);
    let right = [1, 0, 0, 1];
    let mut rules = vec![right, [3, 0, 0, 0], [0; 4], [1, 0, 0, 0], right, [3, 1, 0, 0]];
    rules.resize(12, [0; 4]);
    image::write(&Parts { states: 2, classes: 4, symbols: 1, finals: 0b10, class_map, rules })
}

fn by_model(image: &[u8], bundle: &[u8], notes: &mut [u32], work: &mut [u32]) -> Result<Report, Refusal> {
    let judged = |machine: Machine, capture: &[u8], notes: &mut [u32], work: &mut [u32]| {
        let outcome = summary::judge(machine, capture);
        assert_eq!(walk::judge(machine, capture, 1000).unwrap().outcome, outcome);
        calls::judge_answer(&outcome, notes, work)
    };
    judge(image::read(image), bundle, notes, work, judged)
}

fn judged(verdict: Verdict, readings: usize, head: usize) -> Line {
    Ok(Judged { verdict, readings, end: Config { state: 0, head, symbol: 0 } })
}

#[test]
fn a_bundle_judged_by_hand() {
    use Verdict::*;
    // Two states and n + 2 places: aaa needs 10 cells, aas 10, six bytes 16, and the others 4 to 8.
    let pairs = [(60, 3), (63, 1), (65, 3), (68, 1), (69, 6), (75, 0), (75, 0)];
    let bundle = write(7, &pairs, b"aaae.aaslaaaaaa..");
    let (mut notes, mut work) = (vec![77; 12], vec![88; 11]);
    let report = by_model(&deciding(), &bundle, &mut notes, &mut work).unwrap();
    let refusal = Err(Refusal { number: 8, place: 16 });
    let lines = vec![
        judged(Accepted, 5, 4),
        judged(Ended, 2, 1),
        judged(Stuck, 4, 3),
        judged(Looping, 2, 1),
        refusal,
        judged(Accepted, 2, 1),
        judged(Accepted, 2, 1),
    ];
    let totals = Totals { accepted: 3, ended: 1, stuck: 1, looping: 1, halted: 0, refusals: 1, readings: 17 };
    assert_eq!(report, Report { lines, totals });
    // The last one wrote four notes; behind them l left two more, and aas four more. The refused one left all as it was.
    assert_eq!(notes, [3, 3, 0, 0, 0, 0, 0, 0, 0, 0, 77, 77]);
    assert_eq!(work, [0, 0, 0, 0, 0, 0, 0, 0, 0, 0, 88]);
}

#[test]
fn halted_lines_are_counted_apart() {
    // The same machine, halted by `e` where it would have ended.
    let mut image = deciding();
    image[292..296].copy_from_slice(&[4, 0, 0, 0]);
    let bundle = write(5, &[(44, 1), (45, 3), (48, 1), (49, 3), (52, 0)], b"eaasaaae");
    let (mut notes, mut work) = (vec![77; 12], vec![88; 12]);
    let report = by_model(&image, &bundle, &mut notes, &mut work).unwrap();
    let lines = vec![
        judged(Verdict::Halted, 2, 1),
        judged(Verdict::Stuck, 4, 3),
        judged(Verdict::Accepted, 3, 2),
        judged(Verdict::Halted, 4, 3),
        judged(Verdict::Accepted, 2, 1),
    ];
    let totals = Totals { accepted: 2, stuck: 1, halted: 2, readings: 15, ..Totals::default() };
    assert_eq!(report, Report { lines, totals });
    // The last one wrote four notes; behind them aae left what it entered, without terminators.
    assert_eq!(notes, [3, 3, 0, 0, 0, 0, 0, 0, 0, 0, 77, 77]);
    assert_eq!(work, [0, 0, 0, 0, 0, 0, 0, 0, 0, 0, 88, 88]);
}

#[test]
fn cells_of_the_captures_before() {
    // aaa: five places of state 0, removed by the last of them, number 4. The empty one: two, removed by number 1.
    let bundle = write(2, &[(20, 3), (23, 0)], b"aaa");
    let (mut notes, mut work) = (vec![77; 10], vec![88; 10]);
    by_model(&deciding(), &bundle, &mut notes, &mut work).unwrap();
    assert_eq!(notes, [3, 3, 0, 0, 6, 0, 0, 0, 0, 0]);
    assert_eq!(work, [0; 10]);
    // With a cell too few for the first it is refused, and leaves all as it was.
    for (count, number) in [((9, 10), 8), ((10, 9), 9)] {
        let (mut notes, mut work) = (vec![77; count.0], vec![88; count.1]);
        let report = by_model(&deciding(), &bundle, &mut notes, &mut work).unwrap();
        assert_eq!(report.lines, [Err(Refusal { number, place: 10 }), judged(Verdict::Accepted, 2, 1)]);
        assert_eq!((&notes[..4], &work[..4]), (&[3, 3, 0, 0][..], &[0; 4][..]));
        assert!(notes[4..].iter().all(|&note| note == 77) && work[4..].iter().all(|&cell| cell == 88));
    }
}

#[test]
fn refusals_in_their_order() {
    let (mut notes, mut work) = ([77; 4], [88; 4]);
    let (wrong, long) = (write(1, &[(11, 0)], b""), write(1, &[(12, 65_536)], &[0; 65_536]));
    let mut refusal = |image: &[u8], bundle: &[u8]| {
        let report = by_model(image, bundle, &mut notes, &mut work);
        report.map(|report| report.lines).map_err(|refusal| (refusal.number, refusal.place))
    };
    assert_eq!(refusal(&[0; 31], &wrong), Err((1, 31)));
    assert_eq!(refusal(&[0; 32], &[]), Err((2, 0)));
    let mut image = deciding();
    image[288] = 5;
    assert_eq!(refusal(&image, &wrong), Err((6, 288)));
    assert_eq!(refusal(&deciding(), &wrong), Err((18, 4)));
    assert_eq!(refusal(&deciding(), &[]), Err((18, 0)));
    assert_eq!(refusal(&deciding(), &long), Ok(vec![Err(Refusal { number: 7, place: 65_536 })]));
    assert_eq!((notes, work), ([77; 4], [88; 4]));
}

#[test]
fn totals_past_32_bits() {
    let most = 32 * 65_537 * 128;
    let lines = vec![judged(Verdict::Stuck, most, 0); 64];
    assert_eq!(totals(&lines), Totals { stuck: 64, readings: 64 * most as u64, ..Totals::default() });
    assert_eq!(totals(&lines).readings, 17_180_131_328);
    let lines = vec![judged(Verdict::Halted, most, 0); 64];
    assert_eq!(totals(&lines), Totals { halted: 64, readings: 64 * most as u64, ..Totals::default() });
    let refusal = Err(Refusal { number: 9, place: most });
    let lines = [vec![refusal; 63], vec![judged(Verdict::Ended, u32::MAX as usize, 0)]].concat();
    let readings = u32::MAX as u64;
    assert_eq!(totals(&lines), Totals { ended: 1, refusals: 63, readings, ..Totals::default() });
    assert_eq!(totals(&[]), Totals::default());
}
