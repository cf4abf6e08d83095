//! Rules that halt on purpose: what makes one good, and how a run ends at one, told by hand and beside the same run without.

use model::answer::{Config, Ran, Refusal, Verdict};
use model::image::{read, write, Parts};
use model::walk::Outcome;
use model::{plain, summary, walk};

const NONE: [u8; 4] = [0; 4];
const HALT: [u8; 4] = [4, 0, 0, 0];

/// A machine of two states and two symbols, its bytes all in one class, with these rules: state, class (the byte's, the
/// left marker's, the right marker's), symbol, and what is done.
fn machine(rules: &[(usize, usize, usize, [u8; 4])]) -> Vec<u8> {
    let mut all = vec![NONE; 12];
    for &(state, class, symbol, rule) in rules {
        all[(state * 3 + class) * 2 + symbol] = rule;
    }
    write(&Parts { states: 2, classes: 1, symbols: 2, finals: 0b10, class_map: [0; 256], rules: all })
}

/// Judged both ways, which agree.
fn judged(image: &[u8], capture: &[u8]) -> Outcome {
    let machine = read(image).unwrap();
    let outcome = summary::judge(machine, capture);
    assert_eq!(walk::judge(machine, capture, 1000).unwrap().outcome, outcome);
    outcome
}

fn ran(image: &[u8], capture: &[u8], budget: u32, cells: usize) -> Ran {
    plain::run(read(image).unwrap(), capture, budget, cells)
}

fn config(state: usize, head: usize, symbol: usize) -> Config {
    Config { state, head, symbol }
}

#[test]
fn on_the_left_marker() {
    let image = machine(&[(0, 1, 0, HALT)]);
    let mut notes = vec![0; 8];
    notes[0] = 1;
    assert_eq!(judged(&image, b""), Outcome { verdict: Verdict::Halted, end: config(0, 0, 0), notes });
    for (budget, cells) in [(0, 1), (9, 1), (9, 3)] {
        let told = Ran { verdict: Verdict::Halted, steps: 0, reached: config(0, 0, 0) };
        assert_eq!(ran(&image, b"", budget, cells), told);
    }
}

#[test]
fn a_good_rule_and_bad_ones() {
    let refusal = |rule| read(&machine(&[(0, 1, 0, rule)])).err();
    let bad = Some(Refusal { number: 6, place: 288 + 4 * 2 });
    assert_eq!(refusal(HALT), None);
    for at in 1..4 {
        for byte in [1, 2, 128, 255] {
            let mut rule = HALT;
            rule[at] = byte;
            assert_eq!(refusal(rule), bad, "{rule:?}");
        }
    }
    for kind in [5, 6, 255] {
        assert_eq!(refusal([kind, 0, 0, 0]), bad);
    }
    // The first bad one decides, and a good one before it does not.
    let image = machine(&[(0, 0, 0, HALT), (0, 1, 0, [4, 0, 1, 0]), (1, 2, 1, [5, 0, 0, 0])]);
    assert_eq!(read(&image).err(), bad);
}

/// On an `a` the run comes to the byte's rule with the entry that was pushed, on none to the right marker's.
fn two_stops(byte: [u8; 4], right: [u8; 4]) -> Vec<u8> {
    machine(&[(0, 1, 0, [2, 1, 1, 1]), (1, 0, 1, byte), (1, 2, 1, right)])
}

#[test]
fn a_missing_rule_and_a_halting_one() {
    use Verdict::{Halted, Stuck};
    for (byte, right, on_byte, on_right) in [
        (NONE, NONE, Stuck, Stuck),
        (NONE, HALT, Stuck, Halted),
        (HALT, NONE, Halted, Stuck),
        (HALT, HALT, Halted, Halted),
    ] {
        let image = two_stops(byte, right);
        for (capture, verdict) in [(&b"a"[..], on_byte), (b"", on_right)] {
            let outcome = judged(&image, capture);
            assert_eq!((outcome.verdict, outcome.end), (verdict, config(1, 1, 1)));
            // The start and the end are entered, and neither has a terminator.
            assert_eq!(outcome.notes.iter().sum::<u32>(), 2);
            let told = |verdict, steps, reached| Ran { verdict, steps, reached };
            assert_eq!(ran(&image, capture, 9, 2), told(verdict, 1, config(1, 1, 1)));
            assert_eq!(ran(&image, capture, 1, 2), told(verdict, 1, config(1, 1, 1)));
            assert_eq!(ran(&image, capture, 0, 2), told(Verdict::Spent, 0, config(0, 0, 0)));
            assert_eq!(ran(&image, capture, 9, 1), told(Verdict::Deep, 0, config(0, 0, 0)));
        }
    }
}

/// Two machines that come to state 1 at the right marker: after an entry was removed, and above one pushed at each byte.
#[test]
fn all_but_the_verdict_is_as_of_a_missing_rule() {
    let walks = [(0, 1, 0, [2, 0, 1, 1]), (0, 0, 1, [1, 0, 1, 1]), (0, 2, 1, [3, 1, 0, 0])];
    let pushes = [(0, 1, 0, [1, 0, 0, 1]), (0, 0, 0, [2, 0, 0, 1]), (0, 2, 0, [1, 1, 0, 0])];
    for rules in [walks, pushes] {
        let with = |rule| machine(&[&rules[..], &[(1, 2, 0, rule)]].concat());
        for capture in [&b""[..], b"a", b"abcde"] {
            let (stuck, halted) = (judged(&with(NONE), capture), judged(&with(HALT), capture));
            assert_eq!((stuck.verdict, halted.verdict), (Verdict::Stuck, Verdict::Halted));
            assert_eq!(halted.end, config(1, capture.len() + 1, 0));
            assert_eq!(Outcome { verdict: Verdict::Stuck, ..halted }, stuck);
            for (budget, cells) in [(0, 9), (3, 9), (99, 1), (99, 2), (99, 9)] {
                let (stuck, halted) =
                    (ran(&with(NONE), capture, budget, cells), ran(&with(HALT), capture, budget, cells));
                assert_eq!(stuck.verdict == Verdict::Stuck, halted.verdict == Verdict::Halted);
                let expected = if stuck.verdict == Verdict::Stuck { Verdict::Halted } else { stuck.verdict };
                assert_eq!(Ran { verdict: expected, ..stuck }, halted);
            }
            assert_eq!(ran(&with(HALT), capture, 99, 9).verdict, Verdict::Halted);
        }
    }
}

#[test]
fn one_that_is_never_reached() {
    let rules = [(0, 1, 0, [1, 0, 0, 1]), (0, 2, 0, [3, 1, 0, 0])];
    let with = |rule| machine(&[&rules[..], &[(1, 2, 0, rule), (0, 0, 1, rule)]].concat());
    assert_eq!(judged(&with(HALT), b"").verdict, Verdict::Accepted);
    assert_eq!(judged(&with(HALT), b""), judged(&with(NONE), b""));
    assert_eq!(ran(&with(HALT), b"", 9, 1), ran(&with(NONE), b"", 9, 1));
}
