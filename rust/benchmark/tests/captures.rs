//! The twin on the ten captures of the scope: verdict, readings, end configuration, and the plain run's steps.
use benchmark::twin;
use sejimakpu::{Config, Judged, Matching, Ran, Reason, Refusal, Verdict, MAX_BUILT_IMAGE};

const EMPTY: [u8; 4] = [4, 0, 0, 0];
const A: [u8; 4] = [5, b'a', b'a', 0];
const NOT_NEXT: [u8; 4] = [3, 1, 0, 0];

fn judged(image: &[u8], capture: &[u8]) -> (Verdict, u32, [u32; 3]) {
    let cells = usize::from(image[24]) * (capture.len() + 2) * usize::from(image[26]);
    let (mut notes, mut work) = (vec![9; cells + 1], vec![9; cells + 1]);
    let Judged { verdict, readings, end } = twin::judge(image, capture, &mut notes, &mut work).unwrap();
    assert_eq!(readings as usize, notes[..cells].iter().filter(|&&note| note != 0).count());
    assert!(work[..cells].iter().all(|&cell| cell == 0));
    assert_eq!((notes[cells], work[cells]), (9, 9));
    (verdict, readings, [end.state, end.head, end.symbol])
}

fn ran(image: &[u8], capture: &[u8]) -> (Verdict, u32, [u32; 3]) {
    let mut stack = [9; 8];
    let Ran { verdict, steps, reached } = twin::plain_run(image, capture, 1_000, &mut stack).unwrap();
    assert_eq!(stack, [0; 8]);
    let Config { state, head, symbol } = reached;
    (verdict, steps, [state, head, symbol])
}

#[test]
fn captures_of_grammars() {
    use Verdict::{Accepted, Deep, Looping, Stuck};
    let c6 = [[1, 1, 1, 0], [1, 2, 2, 0], EMPTY];
    let c9 = [[2, 1, 2, 0], A, EMPTY];
    type Case<'a> = (&'a [[u8; 4]], &'a [u8], Verdict, u32, [u32; 3], u32);
    let cases: [Case; 9] = [
        (&[EMPTY], b"", Accepted, 3, [2, 1, 0], 3),
        (&[EMPTY], b"a", Stuck, 3, [2, 1, 0], 2),
        (&[A], b"a", Accepted, 4, [2, 2, 0], 4),
        (&[A], b"b", Stuck, 3, [3, 1, 0], 2),
        (&[[1, 0, 0, 0]], b"", Looping, 2, [1, 1, 1], 7),
        (&c6, b"", Accepted, 11, [2, 1, 0], 18),
        (&[NOT_NEXT, A], b"", Accepted, 5, [2, 1, 0], 5),
        (&[NOT_NEXT, A], b"a", Stuck, 6, [3, 1, 0], 5),
        (&c9, b"", Accepted, 8, [2, 1, 0], 8),
    ];
    for (i, (grammar, capture, verdict, readings, end, steps)) in cases.into_iter().enumerate() {
        let whole = (Matching::Whole, verdict, readings, end, steps);
        let leading = match i {
            // C2 alone has a byte left over, which is passed.
            1 => (Matching::Leading, Accepted, 4, [2, 2, 0], 4),
            _ => (Matching::Leading, verdict, readings, end, steps),
        };
        for (matching, verdict, readings, end, steps) in [whole, leading] {
            let mut image = vec![0; MAX_BUILT_IMAGE];
            let length = twin::build(grammar.as_flattened(), matching, &mut image).unwrap();
            let image = &image[..length];
            assert_eq!(judged(image, capture), (verdict, readings, end), "C{}, {matching:?}", i + 1);
            // The plain run never says looping: it comes to the end of its cells.
            let plain = if verdict == Looping { Deep } else { verdict };
            assert_eq!(ran(image, capture), (plain, steps, end), "C{}, {matching:?}", i + 1);
        }
    }
}

/// One state, one class and one symbol, with this rule on the left marker and no other.
fn image_of(rule: [u8; 4]) -> Vec<u8> {
    let mut image: Vec<u8> =
        [24, 8, 32, 256, 288, 12, u32::from_le_bytes([1, 1, 1, 0]), 0].into_iter().flat_map(u32::to_le_bytes).collect();
    image.extend([0; 256]);
    image.extend([[0; 4], rule, [0; 4]].concat());
    image
}

#[test]
fn capture_of_an_image() {
    let image = image_of([3, 0, 0, 0]);
    assert_eq!(judged(&image, b""), (Verdict::Ended, 1, [0, 0, 0]), "C10");
    assert_eq!(ran(&image, b""), (Verdict::Ended, 1, [0, 0, 0]), "C10");
}

#[test]
fn missing_and_halting_rules() {
    for (rule, verdict) in [([0; 4], Verdict::Stuck), ([4, 0, 0, 0], Verdict::Halted)] {
        let image = image_of(rule);
        assert_eq!(judged(&image, b""), (verdict, 1, [0, 0, 0]));
        assert_eq!(ran(&image, b""), (verdict, 0, [0, 0, 0]));
        // It comes before spent.
        assert_eq!(twin::plain_run(&image, b"", 0, &mut [9]).unwrap().verdict, verdict);
    }
    for rule in [[4, 1, 0, 0], [4, 0, 1, 0], [4, 0, 0, 1], [5, 0, 0, 0], [255, 0, 0, 0]] {
        assert_eq!(twin::check(&image_of(rule)), Err(Refusal::new(Reason::ImageRule, 292).into()), "{rule:?}");
    }
}
