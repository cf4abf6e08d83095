//! The twin, and its tuned forms, give the library's answers, notes and cells, on small cases drawn from a fixed sequence of numbers.
mod numbers;

use benchmark::bundles::report_the_same;
use benchmark::twin;
use numbers::Numbers;
use sejimakpu::{Error, Judged, Matching, Verdict, MAX_BUILT_IMAGE, MAX_GRAMMAR};

/// Library, twin and tuned forms judge the same, and leave the same in all lent cells.
fn judge_the_same(image: &[u8], capture: &[u8], lent: (Vec<u32>, Vec<u32>)) -> Result<Judged, Error> {
    let mut cells = lent.clone();
    let judged = sejimakpu::judge(image, capture, &mut cells.0, &mut cells.1);
    for judge in [twin::judge, twin::judge_tuned, twin::judge_fastest] {
        let mut other = lent.clone();
        assert_eq!(judge(image, capture, &mut other.0, &mut other.1), judged);
        assert!(other == cells);
    }
    judged
}

/// Both judge and run the same on an image, good or not, and leave the same in all lent cells. Gives the verdict of
/// judging and that of running, where they are not refused.
fn agree_on(image: &[u8], numbers: &mut Numbers) -> [Option<Verdict>; 2] {
    let capture = numbers.capture();
    let checked = sejimakpu::check(image);
    assert_eq!(twin::check(image), checked);

    let needed = sejimakpu::cells(image, capture.len()).unwrap_or(3);
    let few = |numbers: &mut Numbers| needed + 2 - numbers.below(8).saturating_sub(4).min(needed);
    let (notes, work) = (vec![7; few(numbers)], vec![8; few(numbers)]);
    let judged = judge_the_same(image, &capture, (notes, work));

    let (budget, cells) = (numbers.below(60) as u32, numbers.below(8));
    let (mut a, mut b) = (vec![7; cells], vec![7; cells]);
    let ran = sejimakpu::plain_run(image, &capture, budget, &mut a);
    assert_eq!(twin::plain_run(image, &capture, budget, &mut b), ran);
    assert_eq!(a, b);
    [judged.ok().map(|judged| judged.verdict), ran.ok().map(|ran| ran.verdict)]
}

#[test]
fn on_images() {
    let mut numbers = Numbers(0x9E37_79B9_7F4A_7C15);
    for _ in 0..600 {
        let mut image = numbers.image();
        numbers.spoil(&mut image);
        agree_on(&image, &mut numbers);
    }
}

#[test]
fn on_rules_that_stop() {
    let mut numbers = Numbers(0x2545_F491_4F6C_DD1D);
    let (mut stuck, mut halted, mut bad) = ([0; 2], [0; 2], 0);
    for _ in 0..2000 {
        let mut image = numbers.image();
        // The rule that the run starts with, any, or the last.
        let (count, start) = ((image.len() - 288) / 4, usize::from(image[25]) * usize::from(image[26]));
        let rule = [start, numbers.below(count), count - 1][numbers.below(3)];
        image[288 + 4 * rule..][..4].copy_from_slice(&numbers.stop());
        bad += usize::from(sejimakpu::check(&image).is_err());
        for (call, verdict) in agree_on(&image, &mut numbers).into_iter().enumerate() {
            stuck[call] += usize::from(verdict == Some(Verdict::Stuck));
            halted[call] += usize::from(verdict == Some(Verdict::Halted));
        }
    }
    assert!((400..1200).contains(&bad), "{bad} images are bad, and the others are not");
    assert!(stuck.iter().all(|&count| count > 50), "{stuck:?} are stuck");
    assert!(halted.iter().all(|&count| count > 200), "{halted:?} are halted");
}

#[test]
fn on_grammars() {
    let mut numbers = Numbers(0xD1B5_4A32_D192_ED03);
    let (mut refused, mut accepted) = ([0; 2], [0; 2]);
    for _ in 0..600 {
        let mut grammar = numbers.grammar();
        numbers.spoil(&mut grammar);
        let room = if numbers.below(9) == 0 { 400 + numbers.below(300) } else { MAX_BUILT_IMAGE };
        let images = [Matching::Whole, Matching::Leading].map(|matching| {
            let (mut a, mut b) = (vec![7; room], vec![7; room]);
            let built = sejimakpu::build(&grammar, matching, &mut a);
            assert_eq!(twin::build(&grammar, matching, &mut b), built);
            assert!(a == b);
            built.map(|length| a[..length].to_vec())
        });
        assert!(images[0] != images[1] || images[0].is_err(), "each matching has an image of its own");
        for (matching, image) in images.iter().enumerate() {
            refused[matching] += usize::from(image.is_err());
            if let Ok(image) = image {
                let [verdict, _] = agree_on(image, &mut numbers);
                accepted[matching] += usize::from(verdict == Some(Verdict::Accepted));
            }
        }
    }
    assert!(refused[0] == refused[1] && (50..400).contains(&refused[0]), "{refused:?} are refused");
    assert!(accepted[0] > 10 && accepted[1] > 2 * accepted[0], "{accepted:?} are accepted");
}

#[test]
fn on_texts() {
    let mut numbers = Numbers(0xA076_1D64_78BD_642F);
    for _ in 0..2000 {
        let mut text = numbers.text();
        numbers.spoil(&mut text);
        let (mut a, mut b) = ([7; MAX_GRAMMAR], [7; MAX_GRAMMAR]);
        let read = sejimakpu::read_grammar(&text, &mut a);
        assert_eq!(twin::read_grammar(&text, &mut b), read);
        assert_eq!(a, b);

        let room = if numbers.below(9) == 0 { 400 + numbers.below(300) } else { MAX_BUILT_IMAGE };
        let (mut a, mut b) = (vec![7; room], vec![7; room]);
        let built = sejimakpu::build_text(&text, &mut a);
        assert_eq!(twin::build_text(&text, &mut b), built);
        assert!(a == b);

        let capture = numbers.capture();
        let cells = 5 * (capture.len() + 2) * (read.unwrap_or(0) / 2 + 1);
        let few = |numbers: &mut Numbers| cells + 2 - numbers.below(8).saturating_sub(4);
        let lent = (vec![7; room], vec![7; few(&mut numbers)], vec![8; few(&mut numbers)]);
        let (mut a, mut b) = (lent.clone(), lent);
        let judged = sejimakpu::judge_text(&text, &capture, &mut a.0, &mut a.1, &mut a.2);
        assert_eq!(twin::judge_text(&text, &capture, &mut b.0, &mut b.1, &mut b.2), judged);
        assert!(a == b);
    }
}

#[test]
fn on_left_recursion() {
    let mut numbers = Numbers(0x8EBC_6AF0_9C88_C6E3);
    let (mut passed, mut named) = (0, 0);
    for case in 0..4000 {
        let mut grammar = if case % 2 == 0 { numbers.grammar() } else { numbers.sparse_grammar() };
        numbers.spoil(&mut grammar);
        let mut text = numbers.text();
        numbers.spoil(&mut text);
        let checked = [sejimakpu::check_recursion(&grammar), sejimakpu::check_text_recursion(&text)];
        assert_eq!(
            [twin::check_recursion(&grammar), twin::check_text_recursion(&text)],
            checked,
            "{grammar:?} {text:?}"
        );
        for checked in checked {
            passed += usize::from(checked.is_ok());
            named += usize::from(checked.is_err_and(|error| error.refusal().unwrap().number() == 19));
        }
    }
    assert!(passed > 500 && named > 2000, "{passed} pass, and {named} are refused by 19");
}

#[test]
fn on_bundles() {
    let mut numbers = Numbers(0xE703_7ED1_A0B4_28DB);
    let (mut judged, mut halted) = (0, 0);
    for _ in 0..2000 {
        let mut image = numbers.image();
        let count = [1, 2, 5, 64][numbers.below(4)];
        let captures: Vec<Vec<u8>> = (0..count).map(|_| numbers.capture()).collect();
        let mut bundle = sejimakpu::pack_bundle(&captures).unwrap();
        // Enough for 8 bytes, or not.
        let cells = usize::from(image[24]) * (8 + 2 - numbers.below(4).saturating_sub(1)) * usize::from(image[26]);
        numbers.spoil(&mut bundle);
        if numbers.below(4) == 0 {
            numbers.spoil(&mut image);
        }
        let few = |numbers: &mut Numbers| cells + 1 - numbers.below(3).min(cells);
        let lent = (vec![7; few(&mut numbers)], vec![8; few(&mut numbers)]);
        let (mut a, mut b) = (lent.clone(), lent);
        let report = sejimakpu::judge_bundle(&image, &bundle, &mut a.0, &mut a.1);
        let other = twin::judge_bundle(&image, &bundle, &mut b.0, &mut b.1);
        assert!(report_the_same(&report, &other), "{report:?} and {other:?}");
        assert!(a == b);
        judged += usize::from(report.is_ok());
        halted += report.map_or(0, |report| report.totals().of(Verdict::Halted));
    }
    assert!((500..1900).contains(&judged), "{judged} bundles are right, and the others are not");
    assert!(halted > 500, "{halted} lines are halted");
}

#[test]
fn on_long_captures() {
    let image = Numbers(3).image();
    for n in [65_535, 65_536] {
        let capture = vec![b'a'; n];
        let judged = judge_the_same(&image, &capture, (vec![7; 900_000], vec![7; 900_000]));
        assert_eq!(judged.is_ok(), n == 65_535);

        // All bytes are left over.
        let mut leading = [0; 468];
        assert_eq!(twin::build(&[4, 0, 0, 0], Matching::Leading, &mut leading), Ok(468));
        let judged = judge_the_same(&leading, &capture, (vec![7; 1_000_000], vec![7; 1_000_000]));
        assert_eq!(
            judged.ok().map(|judged| (judged.verdict, judged.readings)),
            (n == 65_535).then_some((Verdict::Accepted, 65_538))
        );

        let lent = (vec![7; 500], vec![7; 1_000_000], vec![8; 1_000_000]);
        let (mut a, mut b) = (lent.clone(), lent);
        let judged = sejimakpu::judge_text(b"a=.;", &capture, &mut a.0, &mut a.1, &mut a.2);
        assert_eq!(judged.is_ok(), n == 65_535);
        assert_eq!(twin::judge_text(b"a=.;", &capture, &mut b.0, &mut b.1, &mut b.2), judged);
        assert!(a == b);
    }
}
