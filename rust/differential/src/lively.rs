//! Choosing lively runs: most random machines and grammars do little, so several are drawn and the best one is kept.

use crate::findings::Findings;
use crate::rng::Rng;
use model::answer::Verdict;
use model::image;
use model::summary;

/// What judging may say of a machine.
pub const VERDICTS: [Verdict; 5] =
    [Verdict::Accepted, Verdict::Ended, Verdict::Stuck, Verdict::Looping, Verdict::Halted];

/// Something drawn, with the image and the capture that its run takes.
pub struct Drawn<T> {
    pub image: Vec<u8>,
    pub capture: Vec<u8>,
    pub from: T,
}

/// Draws a few times, and keeps what has the verdict wished for this time and enters the most configurations.
pub fn liveliest<T>(rng: &mut Rng, draws: &[usize], mut draw: impl FnMut(&mut Rng) -> Drawn<T>) -> Drawn<T> {
    let wished = rng.pick(&VERDICTS);
    let mut best = draw(rng);
    let mut best_score = None;
    for _ in 1..rng.pick(draws) {
        let other = draw(rng);
        let score = score(&other, wished);
        if score > *best_score.get_or_insert_with(|| self::score(&best, wished)) {
            (best, best_score) = (other, Some(score));
        }
    }
    best
}

/// None of these verdicts is rare: each is that of a tenth of the runs that have one of them, or of more.
pub fn each_often(found: &mut Findings, runs: [usize; VERDICTS.len()]) {
    for (verdict, count) in VERDICTS.iter().zip(runs) {
        let rare = 10 * count < runs.iter().sum::<usize>() || count == 0;
        found.note(rare.then(|| format!("{verdict} only {count} times, of {runs:?}")), &[]);
    }
}

fn score<T>(drawn: &Drawn<T>, wished: Verdict) -> (bool, usize) {
    let machine = image::read(&drawn.image).expect("it is made to be good");
    let outcome = summary::judge(machine, &drawn.capture);
    (outcome.verdict == wished, outcome.notes.iter().filter(|&&note| note != 0).count())
}
