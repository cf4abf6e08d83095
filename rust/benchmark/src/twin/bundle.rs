//! The twin's judging of a bundle: image and bundle are checked once, and then each capture is judged by the same image.
use super::check::{check, number_at, refused};
use super::judge::{judge_capture, run};
use sejimakpu::{Error, Judged, Reason, Refusal, Verdict, MAX_CAPTURES};

/// The count's bytes, and those of a pair.
const COUNT: usize = 4;
const PAIR: usize = 8;

/// A line for each capture, and the sums over them.
#[derive(Clone, Debug, Default, PartialEq, Eq)]
pub struct Report {
    pub lines: Vec<Result<Judged, Refusal>>,
    verdicts: [u64; 5],
    pub refusals: u64,
    pub readings: u64,
}

impl Report {
    /// How many captures have this verdict.
    pub fn of(&self, verdict: Verdict) -> u64 {
        index(verdict).map_or(0, |index| self.verdicts[index])
    }

    fn add(&mut self, line: Result<Judged, Refusal>) {
        match line {
            Ok(judged) => {
                if let Some(index) = index(judged.verdict) {
                    self.verdicts[index] += 1;
                }
                self.readings += u64::from(judged.readings);
            }
            Err(_) => self.refusals += 1,
        }
        self.lines.push(line);
    }
}

/// Where a verdict of judging is counted.
fn index(verdict: Verdict) -> Option<usize> {
    match verdict {
        Verdict::Accepted => Some(0),
        Verdict::Ended => Some(1),
        Verdict::Stuck => Some(2),
        Verdict::Looping => Some(3),
        Verdict::Halted => Some(4),
        _ => None,
    }
}

/// A bundle whose pairs are all right, and their count.
struct Bundle<'a> {
    bytes: &'a [u8],
    count: usize,
}

impl<'a> Bundle<'a> {
    fn check(bytes: &'a [u8]) -> Result<Self, Error> {
        let wrong = |place| refused(Reason::Bundle, place);
        if bytes.len() < COUNT {
            return Err(wrong(0));
        }
        let count = number_at(bytes, 0) as usize;
        if !(1..=MAX_CAPTURES).contains(&count) || bytes.len() < COUNT + PAIR * count {
            return Err(wrong(0));
        }
        let bundle = Bundle { bytes, count };
        let mut floor = COUNT + PAIR * count;
        for index in 0..count {
            let (start, end) = bundle.bounds(index);
            if start < floor || end > bytes.len() {
                return Err(wrong(COUNT + PAIR * index));
            }
            floor = end;
        }
        Ok(bundle)
    }

    /// Where a capture starts and ends.
    fn bounds(&self, index: usize) -> (usize, usize) {
        let at = COUNT + PAIR * index;
        let start = number_at(self.bytes, at) as usize;
        (start, start + number_at(self.bytes, at + 4) as usize)
    }

    fn capture(&self, index: usize) -> &'a [u8] {
        let (start, end) = self.bounds(index);
        &self.bytes[start..end]
    }
}

/// Judges a bundle by an image, as [`sejimakpu::judge_bundle`] does.
pub fn judge_bundle(image: &[u8], bundle: &[u8], notes: &mut [u32], work: &mut [u32]) -> Result<Report, Error> {
    check(image)?;
    let bundle = Bundle::check(bundle)?;
    let mut report = Report { lines: Vec::with_capacity(bundle.count), ..Report::default() };
    for index in 0..bundle.count {
        report.add(judge_capture(run, image, bundle.capture(index), notes, work));
    }
    Ok(report)
}
