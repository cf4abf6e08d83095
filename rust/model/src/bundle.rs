//! A bundle of captures: what it holds, refusal 18, and the report of judging it by one image.

use crate::answer::{refuse, Judged, Refusal, Verdict};
use crate::calls::judge_checks;
use crate::image::number_at;
use crate::machine::Machine;

/// The most captures of a bundle.
pub const MAX_CAPTURES: u64 = 64;

/// What is said of one capture.
pub type Line = Result<Judged, Refusal>;

/// The last line: how often each verdict was given, how many lines are refusals, and the sum of the readings.
#[derive(Clone, Copy, Debug, Default, PartialEq, Eq)]
pub struct Totals {
    pub accepted: u64,
    pub ended: u64,
    pub stuck: u64,
    pub looping: u64,
    pub halted: u64,
    pub refusals: u64,
    pub readings: u64,
}

#[derive(Clone, Debug, PartialEq, Eq)]
pub struct Report {
    pub lines: Vec<Line>,
    pub totals: Totals,
}

/// The captures of a bundle in their order, or refusal 18.
pub fn read(bundle: &[u8]) -> Result<Vec<&[u8]>, Refusal> {
    let length = bundle.len() as u64;
    if length < 4 {
        return refuse(18, 0);
    }
    let count = number_at(bundle, 0) as u64;
    let pairs_end = 4 + 8 * count;
    if !(1..=MAX_CAPTURES).contains(&count) || pairs_end > length {
        return refuse(18, 0);
    }
    let mut captures = Vec::new();
    let mut earliest = pairs_end;
    for place in (4..pairs_end as usize).step_by(8) {
        let (start, size) = (number_at(bundle, place) as u64, number_at(bundle, place + 4) as u64);
        // Of two 32-bit numbers, so it may have 33 bits.
        let end = start + size;
        if start < earliest || end > length {
            return refuse(18, place);
        }
        captures.push(&bundle[start as usize..end as usize]);
        earliest = end;
    }
    Ok(captures)
}

/// A bundle with this count and these pairs of offset and length, then these bytes. Nothing is checked: tests write wrong
/// ones too.
pub fn write(count: u32, pairs: &[(u32, u32)], bytes: &[u8]) -> Vec<u8> {
    let numbers = pairs.iter().flat_map(|&(offset, length)| [offset, length]);
    let mut bundle: Vec<u8> = [count].into_iter().chain(numbers).flat_map(u32::to_le_bytes).collect();
    bundle.extend(bytes);
    bundle
}

/// The sums over the lines.
pub fn totals(lines: &[Line]) -> Totals {
    let mut totals = Totals::default();
    for line in lines {
        let Ok(judged) = line else {
            totals.refusals += 1;
            continue;
        };
        totals.readings += judged.readings as u64;
        *match judged.verdict {
            Verdict::Accepted => &mut totals.accepted,
            Verdict::Ended => &mut totals.ended,
            Verdict::Stuck => &mut totals.stuck,
            Verdict::Looping => &mut totals.looping,
            Verdict::Halted => &mut totals.halted,
            verdict => unreachable!("judging never says {verdict}"),
        } += 1;
    }
    totals
}

/// Judges the captures in their order, each on the cells as the one before left them: refusals 1 to 6, then 18, and the
/// captures' own 7 to 9 as lines. `judge` judges one that was not refused, and leaves the cells as judging does.
pub fn judge(
    image: Result<Machine, Refusal>,
    bundle: &[u8],
    notes: &mut [u32],
    work: &mut [u32],
    mut judge: impl FnMut(Machine, &[u8], &mut [u32], &mut [u32]) -> Judged,
) -> Result<Report, Refusal> {
    let machine = image?;
    let mut lines = Vec::new();
    for capture in read(bundle)? {
        let checked = judge_checks(Ok(machine), capture.len(), notes.len(), work.len());
        lines.push(checked.map(|_| judge(machine, capture, notes, work)));
    }
    let totals = totals(&lines);
    Ok(Report { lines, totals })
}
