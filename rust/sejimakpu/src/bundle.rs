//! Judging a bundle of captures, and the report of it: a line for each capture, and the totals.
use crate::{ffi, Error, Judged, Refusal, Verdict, MAX_CAPTURES};
use std::iter::FusedIterator;
use std::slice;

/// Judges all captures of a bundle by one image, in order, in the same cells.
///
/// A bundle is a 32-bit count of 1 to 64 captures, then as many pairs of offset and length of 32 bits each, least byte
/// first. Each capture starts no earlier than the one before ends, the first no earlier than the pairs end, and all end
/// inside the bundle. [`pack_bundle`](crate::pack_bundle) makes one.
///
/// A line of the report is what [`judge`](crate::judge) answers for that capture alone, refusals 7 to 9 too: these refuse
/// one capture, and not the call. As many cells as [`cells`](crate::cells) says for the longest capture are enough for
/// all; they end as after judging the captures one after another.
///
/// ```
/// use sejimakpu::{Matching, Reason, Refusal, Verdict};
///
/// // One byte from '0' to '9', and nothing after it.
/// let mut image = [0; sejimakpu::MAX_BUILT_IMAGE];
/// let length = sejimakpu::build(&[5, b'0', b'9', 0], Matching::Whole, &mut image)?;
/// let image = &image[..length];
///
/// let bundle = sejimakpu::pack_bundle(&["7", "x", "a line too long for the cells"]).unwrap();
/// let (mut notes, mut work) = ([0; 45], [0; 45]);
/// let report = sejimakpu::judge_bundle(image, &bundle, &mut notes, &mut work)?;
/// for line in &report {
///     match line {
///         Ok(judged) => println!("{}, {} readings", judged.verdict, judged.readings),
///         Err(refusal) => println!("{refusal}"),
///     }
/// }
/// let verdicts: Vec<_> = report.lines().map(|line| line.map(|judged| judged.verdict)).collect();
/// let refusal = Refusal::new(Reason::NotesShort, 465);
/// assert_eq!(verdicts, [Ok(Verdict::Accepted), Ok(Verdict::Stuck), Err(refusal)]);
/// assert_eq!(report.totals().of(Verdict::Accepted), 1);
/// assert_eq!((report.totals().refusals(), report.totals().readings()), (1, 4 + 3));
///
/// // With the last byte cut off the third pair, at 4 + 8 · 2, is wrong: nothing is judged.
/// let refused = sejimakpu::judge_bundle(image, &bundle[..bundle.len() - 1], &mut notes, &mut work);
/// assert_eq!(refused, Err(Refusal::new(Reason::Bundle, 20).into()));
/// # Ok::<(), sejimakpu::Error>(())
/// ```
///
/// # Errors
///
/// [`Error::Refused`]: refusals 1 to 6, then 18; a refused call changes no cell.
pub fn judge_bundle(image: &[u8], bundle: &[u8], notes: &mut [u32], work: &mut [u32]) -> Result<Report, Error> {
    let mut lines = [ffi::Line::default(); MAX_CAPTURES];
    let mut totals = Totals::default();
    let answer =
        ffi::answer_of(|answer| ffi::judge_bundle(image, bundle, notes, work, &mut lines, &mut totals, answer))?;
    // Every line is read before one is given, so that another archive's numbers are met here.
    let lines = lines[..answer.captures()?].iter().map(ffi::Line::judged).collect::<Result<_, _>>()?;
    Ok(Report { lines, totals })
}

/// What judging a bundle answers.
#[must_use = "only an accepted capture passes"]
#[derive(Clone, Debug, PartialEq, Eq)]
pub struct Report {
    lines: Vec<Result<Judged, Refusal>>,
    totals: Totals,
}

impl Report {
    /// The lines, one for each capture of the bundle, in its order.
    pub fn lines(&self) -> Lines<'_> {
        Lines(self.lines.iter())
    }

    /// How often each verdict was given, how many captures were refused, and the sum of the readings.
    #[must_use]
    pub fn totals(&self) -> Totals {
        self.totals
    }
}

impl<'a> IntoIterator for &'a Report {
    type Item = Result<Judged, Refusal>;
    type IntoIter = Lines<'a>;

    fn into_iter(self) -> Lines<'a> {
        self.lines()
    }
}

/// The lines of a [`Report`], each what was answered for one capture.
#[must_use = "iterators are lazy and do nothing unless consumed"]
#[derive(Clone, Debug)]
pub struct Lines<'a>(slice::Iter<'a, Result<Judged, Refusal>>);

impl Iterator for Lines<'_> {
    type Item = Result<Judged, Refusal>;

    fn next(&mut self) -> Option<Self::Item> {
        self.0.next().copied()
    }

    fn size_hint(&self) -> (usize, Option<usize>) {
        self.0.size_hint()
    }

    fn nth(&mut self, n: usize) -> Option<Self::Item> {
        self.0.nth(n).copied()
    }
}

impl DoubleEndedIterator for Lines<'_> {
    fn next_back(&mut self) -> Option<Self::Item> {
        self.0.next_back().copied()
    }
}

impl ExactSizeIterator for Lines<'_> {}

impl FusedIterator for Lines<'_> {}

/// The totals of a [`Report`]: the sums over its lines. Field by field as in C.
#[repr(C)]
#[derive(Clone, Copy, Debug, Default, PartialEq, Eq, Hash)]
pub struct Totals {
    /// By a verdict's number; the others are 0.
    pub(crate) verdicts: [u64; 8],
    pub(crate) refusals: u64,
    pub(crate) readings: u64,
}

impl Totals {
    /// How many captures have this verdict. None is spent or deep.
    #[must_use]
    pub fn of(&self, verdict: Verdict) -> u64 {
        self.verdicts[verdict.number()]
    }

    /// How many captures were refused.
    #[must_use]
    pub fn refusals(&self) -> u64 {
        self.refusals
    }

    /// The readings of all captures together.
    #[must_use]
    pub fn readings(&self) -> u64 {
        self.readings
    }
}

#[cfg(test)]
mod tests {
    use super::*;
    use crate::{Config, Reason};

    /// A report of three lines, made by hand.
    fn report() -> Report {
        let end = Config { state: 2, head: 1, symbol: 0 };
        let judged = |verdict| Ok(Judged { verdict, readings: 3, end });
        let refused = Err(Refusal::new(Reason::CaptureLong, 65_536));
        let totals = Totals { verdicts: [0, 1, 2, 3, 4, 5, 6, 7], refusals: 8, readings: 1 << 40 };
        Report { lines: vec![judged(Verdict::Accepted), refused, judged(Verdict::Looping)], totals }
    }

    #[test]
    fn lines_from_both_ends() {
        let report = report();
        let told = report.lines.clone();
        assert_eq!(report.lines().collect::<Vec<_>>(), told);
        assert!(report.lines().rev().eq(told.iter().rev().copied()));
        assert!((&report).into_iter().eq(report.lines()));

        let mut lines = report.lines();
        assert_eq!((lines.len(), lines.size_hint()), (3, (3, Some(3))));
        assert_eq!((lines.next_back(), lines.len()), (Some(told[2]), 2));
        assert_eq!((lines.nth(1), lines.len()), (Some(told[1]), 0));
        assert_eq!((lines.next(), lines.next_back()), (None, None));
    }

    #[test]
    fn totals_by_verdict() {
        use Verdict::{Accepted, Deep, Ended, Halted, Looping, Spent, Stuck};
        let totals = report().totals();
        assert_eq!(
            [Accepted, Ended, Stuck, Looping, Spent, Deep, Halted].map(|verdict| totals.of(verdict)),
            [1, 2, 3, 4, 5, 6, 7]
        );
        assert_eq!((totals.refusals(), totals.readings()), (8, 1 << 40));
    }
}
