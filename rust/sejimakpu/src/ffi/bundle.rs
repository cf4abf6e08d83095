//! Judging a bundle, as `include/sejimakpu.h` declares it: the call, and the lines that it writes.
use super::Answer;
use crate::{Error, Judged, Refusal, Totals, MAX_CAPTURES};

/// A line of a report. In C it is seven numbers: the refusal, and then the six of an answer in an answer's order.
#[repr(C)]
#[derive(Clone, Copy, Default)]
pub(crate) struct Line {
    refusal: u64,
    answer: Answer,
}

impl Line {
    /// What the line says of its capture.
    pub fn judged(&self) -> Result<Result<Judged, Refusal>, Error> {
        match self.refusal {
            0 => self.answer.judged().map(Ok),
            number => self.answer.refusal(number).map(Err),
        }
    }
}

impl Answer {
    /// How many captures the bundle has, each with a line.
    pub fn captures(&self) -> Result<usize, Error> {
        let captures = self.count()?;
        if (1..=MAX_CAPTURES).contains(&captures) {
            Ok(captures)
        } else {
            Err(Error::Mismatch { field: "count", value: self.count })
        }
    }
}

extern "C" {
    fn sejimakpu_judge_bundle_nonnull(
        image: *const u8,
        image_length: usize,
        bundle: *const u8,
        bundle_length: usize,
        notes: *mut u32,
        notes_length: usize,
        work: *mut u32,
        work_length: usize,
        lines: *mut Line,
        totals: *mut Totals,
        answer: *mut Answer,
    ) -> u32;
}

pub(crate) fn judge_bundle(
    image: &[u8],
    bundle: &[u8],
    notes: &mut [u32],
    work: &mut [u32],
    lines: &mut [Line; MAX_CAPTURES],
    totals: &mut Totals,
    answer: &mut Answer,
) -> u32 {
    // SAFETY: each pointer goes with its own slice's length, and `lines` has the 64 lines that may be written; `notes`,
    // `work`, `lines`, `totals` and `answer` are written, each borrowed alone.
    unsafe {
        sejimakpu_judge_bundle_nonnull(
            image.as_ptr(),
            image.len(),
            bundle.as_ptr(),
            bundle.len(),
            notes.as_mut_ptr(),
            notes.len(),
            work.as_mut_ptr(),
            work.len(),
            lines.as_mut_ptr(),
            totals,
            answer,
        )
    }
}

#[cfg(test)]
mod tests {
    use super::super::{build, tests::halting};
    use super::*;
    use crate::{pack_bundle, Matching, Reason};
    use std::mem::{offset_of, size_of};

    /// What stood there before: no field of an answer, of a line or of the totals can be this.
    const OLD: u64 = u64::MAX;

    const UNWRITTEN: Answer = Answer { place: OLD, verdict: OLD, count: OLD, state: OLD, head: OLD, symbol: OLD };
    const OLD_LINE: Line = Line { refusal: OLD, answer: UNWRITTEN };
    const OLD_TOTALS: Totals = Totals { verdicts: [OLD; 8], refusals: OLD, readings: OLD };

    fn fields(answer: &Answer) -> [u64; 6] {
        let Answer { place, verdict, count, state, head, symbol } = *answer;
        [place, verdict, count, state, head, symbol]
    }

    /// All that a call writes, and what it returns.
    struct Written {
        returned: u32,
        answer: Answer,
        lines: [Line; MAX_CAPTURES],
        totals: Totals,
    }

    /// Judges by the image of the empty grammar, with so many notes and 45 work cells, over old contents.
    fn written(bundle: &[u8], notes: usize) -> Written {
        let mut image = [0; 468];
        assert_eq!(build(&[4, 0, 0, 0], Matching::Whole, &mut image, &mut Answer::default()), 0);
        written_by(&image, bundle, notes)
    }

    fn written_by(image: &[u8], bundle: &[u8], notes: usize) -> Written {
        let (mut answer, mut lines, mut totals) = (UNWRITTEN, [OLD_LINE; MAX_CAPTURES], OLD_TOTALS);
        let (mut notes, mut work) = (vec![7; notes], [7; 45]);
        let returned = judge_bundle(image, bundle, &mut notes, &mut work, &mut lines, &mut totals, &mut answer);
        Written { returned, answer, lines, totals }
    }

    #[test]
    fn lines_and_totals_lie_as_in_c() {
        assert_eq!((size_of::<Line>(), offset_of!(Line, answer)), (7 * 8, 8));
        assert_eq!((offset_of!(Answer, place), offset_of!(Answer, verdict), offset_of!(Answer, count)), (0, 8, 16));
        assert_eq!((offset_of!(Answer, state), offset_of!(Answer, head), offset_of!(Answer, symbol)), (24, 32, 40));
        assert_eq!((size_of::<Totals>(), offset_of!(Totals, verdicts)), (10 * 8, 0));
        assert_eq!((offset_of!(Totals, refusals), offset_of!(Totals, readings)), (64, 72));
    }

    #[test]
    fn judge_bundle_writes_every_field() {
        // C1, C2, and a capture for which there are too few notes: 30 and 45 are needed, then 60.
        let bundle = pack_bundle(&[&b""[..], b"a", b"aa"]).unwrap();
        let Written { returned, answer, lines, totals } = written(&bundle, 45);
        assert_eq!((returned, fields(&answer)), (0, [0, 0, 3, 0, 0, 0]));
        let told = [(0, [0, 1, 3, 2, 1, 0]), (0, [0, 3, 3, 2, 1, 0]), (8, [60, 0, 0, 0, 0, 0])];
        for (line, told) in lines.iter().zip(told) {
            assert_eq!((line.refusal, fields(&line.answer)), told);
        }
        for line in &lines[3..] {
            assert_eq!((line.refusal, fields(&line.answer)), (OLD, [OLD; 6]));
        }
        assert_eq!(totals, Totals { verdicts: [0, 1, 0, 1, 0, 0, 0, 0], refusals: 1, readings: 6 });
    }

    #[test]
    fn halted_lines_have_a_count_of_their_own() {
        let bundle = pack_bundle(&[&b"a"[..], b"", b"a", b"aa"]).unwrap();
        let Written { returned, lines, totals, .. } = written_by(&halting(), &bundle, 45);
        assert_eq!(returned, 0);
        let halted = (0, [0, 7, 3, 2, 1, 0]);
        for (line, told) in lines.iter().zip([halted, (0, [0, 1, 3, 2, 1, 0]), halted]) {
            assert_eq!((line.refusal, fields(&line.answer)), told);
        }
        assert_eq!(totals, Totals { verdicts: [0, 1, 0, 0, 0, 0, 0, 2], refusals: 1, readings: 9 });
    }

    #[test]
    fn a_refused_call_writes_the_answer_alone() {
        let bundle = pack_bundle(&[b"a"]).unwrap();
        for (bundle, place) in [(&bundle[..11], 0), (&bundle[..12], 4)] {
            let Written { returned, answer, lines, totals } = written(bundle, 45);
            assert_eq!((returned, fields(&answer)), (18, [place, 0, 0, 0, 0, 0]));
            assert!(lines.iter().all(|line| line.refusal == OLD && fields(&line.answer) == [OLD; 6]));
            assert_eq!(totals, OLD_TOTALS);
        }
    }

    /// What another archive might give is an error, and no panic.
    #[test]
    fn unknown_numbers_are_a_mismatch() {
        let of = |field, value| Error::Mismatch { field, value };
        for count in [0, 65, OLD] {
            assert_eq!(Answer { count, ..UNWRITTEN }.captures(), Err(of("count", count)));
        }
        for captures in [1, 64] {
            assert_eq!(Answer { count: captures as u64, ..UNWRITTEN }.captures(), Ok(captures));
        }
        let zero = Line::default();
        for refusal in [14, 20, 1 << 32 | 8, OLD] {
            assert_eq!(Line { refusal, ..zero }.judged(), Err(of("refusal", refusal)));
        }
        for verdict in [0, 8, OLD] {
            let line = Line { refusal: 0, answer: Answer { verdict, ..Answer::default() } };
            assert_eq!(line.judged(), Err(of("verdict", verdict)));
        }
        let answer = Answer { verdict: 1, count: 1 << 32, ..Answer::default() };
        assert_eq!(Line { refusal: 0, answer }.judged(), Err(of("count", 1 << 32)));
        let answer = Answer { place: 60, ..Answer::default() };
        assert_eq!(Line { refusal: 8, answer }.judged(), Ok(Err(Refusal::new(Reason::NotesShort, 60))));
    }
}
