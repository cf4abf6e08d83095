//! The archive's functions, as `include/sejimakpu.h` declares them. All `unsafe` of the crate is here, in [`bundle`],
//! [`pages`], [`recursion`] and [`mod@version`].
//!
//! What makes each call sound: a slice's pointer is never null, is aligned, and is good for the slice's length, also
//! where that is 0; what the archive may write is borrowed by `&mut`, so that it overlaps nothing else; and the archive
//! keeps no pointer after the call and does not unwind.
mod bundle;
mod pages;
mod recursion;
#[cfg(test)]
mod tests;
mod version;

use crate::{Config, Error, Judged, Matching, Reason, Refusal, Verdict, MAX_GRAMMAR};

pub(crate) use bundle::{judge_bundle, Line};
pub(crate) use pages::advise_large;
pub(crate) use recursion::{check_recursion, check_text_recursion};
pub(crate) use version::version;

/// A call's answer, field by field as in C.
#[repr(C)]
#[derive(Clone, Copy, Default)]
pub(crate) struct Answer {
    place: u64,
    verdict: u64,
    count: u64,
    state: u64,
    head: u64,
    symbol: u64,
}

/// A number as the type that the archive's contract bounds it to.
fn number<T: TryFrom<u64>>(field: &'static str, value: u64) -> Result<T, Error> {
    T::try_from(value).map_err(|_| Error::Mismatch { field, value })
}

impl Answer {
    pub fn verdict(&self) -> Result<Verdict, Error> {
        Verdict::of_number(self.verdict).ok_or(Error::Mismatch { field: "verdict", value: self.verdict })
    }

    /// Readings, steps, cells or bytes.
    pub fn count<T: TryFrom<u64>>(&self) -> Result<T, Error> {
        number("count", self.count)
    }

    pub fn config(&self) -> Result<Config, Error> {
        Ok(Config {
            state: number("state", self.state)?,
            head: number("head", self.head)?,
            symbol: number("symbol", self.symbol)?,
        })
    }

    pub fn judged(&self) -> Result<Judged, Error> {
        Ok(Judged { verdict: self.verdict()?, readings: self.count()?, end: self.config()? })
    }

    /// Why there is no answer, by the number of the refusal.
    fn refusal(&self, value: u64) -> Result<Refusal, Error> {
        let reason = u32::try_from(value).ok().and_then(Reason::of_number);
        Ok(Refusal::new(reason.ok_or(Error::Mismatch { field: "refusal", value })?, number("place", self.place)?))
    }
}

/// Makes a call: its answer, or why there is none.
pub(crate) fn answer_of(call: impl FnOnce(&mut Answer) -> u32) -> Result<Answer, Error> {
    answer_or(call, Answer::refusal)
}

/// The same of a call on a text, whose refusal 19 has the offset of a name in the place of a count.
pub(crate) fn named_answer_of(call: impl FnOnce(&mut Answer) -> u32) -> Result<Answer, Error> {
    answer_or(call, |answer, returned| match answer.refusal(returned)? {
        refusal if refusal.reason() == Reason::LeftRecursion => Ok(refusal.with_name(answer.count()?)),
        refusal => Ok(refusal),
    })
}

fn answer_or(
    call: impl FnOnce(&mut Answer) -> u32,
    refusal: impl FnOnce(&Answer, u64) -> Result<Refusal, Error>,
) -> Result<Answer, Error> {
    let mut answer = Answer::default();
    match call(&mut answer) {
        0 => Ok(answer),
        returned => Err(refusal(&answer, returned.into())?.into()),
    }
}

extern "C" {
    fn sejimakpu_check_nonnull(image: *const u8, image_length: usize, answer: *mut Answer) -> u32;
    fn sejimakpu_cells_nonnull(
        image: *const u8,
        image_length: usize,
        capture_length: usize,
        answer: *mut Answer,
    ) -> u32;
    fn sejimakpu_judge_nonnull(
        image: *const u8,
        image_length: usize,
        capture: *const u8,
        capture_length: usize,
        notes: *mut u32,
        notes_length: usize,
        work: *mut u32,
        work_length: usize,
        answer: *mut Answer,
    ) -> u32;
    fn sejimakpu_plain_run_nonnull(
        image: *const u8,
        image_length: usize,
        capture: *const u8,
        capture_length: usize,
        budget: u32,
        stack: *mut u32,
        stack_length: usize,
        answer: *mut Answer,
    ) -> u32;
    fn sejimakpu_build_nonnull(
        grammar: *const u8,
        grammar_length: usize,
        image: *mut u8,
        image_length: usize,
        answer: *mut Answer,
    ) -> u32;
    fn sejimakpu_build_whole_nonnull(
        grammar: *const u8,
        grammar_length: usize,
        image: *mut u8,
        image_length: usize,
        answer: *mut Answer,
    ) -> u32;
    fn sejimakpu_read_grammar_nonnull(
        text: *const u8,
        text_length: usize,
        grammar: *mut u8,
        answer: *mut Answer,
    ) -> u32;
    fn sejimakpu_build_text_nonnull(
        text: *const u8,
        text_length: usize,
        image: *mut u8,
        image_length: usize,
        answer: *mut Answer,
    ) -> u32;
    fn sejimakpu_judge_text_nonnull(
        text: *const u8,
        text_length: usize,
        capture: *const u8,
        capture_length: usize,
        image: *mut u8,
        image_length: usize,
        notes: *mut u32,
        notes_length: usize,
        work: *mut u32,
        work_length: usize,
        answer: *mut Answer,
    ) -> u32;
}

pub(crate) fn check(image: &[u8], answer: &mut Answer) -> u32 {
    // SAFETY: pointer and length are those of one slice; only `answer` is written.
    unsafe { sejimakpu_check_nonnull(image.as_ptr(), image.len(), answer) }
}

pub(crate) fn cells(image: &[u8], capture_length: usize, answer: &mut Answer) -> u32 {
    // SAFETY: pointer and length are those of one slice; no capture is read, and only `answer` is written.
    unsafe { sejimakpu_cells_nonnull(image.as_ptr(), image.len(), capture_length, answer) }
}

pub(crate) fn judge(image: &[u8], capture: &[u8], notes: &mut [u32], work: &mut [u32], answer: &mut Answer) -> u32 {
    // SAFETY: each pointer goes with its own slice's length; `notes`, `work` and `answer` are written, each borrowed alone.
    unsafe {
        sejimakpu_judge_nonnull(
            image.as_ptr(),
            image.len(),
            capture.as_ptr(),
            capture.len(),
            notes.as_mut_ptr(),
            notes.len(),
            work.as_mut_ptr(),
            work.len(),
            answer,
        )
    }
}

pub(crate) fn plain_run(image: &[u8], capture: &[u8], budget: u32, stack: &mut [u32], answer: &mut Answer) -> u32 {
    // SAFETY: each pointer goes with its own slice's length; `stack` and `answer` are written, each borrowed alone.
    unsafe {
        sejimakpu_plain_run_nonnull(
            image.as_ptr(),
            image.len(),
            capture.as_ptr(),
            capture.len(),
            budget,
            stack.as_mut_ptr(),
            stack.len(),
            answer,
        )
    }
}

pub(crate) fn build(grammar: &[u8], matching: Matching, image: &mut [u8], answer: &mut Answer) -> u32 {
    // The archive's name without a word for the matching is that of the default.
    let build = match matching {
        Matching::Whole => sejimakpu_build_whole_nonnull,
        Matching::Leading => sejimakpu_build_nonnull,
    };
    // SAFETY: each pointer goes with its own slice's length; `image` and `answer` are written, each borrowed alone.
    unsafe { build(grammar.as_ptr(), grammar.len(), image.as_mut_ptr(), image.len(), answer) }
}

pub(crate) fn read_grammar(text: &[u8], grammar: &mut [u8; MAX_GRAMMAR], answer: &mut Answer) -> u32 {
    // SAFETY: the text's pointer goes with its length, and `grammar` has the 124 bytes that may be written; `grammar` and
    // `answer` are each borrowed alone.
    unsafe { sejimakpu_read_grammar_nonnull(text.as_ptr(), text.len(), grammar.as_mut_ptr(), answer) }
}

pub(crate) fn build_text(text: &[u8], image: &mut [u8], answer: &mut Answer) -> u32 {
    // SAFETY: each pointer goes with its own slice's length; `image` and `answer` are written, each borrowed alone.
    unsafe { sejimakpu_build_text_nonnull(text.as_ptr(), text.len(), image.as_mut_ptr(), image.len(), answer) }
}

pub(crate) fn judge_text(
    text: &[u8],
    capture: &[u8],
    image: &mut [u8],
    notes: &mut [u32],
    work: &mut [u32],
    answer: &mut Answer,
) -> u32 {
    // SAFETY: each pointer goes with its own slice's length; `image`, `notes`, `work` and `answer` are written, each
    // borrowed alone.
    unsafe {
        sejimakpu_judge_text_nonnull(
            text.as_ptr(),
            text.len(),
            capture.as_ptr(),
            capture.len(),
            image.as_mut_ptr(),
            image.len(),
            notes.as_mut_ptr(),
            notes.len(),
            work.as_mut_ptr(),
            work.len(),
            answer,
        )
    }
}
