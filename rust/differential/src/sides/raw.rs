//! Some of the archive's own functions, called over old contents. For a bundle the wrapper lends fresh lines and totals, and
//! keeps the lines behind the last one, and what a refused call leaves, to itself; for left recursion it keeps all but place
//! and name.

/// In C these are structs of 64-bit numbers alone, so arrays lie in the same way.
pub type Answer = [u64; 6];
pub type Line = [u64; 7];
pub type Totals = [u64; 10];

/// How many lines are lent, whatever the bundle's count.
pub const LINES: usize = 64;

extern "C" {
    fn sejimakpu_judge_bundle_nonnull(
        image: *const u8,
        image_length: usize,
        bundle: *const u8,
        bundle_length: usize,
        notes: *mut u32,
        notes_length: usize,
        work: *mut u32,
        work_length: usize,
        lines: *mut Line,
        totals: *mut Totals,
        answer: *mut Answer,
    ) -> u32;
    fn sejimakpu_check_recursion_nonnull(grammar: *const u8, grammar_length: usize, answer: *mut Answer) -> u32;
    fn sejimakpu_check_text_recursion_nonnull(text: *const u8, text_length: usize, answer: *mut Answer) -> u32;
}

pub fn judge_bundle(
    image: &[u8],
    bundle: &[u8],
    notes: &mut [u32],
    work: &mut [u32],
    lines: &mut [Line; LINES],
    totals: &mut Totals,
    answer: &mut Answer,
) -> u32 {
    // SAFETY: each pointer goes with its own slice's length, or with an array as long as what the call may write; what is
    // written is borrowed alone, and the archive keeps no pointer.
    unsafe {
        sejimakpu_judge_bundle_nonnull(
            image.as_ptr(),
            image.len(),
            bundle.as_ptr(),
            bundle.len(),
            notes.as_mut_ptr(),
            notes.len(),
            work.as_mut_ptr(),
            work.len(),
            lines.as_mut_ptr(),
            totals,
            answer,
        )
    }
}

pub fn check_recursion(grammar: &[u8], answer: &mut Answer) -> u32 {
    // SAFETY: pointer and length are those of one slice; only `answer` is written, and the archive keeps no pointer.
    unsafe { sejimakpu_check_recursion_nonnull(grammar.as_ptr(), grammar.len(), answer) }
}

pub fn check_text_recursion(text: &[u8], answer: &mut Answer) -> u32 {
    // SAFETY: pointer and length are those of one slice; only `answer` is written, and the archive keeps no pointer.
    unsafe { sejimakpu_check_text_recursion_nonnull(text.as_ptr(), text.len(), answer) }
}
