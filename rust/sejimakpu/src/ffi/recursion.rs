//! The checks for left recursion, as `include/sejimakpu.h` declares them.
use super::Answer;

extern "C" {
    fn sejimakpu_check_recursion_nonnull(grammar: *const u8, grammar_length: usize, answer: *mut Answer) -> u32;
    fn sejimakpu_check_text_recursion_nonnull(text: *const u8, text_length: usize, answer: *mut Answer) -> u32;
}

pub(crate) fn check_recursion(grammar: &[u8], answer: &mut Answer) -> u32 {
    // SAFETY: pointer and length are those of one slice; only `answer` is written.
    unsafe { sejimakpu_check_recursion_nonnull(grammar.as_ptr(), grammar.len(), answer) }
}

pub(crate) fn check_text_recursion(text: &[u8], answer: &mut Answer) -> u32 {
    // SAFETY: pointer and length are those of one slice; only `answer` is written.
    unsafe { sejimakpu_check_text_recursion_nonnull(text.as_ptr(), text.len(), answer) }
}
