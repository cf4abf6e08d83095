//! The check of a grammar for left recursion, of its bytes and of its text.
use crate::{ffi, Error};

/// Checks that no rule of a grammar leads back to itself before anything is consumed. Where it passes, judging by the
/// grammar never says [`Looping`](crate::Verdict::Looping), whatever the capture and whichever the
/// [`Matching`](crate::Matching).
///
/// A rule may match nothing if it is empty, a not, a sequence of two such, or a choice with one such, and only then. A
/// sequence leads to its first part, and to its second where the first may match nothing; a choice leads to both parts, a
/// not to its own. The place of the refusal is the number of the lowest rule that leads back to itself, by any number of
/// steps; rules that rule 0 never comes to count too.
///
/// A grammar that does not pass may be built and judged by all the same: it may have captures on which it ends.
///
/// ```
/// use sejimakpu::{Reason, Refusal};
///
/// // Any number of bytes 'a': rule 1 consumes one before rule 0 comes again.
/// let [choice, more, byte, empty] = [[2, 1, 3, 0], [1, 2, 0, 0], [5, b'a', b'a', 0], [4, 0, 0, 0]];
/// assert_eq!(sejimakpu::check_recursion([choice, more, byte, empty].as_flattened()), Ok(()));
///
/// // With the empty rule in the place of the byte it goes round in a circle, from rule 0 on.
/// let refusal = Refusal::new(Reason::LeftRecursion, 0);
/// assert_eq!(sejimakpu::check_recursion([choice, more, empty, empty].as_flattened()), Err(refusal.into()));
/// ```
///
/// # Errors
///
/// [`Error::Refused`]: refusals 11 and 12, then 19.
pub fn check_recursion(grammar: &[u8]) -> Result<(), Error> {
    ffi::answer_of(|answer| ffi::check_recursion(grammar, answer))?;
    Ok(())
}

/// Checks the grammar that [`read_grammar`](crate::read_grammar) reads of a text, as [`check_recursion`] does.
///
/// The place of refusal 19 is the rule's number in that grammar. [`Refusal::name`](crate::Refusal::name) then says where
/// in the text: it is the offset of the name of the line that the rule is of, which for a helper rule is the line whose
/// expression needs it.
///
/// ```
/// assert_eq!(sejimakpu::check_text_recursion(b"word = letter+; letter = 'a-z';"), Ok(()));
///
/// // A letter that may be left out, again and again: the helper rules of the plus lead back to themselves.
/// let error = sejimakpu::check_text_recursion(b"letter = 'a-z'?; word = letter+;").unwrap_err();
/// let refusal = error.refusal().unwrap();
/// assert_eq!((refusal.number(), refusal.place(), refusal.name()), (19, 4, Some(17)));
/// let words = "refused 19 4: a rule of the grammar leads back to itself before anything is consumed (the line named at 17)";
/// assert_eq!(error.to_string(), words);
/// ```
///
/// # Errors
///
/// [`Error::Refused`]: refusals 15 to 17 as of [`read_grammar`](crate::read_grammar), then 19.
pub fn check_text_recursion(text: &[u8]) -> Result<(), Error> {
    ffi::named_answer_of(|answer| ffi::check_text_recursion(text, answer))?;
    Ok(())
}
