//! Judges console captures by two-way pointer pushdown machines.
//!
//! A thin, safe wrapper of the proved library: each function here but [`pack_bundle`] is one call of it and decides
//! nothing. [`Grammar`], [`Image`] and [`Workspace`] own what the calls are lent, and [`Notes`] reads what they leave; every
//! verdict and every refusal is the library's. What is proved, and what not, is told in the repository's README. Each call
//! but [`version()`], which tells what is linked, gives [`Error::Refused`] where the input is not as it must be, and
//! [`Error::Mismatch`] where another archive was linked than the one that this crate is made for.
//!
//! ```
//! use sejimakpu::{Matching, Reason, Verdict};
//!
//! // A grammar of one rule: one byte from '0' to '9', and nothing after it.
//! let grammar = [5, b'0', b'9', 0];
//! let mut image = [0; sejimakpu::MAX_BUILT_IMAGE];
//! let length = sejimakpu::build(&grammar, Matching::Whole, &mut image)?;
//! let image = &image[..length];
//!
//! let capture = b"7";
//! let cells = sejimakpu::cells(image, capture.len())?;
//! let (mut notes, mut work) = (vec![0; cells], vec![0; cells]);
//! let judged = sejimakpu::judge(image, capture, &mut notes, &mut work)?;
//! assert_eq!(judged.verdict, Verdict::Accepted);
//! assert_eq!(judged.readings, 4);
//!
//! // Too few cells are refused, by number and place, and none of them changes.
//! let error = sejimakpu::judge(image, capture, &mut notes[1..], &mut work).unwrap_err();
//! let refusal = error.refusal().unwrap();
//! assert_eq!((refusal.number(), refusal.place()), (8, cells));
//! assert_eq!(refusal.reason(), Reason::NotesShort);
//! assert_eq!(error.to_string(), "refused 8 45: there are fewer notes than judging needs");
//! # Ok::<(), sejimakpu::Error>(())
//! ```
#![warn(missing_docs, clippy::missing_errors_doc, clippy::must_use_candidate)]

mod answers;
mod bundle;
mod error;
mod ffi;
mod grammar;
#[cfg(test)]
mod header;
mod image;
mod matching;
mod notes;
mod pack;
mod recursion;
mod version;
mod workspace;

pub use answers::{Config, Judged, Ran, Verdict};
pub use bundle::{judge_bundle, Lines, Report, Totals};
pub use error::{Error, Reason, Refusal};
pub use grammar::{Grammar, Rule};
pub use image::Image;
pub use matching::Matching;
pub use notes::{Note, Notes};
pub use pack::{pack_bundle, PackError};
pub use recursion::{check_recursion, check_text_recursion};
pub use version::{version, Version};
pub use workspace::Workspace;

/// The longest capture, in bytes.
pub const MAX_CAPTURE: usize = 65_535;

/// The most captures in a bundle.
pub const MAX_CAPTURES: usize = 64;

/// The longest grammar, in bytes: 31 rules.
pub const MAX_GRAMMAR: usize = 124;

/// A length of image buffer that no grammar's image passes.
pub const MAX_BUILT_IMAGE: usize = 82_188;

/// Checks an image.
///
/// ```
/// use sejimakpu::{Reason, Refusal};
/// let refusal = Refusal::new(Reason::ImageShort, 31);
/// assert_eq!(sejimakpu::check(&[0; 31]), Err(refusal.into()));
/// ```
///
/// # Errors
///
/// [`Error::Refused`]: refusals 1 to 6.
pub fn check(image: &[u8]) -> Result<(), Error> {
    ffi::answer_of(|answer| ffi::check(image, answer))?;
    Ok(())
}

/// N, how many notes and how many work cells [`judge`] needs for an image and any capture of so many bytes.
///
/// # Errors
///
/// [`Error::Refused`]: refusals 1 to 7.
pub fn cells(image: &[u8], capture_length: usize) -> Result<usize, Error> {
    ffi::answer_of(|answer| ffi::cells(image, capture_length, answer))?.count()
}

/// Judges a capture by an image.
///
/// Afterwards the note of a configuration, at (state · (n + 2) + head) · symbols + symbol, is 0 if the run never enters
/// it, 1 if the entry then on top is never removed, else 2 + the number of the configuration that removes it. The first
/// N work cells are 0. Later cells are as they were.
///
/// # Errors
///
/// [`Error::Refused`]: refusals 1 to 9; a refused call changes no cell.
pub fn judge(image: &[u8], capture: &[u8], notes: &mut [u32], work: &mut [u32]) -> Result<Judged, Error> {
    ffi::answer_of(|answer| ffi::judge(image, capture, notes, work, answer))?.judged()
}

/// Runs the machine step by step, at most `budget` steps, on a stack of lent cells. After an answer all cells are 0.
///
/// ```
/// // The empty grammar on the empty capture takes three steps and two cells.
/// let mut image = [0; 468];
/// sejimakpu::build(&[4, 0, 0, 0], sejimakpu::Matching::Whole, &mut image)?;
/// let run = |budget, cells| sejimakpu::plain_run(&image, &[], budget, &mut vec![7; cells]);
/// assert_eq!(run(3, 2)?.verdict, sejimakpu::Verdict::Accepted);
/// assert_eq!(run(2, 2)?.verdict, sejimakpu::Verdict::Spent);
/// assert_eq!(run(3, 1)?.verdict, sejimakpu::Verdict::Deep);
/// # Ok::<(), sejimakpu::Error>(())
/// ```
///
/// # Errors
///
/// [`Error::Refused`]: refusals 1 to 7 and 10; a refused call changes no cell.
pub fn plain_run(image: &[u8], capture: &[u8], budget: u32, stack: &mut [u32]) -> Result<Ran, Error> {
    let answer = ffi::answer_of(|answer| ffi::plain_run(image, capture, budget, stack, answer))?;
    Ok(Ran { verdict: answer.verdict()?, steps: answer.count()?, reached: answer.config()? })
}

/// Builds the image of a grammar at the start of a buffer, and answers its length. Later bytes stay.
///
/// The matching says how much of a capture has to match. [`Matching::Leading`] is for a console that goes on after the
/// match, as with a banner that the firmware prints after the dump; [`Matching::Whole`] is for wherever something after the
/// match would be a fault. With none chosen, by `Matching::default()`, it is leading. There was no choice before, and every
/// image was for the whole capture: an older caller who meant that must say `Matching::Whole` now.
///
/// ```
/// use sejimakpu::Matching;
///
/// // The two images of the empty grammar differ in one rule, by which a byte after the match is passed.
/// let (mut whole, mut leading, mut default) = ([0; 468], [0; 468], [0; 468]);
/// assert_eq!(sejimakpu::build(&[4, 0, 0, 0], Matching::Whole, &mut whole)?, 468);
/// assert_eq!(sejimakpu::build(&[4, 0, 0, 0], Matching::Leading, &mut leading)?, 468);
/// assert_eq!(sejimakpu::build(&[4, 0, 0, 0], Matching::default(), &mut default)?, 468);
/// assert_eq!((&whole[360..364], &leading[360..364]), (&[0, 0, 0, 0][..], &[1, 2, 0, 1][..]));
/// assert_eq!((&whole[..360], &whole[364..]), (&leading[..360], &leading[364..]));
/// assert_eq!(default, leading);
/// # Ok::<(), sejimakpu::Error>(())
/// ```
///
/// A range with its low byte above its high byte is legal and always fails:
///
/// ```
/// // Such a range, or else one byte 'a': as 'a' alone, with the three classes of 'a'.
/// let grammar = [2, 1, 2, 0, 5, 0xff, 0x00, 0, 5, b'a', b'a', 0];
/// let mut image = [0; sejimakpu::MAX_BUILT_IMAGE];
/// let length = sejimakpu::build(&grammar, sejimakpu::Matching::Whole, &mut image)?;
/// assert_eq!(length, 288 + 4 * 5 * (3 + 2) * 7);
/// # Ok::<(), sejimakpu::Error>(())
/// ```
///
/// # Errors
///
/// [`Error::Refused`]: refusals 11 to 13; a refused call changes no byte.
pub fn build(grammar: &[u8], matching: Matching, image: &mut [u8]) -> Result<usize, Error> {
    ffi::answer_of(|answer| ffi::build(grammar, matching, image, answer))?.count()
}

/// Reads a typed grammar: puts its bytes at the start of the array, and answers their count, for [`build`]. Later bytes
/// stay.
///
/// A line is a name of letters a to z, `=`, an expression and `;`, and the first line is where parsing starts. In an
/// expression stand names, ranges such as `'a-z'`, `.` for any byte, `empty` and `fail`; suffixes `*`, `+` and `?` bind
/// first, then prefixes `!` and `&`, then sequence, then `/`; parentheses nest up to 16 deep. The README tells all of it.
///
/// ```
/// use sejimakpu::{Reason, Refusal};
/// let mut grammar = [0; sejimakpu::MAX_GRAMMAR];
/// let length = sejimakpu::read_grammar(b"port = '1-8' / 'a-b';", &mut grammar)?;
/// assert_eq!(grammar[..length], [2, 1, 2, 0, 5, b'1', b'8', 0, 5, b'a', b'b', 0]);
///
/// // A name that no line defines, with its offset.
/// let refusal = Refusal::new(Reason::TextSyntax, 7);
/// assert_eq!(sejimakpu::read_grammar(b"port = digit;", &mut grammar), Err(refusal.into()));
/// # Ok::<(), sejimakpu::Error>(())
/// ```
///
/// # Errors
///
/// [`Error::Refused`]: refusals 15 and 17, whichever comes first in the text, then 16; a refused call changes no byte.
pub fn read_grammar(text: &[u8], grammar: &mut [u8; MAX_GRAMMAR]) -> Result<usize, Error> {
    ffi::answer_of(|answer| ffi::read_grammar(text, grammar, answer))?.count()
}

/// Builds the image of a typed grammar at the start of a buffer, and answers its length. Later bytes stay.
///
/// It is for the whole capture: the image that [`build`] makes by [`Matching::Whole`] of the bytes that [`read_grammar`]
/// gives. For a leading match, give these bytes to [`build`].
///
/// ```
/// let mut image = [0; sejimakpu::MAX_BUILT_IMAGE];
/// let length = sejimakpu::build_text(b"word = 'a-z'+;", &mut image)?;
/// // Five rules and three classes.
/// assert_eq!(length, 288 + 4 * 5 * (3 + 2) * 11);
/// assert!(sejimakpu::check(&image[..length]).is_ok());
/// # Ok::<(), sejimakpu::Error>(())
/// ```
///
/// # Errors
///
/// [`Error::Refused`]: refusals 15 to 17 as of [`read_grammar`], then 13; a refused call changes no byte.
pub fn build_text(text: &[u8], image: &mut [u8]) -> Result<usize, Error> {
    ffi::answer_of(|answer| ffi::build_text(text, image, answer))?.count()
}

/// Judges a capture by a typed grammar: builds its image at the start of a buffer, and judges by that as [`judge`] does.
///
/// It is for the whole capture, as the image of [`build_text`] is: accepted only where parsing consumes all of it.
/// Afterwards the buffer holds the image, and notes and work cells are as [`judge`] leaves them. A grammar of m rules
/// needs 5 · (n + 2) · (2 · m + 1) of each for n bytes; with too few the refusal says how many.
///
/// ```
/// use sejimakpu::Verdict;
/// let (text, capture) = (b"word = 'a-z'+;", b"ring");
/// let mut image = [0; sejimakpu::MAX_BUILT_IMAGE];
/// let length = sejimakpu::build_text(text, &mut image)?;
/// let cells = sejimakpu::cells(&image[..length], capture.len())?;
///
/// let (mut notes, mut work) = (vec![0; cells], vec![0; cells]);
/// let judged = sejimakpu::judge_text(text, capture, &mut image, &mut notes, &mut work)?;
/// assert_eq!(judged.verdict, Verdict::Accepted);
/// # Ok::<(), sejimakpu::Error>(())
/// ```
///
/// # Errors
///
/// [`Error::Refused`]: refusals 15 to 17 as of [`read_grammar`], then 13, then 7 to 9; a refused call changes no byte and
/// no cell.
pub fn judge_text(
    text: &[u8],
    capture: &[u8],
    image: &mut [u8],
    notes: &mut [u32],
    work: &mut [u32],
) -> Result<Judged, Error> {
    ffi::answer_of(|answer| ffi::judge_text(text, capture, image, notes, work, answer))?.judged()
}
