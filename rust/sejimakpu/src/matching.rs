//! Which captures the image of a grammar accepts.

/// How much of a capture a grammar has to match for its image to accept: the whole, or a leading part. It is chosen when
/// the image is built, by [`build`](crate::build), and the image has the same length either way.
///
/// Say `Leading` where the console goes on after what is described, as with a banner that the firmware prints after the
/// dump. Say `Whole` wherever something after the match would be a fault.
///
/// ```
/// use sejimakpu::{Matching, Verdict};
///
/// // A dump of two digits and a line feed.
/// let mut grammar = [0; sejimakpu::MAX_GRAMMAR];
/// let length = sejimakpu::read_grammar(b"dump = digit digit '\n-\n'; digit = '0-9';", &mut grammar)?;
///
/// let verdict = |matching, capture: &[u8]| {
///     let mut image = [0; sejimakpu::MAX_BUILT_IMAGE];
///     let length = sejimakpu::build(&grammar[..length], matching, &mut image)?;
///     let cells = sejimakpu::cells(&image[..length], capture.len())?;
///     let judged = sejimakpu::judge(&image[..length], capture, &mut vec![0; cells], &mut vec![0; cells])?;
///     Ok::<_, sejimakpu::Error>(judged.verdict)
/// };
///
/// // With a banner after it, the dump is not the whole capture.
/// assert_eq!(verdict(Matching::Whole, b"42\nready")?, Verdict::Stuck);
/// assert_eq!(verdict(Matching::Leading, b"42\nready")?, Verdict::Accepted);
/// // A broken dump passes neither way, and one alone passes both ways.
/// assert_eq!(verdict(Matching::Whole, b"4\nready")?, Verdict::Stuck);
/// assert_eq!(verdict(Matching::Leading, b"4\nready")?, Verdict::Stuck);
/// assert_eq!(verdict(Matching::Whole, b"42\n")?, Verdict::Accepted);
/// assert_eq!(verdict(Matching::Leading, b"42\n")?, Verdict::Accepted);
/// # Ok::<(), sejimakpu::Error>(())
/// ```
///
/// `Leading` does not look at what follows the match. A grammar that matches one line or more accepts a dump whose
/// third line is broken: the first two lines are a match. Such a grammar has to say itself what must not follow, as the
/// second one here does by a not:
///
/// ```
/// use sejimakpu::{Matching, Verdict};
///
/// let verdict = |text: &[u8], capture: &[u8]| {
///     let mut grammar = [0; sejimakpu::MAX_GRAMMAR];
///     let length = sejimakpu::read_grammar(text, &mut grammar)?;
///     let mut image = [0; sejimakpu::MAX_BUILT_IMAGE];
///     let length = sejimakpu::build(&grammar[..length], Matching::Leading, &mut image)?;
///     let cells = sejimakpu::cells(&image[..length], capture.len())?;
///     let judged = sejimakpu::judge(&image[..length], capture, &mut vec![0; cells], &mut vec![0; cells])?;
///     Ok::<_, sejimakpu::Error>(judged.verdict)
/// };
/// let lines = b"dump = line+; line = digit digit '\n-\n'; digit = '0-9';";
/// let ended = b"dump = line+ !digit; line = digit digit '\n-\n'; digit = '0-9';";
///
/// assert_eq!(verdict(lines, b"42\n17\n3?\nready")?, Verdict::Accepted);
/// assert_eq!(verdict(ended, b"42\n17\n3?\nready")?, Verdict::Stuck);
/// assert_eq!(verdict(ended, b"42\n17\n35\nready")?, Verdict::Accepted);
/// # Ok::<(), sejimakpu::Error>(())
/// ```
#[derive(Clone, Copy, Debug, Default, PartialEq, Eq, Hash)]
pub enum Matching {
    /// Accepted exactly where parsing from rule 0 consumes the whole capture. Stuck where it fails, and where it succeeds
    /// before the capture's end; looping where it has no result.
    Whole,
    /// Accepted exactly where parsing from rule 0 succeeds, whatever follows what it consumes. Stuck exactly where it
    /// fails; looping where it has no result. This is the default.
    #[default]
    Leading,
}

#[cfg(test)]
mod tests {
    use super::*;

    #[test]
    fn leading_by_default() {
        assert_eq!(Matching::default(), Matching::Leading);
    }
}
