//! Cells that are lent to one judging after another.
use crate::{ffi, Error, Image, Judged, Notes, Reason};
use std::collections::TryReserveError;

/// Notes and work cells, as many as were needed so far: for judging many captures, by one image or by several.
///
/// ```
/// use sejimakpu::{Grammar, Matching, Verdict, Workspace};
///
/// let image = Grammar::from_text(b"word = 'a-z'+;")?.image(Matching::Whole)?;
/// let mut workspace = Workspace::new();
/// assert_eq!(workspace.judge(&image, b"ring")?.verdict, Verdict::Accepted);
/// assert_eq!(workspace.judge(&image, b"ring 2")?.verdict, Verdict::Stuck);
/// # Ok::<(), sejimakpu::Error>(())
/// ```
#[derive(Clone, Debug, Default)]
pub struct Workspace {
    notes: Vec<u32>,
    work: Vec<u32>,
    /// How the notes of the last judging are laid out.
    last: Option<Layout>,
}

/// The counts by which notes are found.
#[derive(Clone, Copy, Debug)]
struct Layout {
    states: usize,
    symbols: usize,
    capture_length: usize,
}

impl Workspace {
    /// A workspace without a cell.
    #[must_use]
    pub fn new() -> Workspace {
        Workspace::default()
    }

    /// Judges a capture by an image, as [`judge`](crate::judge) does. Where the cells are too few, that call is refused and
    /// says how many it needs; then there are so many, and it is made again.
    ///
    /// # Errors
    ///
    /// [`Error::Refused`]: refusal 7; and refusal 8 where there is no memory for the cells.
    pub fn judge(&mut self, image: &Image, capture: &[u8]) -> Result<Judged, Error> {
        self.last = None;
        let judged = match crate::judge(image.bytes(), capture, &mut self.notes, &mut self.work) {
            Err(Error::Refused(refusal)) if refusal.reason() == Reason::NotesShort => {
                self.grow(refusal.place()).map_err(|_| refusal)?;
                crate::judge(image.bytes(), capture, &mut self.notes, &mut self.work)
            }
            judged => judged,
        }?;
        self.last = Some(Layout { states: image.states(), symbols: image.symbols(), capture_length: capture.len() });
        Ok(judged)
    }

    /// The notes of the last capture; none where none was judged, or the last was refused.
    #[must_use]
    pub fn notes(&self) -> Option<Notes<'_>> {
        let Layout { states, symbols, capture_length } = self.last?;
        Notes::laid_out(states, symbols, capture_length, &self.notes)
    }

    /// How many notes there are, and how many work cells.
    #[must_use]
    pub fn cells(&self) -> usize {
        self.notes.len()
    }

    /// So many cells, or half as many again as there were: captures that come by length do not each ask for new ones. The
    /// old cells go first. Without memory there is none.
    fn grow(&mut self, needed: usize) -> Result<(), TryReserveError> {
        let cells = needed.max(self.notes.len() + self.notes.len() / 2);
        (self.notes, self.work) = (Vec::new(), Vec::new());
        // Both are had before one is written.
        for lent in [&mut self.notes, &mut self.work] {
            lent.try_reserve_exact(cells)?;
            ffi::advise_large(lent);
        }
        self.notes.resize(cells, 0);
        self.work.resize(cells, 0);
        Ok(())
    }
}

#[cfg(test)]
mod tests {
    use super::*;
    use crate::{Grammar, Matching, Verdict, MAX_CAPTURE};

    #[test]
    fn as_with_cells_of_its_own() {
        let mut workspace = Workspace::new();
        assert!(workspace.notes().is_none());
        for text in ["word = 'a-z'+;", "any = .*;", "list = 'a-a' list / empty;"] {
            let image = Grammar::from_text(text.as_bytes()).unwrap().image(Matching::Whole).unwrap();
            for capture in ["ring", "", "aaaaaaaaaaaaaaaaaaaaaaaaaaaaaaaaaaaaaaaaaaaaaa", "r1", "a"] {
                let cells = image.cells(capture.len()).unwrap();
                let (mut notes, mut work) = (vec![0; cells], vec![0; cells]);
                let alone = crate::judge(image.bytes(), capture.as_bytes(), &mut notes, &mut work).unwrap();
                assert_eq!(workspace.judge(&image, capture.as_bytes()), Ok(alone), "{text} {capture}");
                assert_eq!(workspace.notes[..cells], notes, "{text} {capture}");
                assert_eq!(workspace.notes().unwrap().entered().count(), alone.readings as usize);
            }
        }
    }

    #[test]
    fn cells_are_kept() {
        let image = Grammar::from_bytes(&[4, 0, 0, 0]).unwrap().image(Matching::Leading).unwrap();
        let mut workspace = Workspace::new();
        let judge = |workspace: &mut Workspace, length| workspace.judge(&image, &vec![7; length]).map(|j| j.verdict);
        assert_eq!(judge(&mut workspace, 100), Ok(Verdict::Accepted));
        assert_eq!(workspace.cells(), 5 * 102 * 3);
        assert_eq!(judge(&mut workspace, 3), Ok(Verdict::Accepted));
        assert_eq!(workspace.cells(), 5 * 102 * 3);
        // One byte more than there was room for: half as many cells again.
        assert_eq!(judge(&mut workspace, 101), Ok(Verdict::Accepted));
        assert_eq!(workspace.cells(), 5 * 51 * 9);
        // The longest capture, and one byte more: refused, with no note to read, and no cell taken.
        assert_eq!(judge(&mut workspace, MAX_CAPTURE), Ok(Verdict::Accepted));
        assert_eq!(workspace.cells(), 5 * (MAX_CAPTURE + 2) * 3);
        let refusal = judge(&mut workspace, MAX_CAPTURE + 1).unwrap_err().refusal().unwrap();
        assert_eq!((refusal.number(), refusal.place()), (7, MAX_CAPTURE + 1));
        assert!(workspace.notes().is_none());
        assert_eq!(workspace.cells(), 5 * (MAX_CAPTURE + 2) * 3);
    }
}
