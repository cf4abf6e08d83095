//! The notes of a judged capture, and the furthest place that its run entered.
use crate::{Config, Image, Judged};

/// What is noted of a configuration; in the field's terms, the summary of it.
#[derive(Clone, Copy, Debug, PartialEq, Eq, Hash)]
pub enum Note {
    /// The run never enters it.
    NeverEntered,
    /// The run enters it, and the entry then on top is never removed.
    NeverRemoved,
    /// The run enters it, and this configuration removes the entry then on top: its terminator.
    RemovedBy(Config),
}

/// The notes of one judged capture: what [`judge`](crate::judge) left in the cells.
///
/// ```
/// use sejimakpu::{Config, Grammar, Matching, Note, Workspace};
///
/// let image = Grammar::from_text(b"port = '1-8';")?.image(Matching::Whole)?;
/// let mut workspace = Workspace::new();
/// let judged = workspace.judge(&image, b"9")?;
/// let notes = workspace.notes().unwrap();
///
/// // The range of rule 0, symbol 1, was tried at place 1, and failed there: it removed its own entry.
/// let tried = Config { state: 1, head: 1, symbol: 1 };
/// assert_eq!(notes.get(tried), Some(Note::RemovedBy(tried)));
/// // Nothing was tried at place 2, the end of the capture.
/// assert_eq!(notes.get(Config { head: 2, ..tried }), Some(Note::NeverEntered));
/// assert_eq!(judged.furthest(&notes), 1);
/// assert_eq!(notes.entered().count() as u32, judged.readings);
/// # Ok::<(), sejimakpu::Error>(())
/// ```
#[derive(Clone, Copy, Debug)]
pub struct Notes<'a> {
    cells: &'a [u32],
    places: usize,
    symbols: usize,
}

impl<'a> Notes<'a> {
    /// The notes that [`judge`](crate::judge) left for an image and a capture of so many bytes; none where there are fewer
    /// cells than that call would have taken.
    #[must_use]
    pub fn new(image: &Image, capture_length: usize, cells: &'a [u32]) -> Option<Notes<'a>> {
        Notes::laid_out(image.states(), image.symbols(), capture_length, cells)
    }

    /// The notes of a machine of so many states and symbols.
    pub(crate) fn laid_out(
        states: usize,
        symbols: usize,
        capture_length: usize,
        cells: &'a [u32],
    ) -> Option<Notes<'a>> {
        let places = capture_length.checked_add(2)?;
        let length = states.checked_mul(places)?.checked_mul(symbols)?;
        Some(Notes { cells: cells.get(..length)?, places, symbols })
    }

    /// The note of a configuration; none where the machine or the tape has no such one.
    #[must_use]
    pub fn get(&self, config: Config) -> Option<Note> {
        let (state, head, symbol) = (config.state as usize, config.head as usize, config.symbol as usize);
        if head >= self.places || symbol >= self.symbols {
            return None;
        }
        let cell = state.checked_mul(self.places)?.checked_add(head)?.checked_mul(self.symbols)?.checked_add(symbol)?;
        Some(match *self.cells.get(cell)? {
            0 => Note::NeverEntered,
            1 => Note::NeverRemoved,
            note => Note::RemovedBy(self.config(note as usize - 2)),
        })
    }

    /// The configurations that the run enters, by state, place and symbol.
    pub fn entered(&self) -> impl Iterator<Item = Config> + 'a {
        let notes = *self;
        notes.cells.iter().enumerate().filter(|(_, &note)| note != 0).map(move |(number, _)| notes.config(number))
    }

    /// The configuration of a number.
    fn config(&self, number: usize) -> Config {
        let (row, symbol) = (number / self.symbols, number % self.symbols);
        Config { state: (row / self.places) as u32, head: (row % self.places) as u32, symbol: symbol as u32 }
    }
}

impl Judged {
    /// The furthest place that the run entered: the highest head of all its configurations, with these notes of it. It is a
    /// hint at where a capture that is not accepted is wrong, not more; [`Judged::end`] is where the run ended.
    ///
    /// ```
    /// use sejimakpu::{Grammar, Matching, Verdict, Workspace};
    ///
    /// let text = b"table = line table / line; line = port dash port feed; port = '1-8'; dash = '---'; feed = '\n-\n';";
    /// let image = Grammar::from_text(text)?.image(Matching::Whole)?;
    /// let mut workspace = Workspace::new();
    ///
    /// let judged = workspace.judge(&image, b"1-2\n2-3\n3-?\n")?;
    /// assert_eq!(judged.verdict, Verdict::Stuck);
    /// // Two lines matched, so that the run ends before byte 8, at place 9; it was at the byte `?`, place 11.
    /// assert_eq!(judged.end.head, 9);
    /// assert_eq!(judged.furthest(&workspace.notes().unwrap()), 11);
    /// # Ok::<(), sejimakpu::Error>(())
    /// ```
    #[must_use]
    pub fn furthest(&self, notes: &Notes<'_>) -> u32 {
        // The run enters its end, so that only the places after it are searched, of each state from the last one on.
        let row = notes.places * notes.symbols;
        notes.cells.chunks(row).fold(self.end.head, |furthest, cells| {
            let later = ((furthest as usize + 1) * notes.symbols).min(cells.len());
            match cells[later..].iter().rposition(|&note| note != 0) {
                Some(cell) => ((later + cell) / notes.symbols) as u32,
                None => furthest,
            }
        })
    }
}

#[cfg(test)]
mod tests {
    use super::*;
    use crate::{Grammar, Matching, Workspace};

    /// Whatever the capture, the furthest place is the highest of the configurations entered, and these are as many as
    /// the readings.
    #[test]
    fn furthest_is_the_highest_place_entered() {
        let text = b"list = item list / item; item = !stop 'a-c'+ stop / &stop '.-.'; stop = '.-.';";
        let grammar = Grammar::from_text(text).unwrap();
        let mut workspace = Workspace::new();
        for matching in [Matching::Whole, Matching::Leading] {
            let image = grammar.image(matching).unwrap();
            for capture in ["", ".", "a", "abc.", "abc.ab", "abc.ab.x", "x", "aaaa.b.c.aa?", "..", ".a"] {
                let judged = workspace.judge(&image, capture.as_bytes()).unwrap();
                let notes = workspace.notes().unwrap();
                let highest = notes.entered().map(|config| config.head).max().unwrap();
                assert_eq!(judged.furthest(&notes), highest, "{capture}");
                assert_eq!(notes.entered().count(), judged.readings as usize, "{capture}");
                assert_eq!(notes.get(judged.end).map(|note| note == Note::NeverEntered), Some(false), "{capture}");
            }
        }
    }

    #[test]
    fn nothing_outside_the_table() {
        let image = Grammar::from_bytes(&[4, 0, 0, 0]).unwrap().image(Matching::Whole).unwrap();
        let cells = vec![0; image.cells(3).unwrap()];
        let notes = Notes::new(&image, 3, &cells).unwrap();
        let last = Config { state: 4, head: 4, symbol: 2 };
        assert_eq!(notes.get(last), Some(Note::NeverEntered));
        assert_eq!(notes.get(Config { state: 5, ..last }), None);
        assert_eq!(notes.get(Config { head: 5, ..last }), None);
        assert_eq!(notes.get(Config { symbol: 3, ..last }), None);
        assert!(Notes::new(&image, 4, &cells).is_none());
        assert!(Notes::new(&image, usize::MAX, &cells).is_none());
    }
}
