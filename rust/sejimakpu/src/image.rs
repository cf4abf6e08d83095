//! An image that is good: the table of a machine, checked once.
use crate::{Error, Reason};

/// A machine's image that [`check`](crate::check) has passed.
///
/// [`Grammar::image`](crate::Grammar::image) makes one of a grammar; one of a machine that was written by hand comes by
/// [`from_bytes`](Image::from_bytes).
#[derive(Clone, PartialEq, Eq, Hash)]
pub struct Image {
    bytes: Vec<u8>,
}

impl Image {
    /// Takes an image's bytes, if they are good.
    ///
    /// ```
    /// use sejimakpu::{Image, Reason, Refusal};
    /// let refusal = Refusal::new(Reason::ImageShort, 31);
    /// assert_eq!(Image::from_bytes(vec![0; 31]), Err(refusal.into()));
    /// ```
    ///
    /// # Errors
    ///
    /// [`Error::Refused`]: refusals 1 to 6.
    pub fn from_bytes(bytes: impl Into<Vec<u8>>) -> Result<Image, Error> {
        let bytes = bytes.into();
        crate::check(&bytes)?;
        Ok(Image { bytes })
    }

    /// The image of a grammar's bytes, in a buffer of just its length.
    pub(crate) fn of_grammar(grammar: &[u8], matching: crate::Matching) -> Result<Image, Error> {
        // The refusal of an empty buffer says how long the image is.
        let length = match crate::build(grammar, matching, &mut []) {
            Err(Error::Refused(refusal)) if refusal.reason() == Reason::ImageBufferShort => refusal.place(),
            other => other?,
        };
        let mut bytes = vec![0; length];
        let length = crate::build(grammar, matching, &mut bytes)?;
        bytes.truncate(length);
        Ok(Image { bytes })
    }

    /// The bytes, for the calls that take them.
    #[must_use]
    pub fn bytes(&self) -> &[u8] {
        &self.bytes
    }

    /// How many states the machine has.
    #[must_use]
    pub fn states(&self) -> usize {
        self.bytes[24].into()
    }

    /// How many classes of bytes it tells apart.
    #[must_use]
    pub fn classes(&self) -> usize {
        self.bytes[25].into()
    }

    /// How many stack symbols it has.
    #[must_use]
    pub fn symbols(&self) -> usize {
        self.bytes[26].into()
    }

    /// How many notes and how many work cells judging needs for any capture of so many bytes.
    ///
    /// # Errors
    ///
    /// [`Error::Refused`]: refusal 7.
    pub fn cells(&self, capture_length: usize) -> Result<usize, Error> {
        crate::cells(&self.bytes, capture_length)
    }
}

impl AsRef<[u8]> for Image {
    fn as_ref(&self) -> &[u8] {
        &self.bytes
    }
}

/// The counts; the bytes may be eighty thousand.
impl std::fmt::Debug for Image {
    fn fmt(&self, f: &mut std::fmt::Formatter<'_>) -> std::fmt::Result {
        f.debug_struct("Image")
            .field("length", &self.bytes.len())
            .field("states", &self.states())
            .field("classes", &self.classes())
            .field("symbols", &self.symbols())
            .finish()
    }
}

#[cfg(test)]
mod tests {
    use super::*;
    use crate::Matching;

    #[test]
    fn built_in_its_own_length() {
        let grammar = [5, b'0', b'9', 0];
        for matching in [Matching::Whole, Matching::Leading] {
            let mut buffer = [0; crate::MAX_BUILT_IMAGE];
            let length = crate::build(&grammar, matching, &mut buffer).unwrap();
            let image = Image::of_grammar(&grammar, matching).unwrap();
            assert_eq!(image.bytes(), &buffer[..length]);
            assert_eq!((image.states(), image.classes(), image.symbols()), (5, 3, 3));
            assert_eq!(image.cells(1), Ok(5 * 3 * 3));
            assert_eq!(Image::from_bytes(image.bytes()), Ok(image));
        }
    }

    #[test]
    fn bad_grammars_are_refused() {
        let refused = |grammar: &[u8]| Image::of_grammar(grammar, Matching::Whole).unwrap_err().refusal().unwrap();
        assert_eq!((refused(&[]).number(), refused(&[]).place()), (11, 0));
        assert_eq!((refused(&[6, 0, 0, 0]).number(), refused(&[6, 0, 0, 0]).place()), (12, 0));
    }
}
