//! Why a call gave no answer: refusals by reason and place, and an archive that does not fit this crate.
use std::{error, fmt};

/// What a refusal means, by its row in the table of refusals.
#[non_exhaustive]
#[derive(Clone, Copy, Debug, PartialEq, Eq, Hash)]
pub enum Reason {
    /// 1: the image has under 32 bytes. The place is its length.
    ImageShort = 1,
    /// 2: a pair of offset and length in the image's directory is wrong. The place is the first wrong one: 0, 8 or 16.
    ImageDirectory,
    /// 3: a count, byte 27 or the final states of the image are wrong. The place is the first: 24 to 28.
    ImageCounts,
    /// 4: the image's rules have another length than its counts ask for. The place is 20.
    ImageLength,
    /// 5: the class map names a class that is not there. The place is the first one's offset.
    ImageClass,
    /// 6: a bad rule in the image. The place is the first one's offset.
    ImageRule,
    /// 7: the capture has over 65,535 bytes. The place is its length.
    CaptureLong,
    /// 8: fewer notes than configurations. The place is how many are needed.
    NotesShort,
    /// 9: fewer work cells than configurations. The place is how many are needed.
    WorkShort,
    /// 10: the plain run was lent no stack cell. The place is 0.
    StackEmpty,
    /// 11: the grammar has no rule, over 31 rules, or a part of a rule. The place is its length.
    GrammarLength,
    /// 12: a grammar rule is not as it must be. The place is the first one's offset.
    GrammarRule,
    /// 13: the buffer is shorter than the image. The place is how many bytes are needed.
    ImageBufferShort,
    // 14 is of the programs alone: no call gives it.
    /// 15: a token that cannot stand where it is, bytes that form no token, a name that is repeated or never defined. The
    /// place is its offset, or the text's length where the text ends early.
    TextSyntax = 15,
    /// 16: the typed grammar needs over 31 rules. The place is the text's length.
    TextRules,
    /// 17: a seventeenth open parenthesis. The place is its offset.
    TextDepth,
    /// 18: a bundle's count is not 1 to 64, or it is too short for its count and pairs: the place is 0; or a pair of offset
    /// and length is wrong: the place is the first one's offset in the bundle.
    Bundle,
    /// 19: a rule of the grammar leads back to itself before anything is consumed. The place is the lowest such rule's
    /// number; in a text [`Refusal::name`] tells of its line.
    LeftRecursion,
}

impl Reason {
    /// In the order of their numbers.
    pub(crate) const ALL: [Reason; 18] = [
        Reason::ImageShort,
        Reason::ImageDirectory,
        Reason::ImageCounts,
        Reason::ImageLength,
        Reason::ImageClass,
        Reason::ImageRule,
        Reason::CaptureLong,
        Reason::NotesShort,
        Reason::WorkShort,
        Reason::StackEmpty,
        Reason::GrammarLength,
        Reason::GrammarRule,
        Reason::ImageBufferShort,
        Reason::TextSyntax,
        Reason::TextRules,
        Reason::TextDepth,
        Reason::Bundle,
        Reason::LeftRecursion,
    ];

    /// The reason of a number, if there is one.
    pub(crate) fn of_number(number: u32) -> Option<Reason> {
        Reason::ALL.into_iter().find(|reason| reason.number() == number)
    }

    /// The number in the table of refusals.
    #[must_use]
    pub fn number(self) -> u32 {
        self as u32
    }
}

/// The same words as `sejimakpu_refusal_meaning` in C.
impl fmt::Display for Reason {
    fn fmt(&self, f: &mut fmt::Formatter<'_>) -> fmt::Result {
        f.write_str(match self {
            Reason::ImageShort => "the image is shorter than 32 bytes",
            Reason::ImageDirectory => "a pair of offset and length in the image's directory is wrong",
            Reason::ImageCounts => "a count, byte 27 or the final states of the image are wrong",
            Reason::ImageLength => "the image's rules are not as long as its counts ask for",
            Reason::ImageClass => "the image's class map names a class that is not there",
            Reason::ImageRule => "a rule of the image is bad",
            Reason::CaptureLong => "the capture is longer than 65,535 bytes",
            Reason::NotesShort => "there are fewer notes than judging needs",
            Reason::WorkShort => "there are fewer work cells than judging needs",
            Reason::StackEmpty => "there is no stack cell",
            Reason::GrammarLength => "the grammar has no rule, over 31 rules, or a part of a rule",
            Reason::GrammarRule => "a rule of the grammar is wrong",
            Reason::ImageBufferShort => "the image buffer is too short for the image",
            Reason::TextSyntax => "the text is wrong at that place, or ends early",
            Reason::TextRules => "the typed grammar needs over 31 rules",
            Reason::TextDepth => "over 16 parentheses are open at once",
            Reason::Bundle => "a bundle's count or a pair of offset and length is wrong",
            Reason::LeftRecursion => "a rule of the grammar leads back to itself before anything is consumed",
        })
    }
}

/// A refusal: nothing was judged, run, built or read, and nothing that was lent has changed. In a line of a
/// [`Report`](crate::Report) it is of one capture, and the others were judged.
#[derive(Clone, Copy, Debug, PartialEq, Eq, Hash)]
pub struct Refusal {
    reason: Reason,
    place: usize,
    name: Option<usize>,
}

impl Refusal {
    /// A refusal as the library would give it, for code that stands in for the library.
    #[must_use]
    pub fn new(reason: Reason, place: usize) -> Self {
        Refusal { reason, place, name: None }
    }

    /// The same with a [`name`](Refusal::name), also for code that stands in for the library.
    #[must_use]
    pub fn with_name(self, name: usize) -> Self {
        Refusal { name: Some(name), ..self }
    }

    /// Why.
    #[must_use]
    pub fn reason(&self) -> Reason {
        self.reason
    }

    /// The number in the table of refusals, 1 to 13 or 15 to 19.
    #[must_use]
    pub fn number(&self) -> u32 {
        self.reason.number()
    }

    /// The place that it blames, or what would be needed: [`Reason`] says which.
    #[must_use]
    pub fn place(&self) -> usize {
        self.place
    }

    /// The offset in the text of the name of the line that the rule is of: of 19 by
    /// [`check_text_recursion`](crate::check_text_recursion) alone.
    #[must_use]
    pub fn name(&self) -> Option<usize> {
        self.name
    }
}

/// Number and place as the program prints them, then the reason in words, and where there is a name, its offset.
impl fmt::Display for Refusal {
    fn fmt(&self, f: &mut fmt::Formatter<'_>) -> fmt::Result {
        write!(f, "refused {} {}: {}", self.number(), self.place, self.reason)?;
        match self.name {
            Some(name) => write!(f, " (the line named at {name})"),
            None => Ok(()),
        }
    }
}

impl error::Error for Refusal {}

/// Why a call gave no answer.
#[non_exhaustive]
#[derive(Clone, Copy, Debug, PartialEq, Eq, Hash)]
pub enum Error {
    /// The call was refused.
    Refused(Refusal),
    /// The archive gave a number that this crate does not know. The contract of the archive that it is made for rules
    /// this out: another archive was linked.
    Mismatch {
        /// What the number should have been.
        field: &'static str,
        /// The number.
        value: u64,
    },
}

impl Error {
    /// The refusal, if the call was refused.
    #[must_use]
    pub fn refusal(&self) -> Option<Refusal> {
        match self {
            Error::Refused(refusal) => Some(*refusal),
            Error::Mismatch { .. } => None,
        }
    }
}

impl From<Refusal> for Error {
    fn from(refusal: Refusal) -> Self {
        Error::Refused(refusal)
    }
}

impl fmt::Display for Error {
    fn fmt(&self, f: &mut fmt::Formatter<'_>) -> fmt::Result {
        match self {
            Error::Refused(refusal) => refusal.fmt(f),
            Error::Mismatch { field, value } => {
                write!(f, "libsejimakpu.a is not the one that this crate is made for: it gave {field} {value}")
            }
        }
    }
}

impl error::Error for Error {}

#[cfg(test)]
mod tests {
    use super::*;

    #[test]
    fn refusals_in_words() {
        let refusal = Refusal::new(Reason::LeftRecursion, 3);
        let words = "refused 19 3: a rule of the grammar leads back to itself before anything is consumed";
        assert_eq!((refusal.number(), refusal.place(), refusal.name()), (19, 3, None));
        assert_eq!((refusal.to_string(), Error::from(refusal).to_string()), (words.into(), words.into()));

        let named = refusal.with_name(12);
        let words = format!("{words} (the line named at 12)");
        assert_eq!((named.reason(), named.place(), named.name()), (Reason::LeftRecursion, 3, Some(12)));
        assert_eq!((named.to_string(), Error::from(named).to_string()), (words.clone(), words));
        assert_ne!(named, refusal);
        assert_eq!(Error::from(named).refusal(), Some(named));
    }
}
