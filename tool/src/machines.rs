//! Grammars and images from their files.
use crate::record::{self, Kind};
use crate::shown::{self, Place};
use sejimakpu::{Error, Grammar, Image, Matching, Reason, Refusal};
use sha2::{Digest, Sha256};
use std::fs;
use std::io::{self, Read};
use std::os::unix::ffi::OsStrExt;
use std::path::{Path, PathBuf};

/// Longer than any grammar and any image: what is longer is not read to its end.
const LONGEST: u64 = 16 << 20;

/// What captures are judged by: an image, and the grammar that it was made of.
pub struct Machine {
    pub file: PathBuf,
    pub kind: Kind,
    pub matching: Matching,
    /// The file's bytes, where it could be read.
    pub bytes: Vec<u8>,
    pub grammar: Option<Grammar>,
    pub image: Result<Image, Trouble>,
}

/// Why there is no image.
#[derive(Clone, Debug)]
pub enum Trouble {
    Refused(Refusal),
    Error(String),
}

impl From<Error> for Trouble {
    fn from(error: Error) -> Trouble {
        error.refusal().map_or_else(|| Trouble::Error(error.to_string()), Trouble::Refused)
    }
}

/// A typed grammar where the name ends in .peg, else a grammar's bytes.
pub fn kind_of(file: &Path) -> Kind {
    if file.as_os_str().as_bytes().ends_with(b".peg") {
        Kind::Text
    } else {
        Kind::Bytes
    }
}

impl Machine {
    pub fn of_grammar(file: &Path, matching: Matching) -> Machine {
        Machine::load(file, kind_of(file), matching)
    }

    pub fn load(file: &Path, kind: Kind, matching: Matching) -> Machine {
        let (bytes, error) = match read(file) {
            Ok(bytes) => (bytes, None),
            Err(error) => {
                let name = shown::name(file.as_os_str());
                (Vec::new(), Some(Trouble::Error(format!("{name}: cannot be read: {error}"))))
            }
        };
        let (grammar, image) = match (error, kind) {
            (Some(error), _) => (None, Err(error)),
            (None, Kind::Image) => (None, Image::from_bytes(bytes.clone()).map_err(Trouble::from)),
            (None, _) => match read_grammar(kind, &bytes) {
                Ok(grammar) => {
                    let image = grammar.image(matching).map_err(Trouble::from);
                    (Some(grammar), image)
                }
                Err(error) => (None, Err(error.into())),
            },
        };
        Machine { file: file.into(), kind, matching, bytes, grammar, image }
    }

    pub fn name(&self) -> String {
        shown::name(self.file.as_os_str())
    }

    /// Whether the file was read.
    fn was_read(&self) -> bool {
        !matches!(self.image, Err(Trouble::Error(_)))
    }

    pub fn record(&self) -> record::Machine {
        let matching = match self.matching {
            Matching::Whole => "whole",
            Matching::Leading => "leading",
        };
        let (refusal, error) = match &self.image {
            Ok(_) => (None, None),
            Err(Trouble::Refused(refusal)) => (Some(*refusal), None),
            Err(Trouble::Error(error)) => (None, Some(error.clone())),
        };
        let place = self.complaint().and_then(|complaint| complaint.place);
        record::Machine {
            grammar: self.name(),
            kind: self.kind,
            matching: (self.kind != Kind::Image).then_some(matching),
            grammar_bytes: self.was_read().then_some(self.bytes.len()),
            grammar_sha256: self.was_read().then(|| format!("{:x}", Sha256::digest(&self.bytes))),
            rules: self.grammar.as_ref().map(Grammar::rule_count),
            may_loop: self.grammar.as_ref().map(|grammar| grammar.left_recursion().is_some()),
            refusal: refusal.map(|refusal| refusal.number()),
            place: refusal.map(|refusal| refusal.place()),
            line: place.as_ref().map(|place| place.line),
            column: place.as_ref().map(|place| place.column),
            error,
        }
    }

    /// What a person is told of a file that gives no image.
    pub fn complaint(&self) -> Option<Complaint> {
        match self.image.as_ref().err()? {
            Trouble::Error(error) => Some(Complaint { words: error.clone(), place: None }),
            Trouble::Refused(refusal) => Some(self.told(*refusal)),
        }
    }

    /// A warning, where a rule leads back to itself before anything is consumed.
    pub fn warning(&self) -> Option<Complaint> {
        Some(self.told(self.grammar.as_ref()?.left_recursion()?))
    }

    /// A refusal of the file, with its line and column where it is a text.
    fn told(&self, refusal: Refusal) -> Complaint {
        let offset = match refusal.reason() {
            Reason::TextSyntax | Reason::TextRules | Reason::TextDepth => Some(refusal.place()),
            Reason::LeftRecursion => refusal.name(),
            _ => None,
        };
        let place = offset.map(|offset| Place::of(&self.bytes, offset));
        let (name, number) = (self.name(), refusal.number());
        let what = self.what(refusal);
        let words = match &place {
            Some(Place { line, column, .. }) => {
                format!("{name}: line {line}, column {column}: {what} (refusal {number})")
            }
            None => format!("{name}: {what} (refusal {number} {})", refusal.place()),
        };
        Complaint { words, place }
    }

    /// What is wrong, as near to the place as can be said.
    fn what(&self, refusal: Refusal) -> String {
        match refusal.reason() {
            Reason::TextSyntax => match self.bytes.get(refusal.place()) {
                None => "the text ends early".into(),
                Some(&byte) if byte != b'\n' && !byte.is_ascii_graphic() && byte != b' ' => {
                    format!("no token begins with the byte {}", shown::quoted(byte))
                }
                Some(_) => "this cannot stand here, is repeated or is not defined".into(),
            },
            Reason::LeftRecursion => {
                let rule = refusal.place();
                let name = self.grammar.as_ref().and_then(|grammar| grammar.name(rule).map(String::from));
                let name = name.unwrap_or_else(|| format!("rule {rule}"));
                format!("{name} leads back to itself before anything is consumed: a capture may be judged looping")
            }
            Reason::GrammarRule => format!("rule {} is wrong", refusal.place() / 4),
            reason => reason.to_string(),
        }
    }
}

/// A grammar of a file's bytes.
fn read_grammar(kind: Kind, bytes: &[u8]) -> Result<Grammar, Error> {
    match kind {
        Kind::Text => Grammar::from_text(bytes),
        _ => Grammar::from_bytes(bytes),
    }
}

/// A file, which may be a pipe or endless.
fn read(file: &Path) -> io::Result<Vec<u8>> {
    let mut bytes = Vec::new();
    fs::File::open(file)?.take(LONGEST + 1).read_to_end(&mut bytes)?;
    if bytes.len() as u64 > LONGEST {
        return Err(io::Error::new(io::ErrorKind::InvalidData, "it is no grammar and no image: over 16 MiB"));
    }
    Ok(bytes)
}

/// What a person is told, and the line that it is of.
pub struct Complaint {
    pub words: String,
    pub place: Option<Place>,
}
