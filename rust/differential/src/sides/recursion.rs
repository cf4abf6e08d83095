//! Checking for left recursion, three times over: by the model, by the archive's own function, and by the wrapper.

use super::raw;
use crate::compare::{self, Checking};
use crate::findings::Findings;
use crate::rng::Rng;
use model::answer::Refusal;
use model::recursion::{self, TextRefusal};

/// The answer is lent with one number on either side, which no call may change.
const FENCE: usize = 1;

/// What stood in the answer before a call, and beside it.
pub fn old_checking(rng: &mut Rng) -> Checking {
    Checking { returned: 0, cells: std::array::from_fn(|_| rng.next()) }
}

/// Puts what a check comes to as the archive's function does: every number of the answer is written.
pub fn put_checked(left: &mut Checking, checked: &Result<(), TextRefusal>) {
    let (returned, place, name) = match checked {
        Ok(()) => (0, 0, 0),
        Err(TextRefusal { refusal, name }) => (refusal.number, refusal.place, name.unwrap_or(0)),
    };
    left.returned = returned;
    left.cells[FENCE..][..6].copy_from_slice(&[place as u64, 0, name as u64, 0, 0, 0]);
}

/// One of the two calls, in all its forms.
struct Call {
    name: &'static str,
    /// What it is given.
    input: &'static str,
    model: fn(&[u8]) -> Result<(), TextRefusal>,
    archive: fn(&[u8], &mut raw::Answer) -> u32,
    wrapper: fn(&[u8]) -> Result<(), sejimakpu::Error>,
}

impl Call {
    fn compare(&self, found: &mut Findings, rng: &mut Rng, input: &[u8]) -> Result<(), TextRefusal> {
        let (expected, old) = ((self.model)(input), old_checking(rng));
        let (mut left, mut got) = (old, old);
        put_checked(&mut left, &expected);
        let lent = got.cells[FENCE..].first_chunk_mut().expect("six numbers are lent");
        got.returned = (self.archive)(input, lent);
        found.note(compare::checking(self.name, &left, &got), &[(self.input, input)]);

        let got = (self.wrapper)(input).map_err(named);
        found.note(compare::answers(self.name, &expected, &got), &[(self.input, input)]);
        got
    }
}

/// The wrapper's refusal as the model's, with its name.
fn named(of: sejimakpu::Error) -> TextRefusal {
    let refusal = of.refusal().unwrap_or_else(|| panic!("{of}"));
    TextRefusal { refusal: Refusal { number: refusal.number(), place: refusal.place() }, name: refusal.name() }
}

/// Checking a grammar; answers what the library did.
pub fn check_recursion(found: &mut Findings, rng: &mut Rng, grammar: &[u8]) -> Result<(), Refusal> {
    let call = Call {
        name: "check recursion",
        input: "grammar",
        model: |grammar| Ok(recursion::check(grammar)?),
        archive: raw::check_recursion,
        wrapper: sejimakpu::check_recursion,
    };
    call.compare(found, rng, grammar).map_err(|TextRefusal { refusal, .. }| refusal)
}

/// Checking a text; answers what the library did.
pub fn check_text_recursion(found: &mut Findings, rng: &mut Rng, text: &[u8]) -> Result<(), TextRefusal> {
    let call = Call {
        name: "check text recursion",
        input: "text",
        model: recursion::check_text,
        archive: raw::check_text_recursion,
        wrapper: sejimakpu::check_text_recursion,
    };
    call.compare(found, rng, text)
}
