//! The library's calls as the document tells them: refusals first, then the answer and what the lent cells hold.

use crate::answer::{refuse, Judged, Ran, Refusal};
use crate::building::Matching;
use crate::machine::Machine;
use crate::walk::Outcome;
use crate::{building, grammar, image, plain, text};

/// The longest capture.
pub const MAX_CAPTURE: usize = 65_535;

/// Refusal 7.
pub fn capture_fits(length: usize) -> Result<(), Refusal> {
    if length > MAX_CAPTURE {
        return refuse(7, length);
    }
    Ok(())
}

/// N for a read image and a capture of so many bytes.
pub fn cells(image: Result<Machine, Refusal>, capture_length: usize) -> Result<usize, Refusal> {
    let machine = image?;
    capture_fits(capture_length)?;
    Ok(machine.configs(capture_length))
}

/// Judging, up to the point where the run has to be judged: the machine and N.
pub fn judge_checks<'a>(
    image: Result<Machine<'a>, Refusal>,
    capture_length: usize,
    notes: usize,
    work: usize,
) -> Result<(Machine<'a>, usize), Refusal> {
    let machine = image?;
    let needed = cells(image, capture_length)?;
    if notes < needed {
        return refuse(8, needed);
    }
    if work < needed {
        return refuse(9, needed);
    }
    Ok((machine, needed))
}

/// Judging's answer, and the lent cells after it.
pub fn judge_answer(outcome: &Outcome, notes: &mut [u32], work: &mut [u32]) -> Judged {
    let needed = outcome.notes.len();
    notes[..needed].copy_from_slice(&outcome.notes);
    work[..needed].fill(0);
    let readings = outcome.notes.iter().filter(|&&note| note != 0).count();
    Judged { verdict: outcome.verdict, readings, end: outcome.end }
}

/// The plain run, refusals 1 to 7 and 10.
pub fn plain_run(
    image: Result<Machine, Refusal>,
    capture: &[u8],
    budget: u32,
    stack: &mut [u32],
) -> Result<Ran, Refusal> {
    let machine = image?;
    capture_fits(capture.len())?;
    if stack.is_empty() {
        return refuse(10, 0);
    }
    let ran = plain::run(machine, capture, budget, stack.len());
    stack.fill(0);
    Ok(ran)
}

/// Building, refusals 11 to 13.
pub fn build(bytes: &[u8], matching: Matching, buffer: &mut [u8]) -> Result<usize, Refusal> {
    let image = image_for(bytes, matching, buffer.len())?;
    Ok(put(&image, buffer))
}

/// The image of a grammar, where a buffer of so many bytes holds it.
fn image_for(bytes: &[u8], matching: Matching, room: usize) -> Result<Vec<u8>, Refusal> {
    let image = building::build(&grammar::read(bytes)?, matching);
    if room < image.len() {
        return refuse(13, image.len());
    }
    Ok(image)
}

/// Puts bytes at the start of a buffer that holds them.
fn put(bytes: &[u8], buffer: &mut [u8]) -> usize {
    buffer[..bytes.len()].copy_from_slice(bytes);
    bytes.len()
}

/// Reading a text, refusals 15 to 17.
pub fn read_grammar(text: &[u8], buffer: &mut [u8]) -> Result<usize, Refusal> {
    Ok(put(&text::read(text)?.grammar(), buffer))
}

/// The image of a text, which always has to match the whole capture.
fn image_of_text(text: &[u8], room: usize) -> Result<Vec<u8>, Refusal> {
    image_for(&text::read(text)?.grammar(), Matching::Whole, room)
}

/// Building from a text, refusals 15 to 17 and 13.
pub fn build_text(text: &[u8], buffer: &mut [u8]) -> Result<usize, Refusal> {
    let image = image_of_text(text, buffer.len())?;
    Ok(put(&image, buffer))
}

/// Judging by a text, up to the point where the run has to be judged, refusals 15 to 17, 13 and 7 to 9: the image is in
/// the buffer then.
pub fn judge_text_checks(
    text: &[u8],
    capture_length: usize,
    buffer: &mut [u8],
    notes: usize,
    work: usize,
) -> Result<Vec<u8>, Refusal> {
    let image = image_of_text(text, buffer.len())?;
    judge_checks(image::read(&image), capture_length, notes, work)?;
    put(&image, buffer);
    Ok(image)
}
