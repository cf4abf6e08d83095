//! The programs `judge` and `read_text`: what they print for what they read.

use crate::answer::{refuse, Judged, Refusal};
use crate::building::Matching;
use crate::calls::{build, judge_answer, judge_checks};
use crate::image::{number_at, read};
use crate::{summary, text};

/// The longest input of either.
const MAX_INPUT: usize = 65_536;
const IMAGE_BUFFER: usize = 65_536;
const CELLS: usize = 16_384;

/// The whole standard output of `judge`.
pub fn output(input: &[u8]) -> String {
    match answer(input) {
        Ok(Judged { verdict, readings, end }) => {
            format!("{verdict} {readings} {} {} {}\n", end.state, end.head, end.symbol)
        }
        Err(refusal) => format!("{refusal}\n"),
    }
}

fn answer(input: &[u8]) -> Result<Judged, Refusal> {
    let (grammar, capture) = parts(input)?;
    let mut buffer = vec![0; IMAGE_BUFFER];
    let length = build(grammar, Matching::Whole, &mut buffer)?;
    let (mut notes, mut work) = (vec![0; CELLS], vec![0; CELLS]);
    let (machine, _) = judge_checks(read(&buffer[..length]), capture.len(), CELLS, CELLS)?;
    Ok(judge_answer(&summary::judge(machine, capture), &mut notes, &mut work))
}

/// Grammar and capture, or refusal 14.
fn parts(input: &[u8]) -> Result<(&[u8], &[u8]), Refusal> {
    if !(16..=MAX_INPUT).contains(&input.len()) {
        return refuse(14, 0);
    }
    let field = |at| number_at(input, at) as u64;
    let length = input.len() as u64;
    let grammar_end = 16 + field(4);
    if field(0) != 16 || grammar_end > length {
        return refuse(14, 0);
    }
    if field(8) != grammar_end || grammar_end + field(12) != length {
        return refuse(14, 8);
    }
    let (grammar, capture) = input[16..].split_at(field(4) as usize);
    Ok((grammar, capture))
}

/// An input with right pairs.
pub fn input(grammar: &[u8], capture: &[u8]) -> Vec<u8> {
    let (g, n) = (grammar.len() as u32, capture.len() as u32);
    let mut input: Vec<u8> = [16, g, 16 + g, n].into_iter().flat_map(u32::to_le_bytes).collect();
    input.extend(grammar);
    input.extend(capture);
    input
}

/// The whole standard output of `read_text`: the grammar's bytes, or a line.
pub fn read_text_output(input: &[u8]) -> Vec<u8> {
    let read = if input.len() > MAX_INPUT { refuse(14, 0) } else { text::read(input) };
    match read {
        Ok(typed) => typed.grammar(),
        Err(refusal) => format!("{refusal}\n").into_bytes(),
    }
}
