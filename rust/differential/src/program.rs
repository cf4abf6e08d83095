//! Running the programs `judge` and `read_text`, and comparing their whole output with what the model prints.

use crate::compare;
use crate::findings::Findings;
use std::env;
use std::io::{Error, Write};
use std::path::{Path, PathBuf};
use std::process::{Command, Stdio};
use std::thread::sleep;
use std::time::Duration;

/// SEJIMAKPU_PROGRAM, or where the repository's build puts the program.
pub fn path() -> PathBuf {
    path_of("SEJIMAKPU_PROGRAM", "judge")
}

/// SEJIMAKPU_READ_TEXT, or where the repository's build puts the program.
pub fn read_text_path() -> PathBuf {
    path_of("SEJIMAKPU_READ_TEXT", "read_text")
}

fn path_of(variable: &str, name: &str) -> PathBuf {
    match env::var_os(variable) {
        Some(path) => PathBuf::from(path),
        None => Path::new(env!("CARGO_MANIFEST_DIR")).join("../../target/bin").join(name),
    }
}

/// What a program prints for an input written in pieces of so many bytes. A program that is not there, or that is
/// killed, is a difference like any other.
fn run(path: &Path, input: &[u8], piece: usize) -> Result<Vec<u8>, Error> {
    let mut child = Command::new(path).stdin(Stdio::piped()).stdout(Stdio::piped()).spawn()?;
    let mut stdin = child.stdin.take().expect("it was piped");
    for (index, bytes) in input.chunks(piece).enumerate() {
        if index > 0 {
            // Time enough for it to read what is there, and to take that for all.
            sleep(Duration::from_millis(2));
        }
        // It may have stopped reading a long input, which is its right; what it prints is compared.
        if stdin.write_all(bytes).is_err() {
            break;
        }
    }
    drop(stdin);
    let output = child.wait_with_output()?;
    match output.status.code() {
        Some(_) => Ok(output.stdout),
        None => Err(Error::other(output.status.to_string())),
    }
}

pub fn compare(found: &mut Findings, input: &[u8]) {
    compare_with(found, input, &model::program::output(input));
}

/// Compares with a line told by the document or by hand.
pub fn compare_with(found: &mut Findings, input: &[u8], expected: &str) {
    compare_in_pieces(found, input, input.len().max(1), expected);
}

/// The same, with the input written in pieces of so many bytes.
pub fn compare_in_pieces(found: &mut Findings, input: &[u8], piece: usize, expected: &str) {
    let got = printed(&path(), input, piece);
    found.note(compare::answers("program", &expected, &String::from_utf8_lossy(&got).as_ref()), &[("input", input)]);
}

fn printed(path: &Path, input: &[u8], piece: usize) -> Vec<u8> {
    run(path, input, piece).unwrap_or_else(|error| format!("{}: {error}", path.display()).into_bytes())
}

/// The whole output of `read_text`, for a text written in pieces of so many bytes.
pub fn compare_read_text(found: &mut Findings, text: &[u8], piece: usize) {
    let got = printed(&read_text_path(), text, piece);
    let expected = model::program::read_text_output(text);
    found.note(compare::answers("read_text", &expected, &got), &[("text", text)]);
}
