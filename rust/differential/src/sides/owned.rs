//! The wrapper's types that own what calls are lent, beside the model: what a text is to a grammar, and what the notes say of
//! the furthest place.

use crate::compare::{self, Judging};
use crate::findings::Findings;
use model::text;
use sejimakpu::{Grammar, Image, Notes, Workspace};
use std::cell::RefCell;

thread_local! {
    /// Kept from case to case, with whatever the cases before left in its cells.
    static WORKSPACE: RefCell<Workspace> = RefCell::default();
}

/// A text that is not refused: its lines by name, the line of each rule, and a text of the grammar that reads as the same
/// bytes.
pub fn grammar_of_text(found: &mut Findings, of: &[u8]) {
    let (Ok(typed), Ok(grammar)) = (text::read(of), Grammar::from_text(of)) else { return };
    let name = |&offset: &usize| {
        let letters = of[offset..].iter().take_while(|byte| byte.is_ascii_lowercase());
        letters.map(|&byte| char::from(byte)).collect::<String>()
    };
    let names: Vec<String> = typed.names.iter().map(name).collect();
    found.note(compare::answers("names of lines", &names.as_slice(), &grammar.lines()), &[("text", of)]);
    let expected: Vec<_> =
        typed.line_of_each_rule().into_iter().map(|line| names.get(line).map(String::as_str)).collect();
    let got: Vec<_> = (0..grammar.rule_count()).map(|rule| grammar.name(rule)).collect();
    found.note(compare::answers("name of each rule", &expected, &got), &[("text", of)]);
    let again = Grammar::from_text(&grammar.to_text()).map(|again| again.bytes().to_vec());
    found.note(compare::answers("text of the grammar", &Ok(typed.grammar()), &again), &[("text", of)]);
}

/// Judging in a workspace, and the furthest place by its notes: the highest head of a note that is not 0. What a call with
/// lent cells answered, and left in the notes, is known.
pub fn judge(found: &mut Findings, image: &[u8], capture: &[u8], known: &Judging) {
    let Ok(image) = Image::from_bytes(image) else { return };
    let Ok(cells) = image.cells(capture.len()) else { return };
    if known.answer.is_err() {
        return;
    }
    let row = (capture.len() + 2) * image.symbols();
    let heads = (0..cells).filter(|&cell| known.notes[cell] != 0).map(|cell| cell % row / image.symbols());
    let (expected, inputs) = (heads.max(), [("image", image.bytes()), ("capture", capture)]);
    let (judged, of_workspace) = WORKSPACE.with_borrow_mut(|workspace| {
        let judged = workspace.judge(&image, capture);
        let furthest = judged.ok().zip(workspace.notes()).map(|(judged, notes)| judged.furthest(&notes) as usize);
        (judged, furthest)
    });
    let answer = judged.map_err(super::refusal).map(super::judged);
    found.note(compare::answers("judging in a workspace", &known.answer, &answer), &inputs);
    found.note(compare::answers("furthest place", &expected, &of_workspace), &inputs);
    let lent = Notes::new(&image, capture.len(), &known.notes);
    let of_lent = judged.ok().zip(lent).map(|(judged, notes)| judged.furthest(&notes) as usize);
    found.note(compare::answers("furthest place by lent notes", &expected, &of_lent), &inputs);
}
