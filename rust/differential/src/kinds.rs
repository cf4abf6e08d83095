//! The kinds of random case.

use crate::damage::{damage, damage_rule};
use crate::findings::Findings;
use crate::parsing::{few_readings, leads_on, means_so, parses_so};
use crate::rng::Rng;
use crate::{bundles, compare, grammars, machines, program, recursion, sides, stops, texts};
use model::answer::Judged;
use model::building::{self, Matching};
use model::{grammar, image};

pub type Case = fn(&mut Findings, &mut Rng);

/// A kind of random case: its name, its seed, its share of all cases, and what makes and compares one.
pub struct Kind {
    pub name: &'static str,
    pub seed: u64,
    pub share: usize,
    pub case: Case,
}

pub const KINDS: &[Kind] = &[
    Kind { name: MACHINES, seed: 0x5e71_0001, share: 3600, case: machine },
    Kind { name: "grammars", seed: 0x5e71_0002, share: 2500, case: grammar_case },
    Kind { name: "damaged-images", seed: 0x5e71_0003, share: 1400, case: damaged_image },
    Kind { name: "damaged-grammars", seed: 0x5e71_0004, share: 900, case: damaged_grammar },
    Kind { name: "plain-runs", seed: 0x5e71_0005, share: 750, case: plain_run },
    Kind { name: "short-slices", seed: 0x5e71_0006, share: 600, case: short_slices },
    Kind { name: "program", seed: 0x5e71_0007, share: 250, case: program_case },
    Kind { name: "texts", seed: 0x5e71_0008, share: 1500, case: text_case },
    Kind { name: "damaged-texts", seed: 0x5e71_0009, share: 900, case: damaged_text },
    Kind { name: "read-text", seed: 0x5e71_000a, share: 100, case: read_text_case },
    Kind { name: "bundles", seed: 0x5e71_000b, share: 1200, case: bundles::case },
    Kind { name: RECURSION, seed: 0x5e71_000c, share: 1500, case: recursion::case },
    Kind { name: "damaged-recursion", seed: 0x5e71_000d, share: 500, case: recursion::damaged },
    Kind { name: "stops", seed: 0x5e71_000e, share: 500, case: stops::case },
];

/// The cases of each of these are looked at together too.
pub const MACHINES: &str = "machines";
pub const RECURSION: &str = "recursion";

/// Plain runs that might not end get about so many steps.
pub const LONG: usize = 10_000;

/// A good image with a capture, in every call.
fn machine(found: &mut Findings, rng: &mut Rng) {
    let (image, capture) = machines::with_capture(rng);
    let _ = sides::check(found, &image);
    judge_with_spare_cells(found, rng, &image, &capture);
    some_plain_run(found, rng, &image, &capture, LONG);
}

/// Judges with a few cells more than needed.
pub fn judge_with_spare_cells(found: &mut Findings, rng: &mut Rng, image: &[u8], capture: &[u8]) -> Option<Judged> {
    let needed = sides::cells(found, image, capture.len()).unwrap_or(8);
    let (notes, work) = (needed + rng.below(9), needed + rng.below(9));
    sides::judge(found, rng, image, capture, notes, work).ok()
}

/// Budget and cells near those that the run takes, or anything.
pub fn some_plain_run(found: &mut Findings, rng: &mut Rng, image: &[u8], capture: &[u8], long: usize) {
    let (steps, height, ends) = match image::read(image) {
        Ok(machine) => sides::measure(machine, capture, long),
        Err(_) => (3, 3, false),
    };
    let budget = match rng.below(6) {
        0 => rng.below(20),
        1 => rng.within(0..=steps),
        2 if ends => u32::MAX as usize,
        3 => steps + 1,
        4 => steps.saturating_sub(1),
        _ => steps,
    };
    let cells = match rng.below(6) {
        0 => rng.below(4),
        1 => rng.within(0..=height),
        2 => height - 1,
        3 => height + rng.within(1..=5),
        _ => height,
    };
    let _ = sides::plain_run(found, rng, image, capture, budget as u32, cells);
}

/// A good grammar: building, judging, a plain run, and parsing beside them.
fn grammar_case(found: &mut Findings, rng: &mut Rng) {
    let (bytes, capture) = grammars::with_capture(rng);
    grammar_on(found, rng, &bytes, &capture, LONG);
}

/// One grammar on one capture, in every call and for both matchings; a plain run that might not end gets about so many
/// steps.
pub fn grammar_on(found: &mut Findings, rng: &mut Rng, bytes: &[u8], capture: &[u8], long: usize) {
    let passed = recursion::check(found, rng, bytes).is_ok();
    let judged = Matching::BOTH.map(|matching| matched_on(found, rng, bytes, matching, capture, long));
    for judged in judged.iter().flatten() {
        recursion::ends(found, passed, judged.verdict, &[("grammar", bytes), ("capture", capture)]);
    }
    if let [Some(whole), Some(leading)] = judged {
        leads_on(found, bytes, capture, whole, leading);
    }
}

fn matched_on(
    found: &mut Findings,
    rng: &mut Rng,
    bytes: &[u8],
    matching: Matching,
    capture: &[u8],
    long: usize,
) -> Option<Judged> {
    let parts = grammar::read(bytes).expect("it is made to be good");
    let room = building::build(&parts, matching).len() + rng.below(17);
    let image = sides::build(found, rng, bytes, matching, room).ok()?;
    let _ = sides::check(found, &image);
    let judged = judge_with_spare_cells(found, rng, &image, capture);
    if let Some(judged) = judged {
        parses_so(found, matching, bytes, capture, judged);
    }
    some_plain_run(found, rng, &image, capture, long);
    judged
}

/// A damaged image, in every call. Where it is good after all it is judged.
fn damaged_image(found: &mut Findings, rng: &mut Rng) {
    let (mut image, capture) = (some_image(rng), machines::capture(rng));
    if rng.percent(3) {
        let length = rng.below(700);
        image = rng.bytes(length);
    }
    if rng.percent(40) && image.len() >= 292 {
        damage_rule(rng, &mut image);
    } else {
        let last_rule = image.len().saturating_sub(4);
        damage(rng, &mut image, &[0, 8, 16, 20, 24, 24, 28, 32, 284, 288, last_rule]);
    }
    // With the third length put right the damage behind it comes to be looked at.
    if rng.percent(40) && image.len() >= 288 {
        let length = (image.len() - 288) as u32;
        image[20..24].copy_from_slice(&length.to_le_bytes());
    }
    let _ = sides::check(found, &image);
    judge_with_spare_cells(found, rng, &image, &capture);
    some_plain_run(found, rng, &image, &capture, LONG);
}

/// A small good image, of a machine or of a grammar.
fn some_image(rng: &mut Rng) -> Vec<u8> {
    if rng.percent(30) {
        let rules = rng.within(1..=4);
        let bytes = grammars::of_rules(rng, rules);
        return building::build(&grammar::read(&bytes).expect("it is made to be good"), rng.pick(&Matching::BOTH));
    }
    machines::small_image(rng)
}

/// A damaged grammar, and buffers around the length needed.
fn damaged_grammar(found: &mut Findings, rng: &mut Rng) {
    let (bytes, matching) = (some_damaged_grammar(rng), rng.pick(&Matching::BOTH));
    let needed = grammar::read(&bytes).map_or(100, |parts| building::build(&parts, matching).len());
    let room = match rng.below(6) {
        0 => rng.below(needed),
        1 => needed - 1,
        2 => needed,
        3 => 0,
        _ => needed + rng.below(20),
    };
    if let Ok(image) = sides::build(found, rng, &bytes, matching, room) {
        let _ = sides::check(found, &image);
    }
}

fn some_damaged_grammar(rng: &mut Rng) -> Vec<u8> {
    let mut bytes = grammars::good(rng);
    match rng.below(10) {
        // Small numbers make rules that are nearly good.
        0 => {
            let rules = rng.within(1..=4);
            bytes = (0..4 * rules).map(|at| if at % 4 == 3 { 0 } else { rng.below(6) as u8 }).collect();
        }
        1 => {
            let length = rng.below(140);
            bytes = rng.bytes(length);
        }
        2 => {}
        _ => {
            let last_rule = bytes.len().saturating_sub(4);
            damage(rng, &mut bytes, &[0, 4, last_rule]);
        }
    }
    bytes
}

/// Plain runs of one machine with several budgets and numbers of cells.
fn plain_run(found: &mut Findings, rng: &mut Rng) {
    let (image, capture) = machines::with_capture(rng);
    for _ in 0..4 {
        some_plain_run(found, rng, &image, &capture, LONG);
    }
}

/// Judging with too few cells here or there, or just enough.
fn short_slices(found: &mut Findings, rng: &mut Rng) {
    let (image, capture) = (some_image(rng), machines::capture(rng));
    let needed = sides::cells(found, &image, capture.len()).unwrap_or(8);
    let mut some_length = || match rng.below(6) {
        0 => needed - 1,
        1 => 0,
        2 => rng.below(needed),
        3 => needed + rng.below(100),
        _ => needed,
    };
    let (notes, work) = (some_length(), some_length());
    let _ = sides::judge(found, rng, &image, &capture, notes, work);
}

/// The program's whole output.
fn program_case(found: &mut Findings, rng: &mut Rng) {
    let bytes = if rng.percent(20) { some_damaged_grammar(rng) } else { grammars::good(rng) };
    let mut capture = grammars::capture(rng, &bytes);
    if rng.percent(10) {
        // Around the length for which the notes no longer suffice.
        let rules = (bytes.len() / 4).max(1);
        let most = (16_384 / (5 * (2 * rules + 1))).saturating_sub(2);
        let length = most + rng.below(3);
        capture = (0..length).map(|_| rng.pick(b"abcd")).collect();
    }
    let mut input = model::program::input(&bytes, &capture);
    if rng.percent(25) {
        let capture_at = 16 + bytes.len();
        damage(rng, &mut input, &[0, 4, 8, 12, 16, capture_at]);
    }
    program::compare(found, &input);
}

/// A good text: reading, building and judging by it, and its own equations beside them.
fn text_case(found: &mut Findings, rng: &mut Rng) {
    let (text, capture) = texts::with_capture(rng);
    text_on(found, rng, &text, &capture);
}

/// One text on one capture, in every call that takes a text, with a little more lent than needed. Where it is refused,
/// every call refuses it so.
pub fn text_on(found: &mut Findings, rng: &mut Rng, text: &[u8], capture: &[u8]) {
    let old = sides::old_grammar(rng);
    let read = sides::read_grammar(found, &old, text);
    // A refused text needs nothing.
    let parts = read.as_deref().ok().and_then(|bytes| grammar::read(bytes).ok()).unwrap_or_default();
    let needed = if parts.is_empty() { 100 } else { building::build(&parts, Matching::Whole).len() };
    let image = needed + rng.below(17);
    let cells = 5 * (capture.len() + 2) * (2 * parts.len() + 1);
    let lent = sides::Lent { image, notes: cells + rng.below(9), work: cells + rng.below(9) };
    let built = sides::build_text(found, rng, text, image);
    let judged = sides::judge_text(found, rng, text, capture, lent);
    let passed = recursion::check_text(found, rng, text, &read);
    if let (Ok(bytes), Ok(image), Ok(judged)) = (read, built, judged) {
        same_as_bytes(found, rng, text, &bytes, &image);
        few_readings(found, Matching::Whole, &bytes, capture, judged);
        means_so(found, text, capture, judged, &parts);
        recursion::ends(found, passed, judged.verdict, &[("text", text), ("capture", capture)]);
    }
}

/// The grammar read passes the call that takes bytes, which gives the same image for the whole capture.
fn same_as_bytes(found: &mut Findings, rng: &mut Rng, text: &[u8], bytes: &[u8], image: &[u8]) {
    let built = sides::build(found, rng, bytes, Matching::Whole, image.len());
    let same = built.is_ok_and(|other| other == image);
    found.note(compare::answers("one image from text and from bytes", &true, &same), &[("text", text)]);
}

/// A text with a byte or a piece of it wrong. Where it is good after all it is judged.
fn damaged_text(found: &mut Findings, rng: &mut Rng) {
    let text = texts::damaged(rng);
    text_on(found, rng, &text, b"abca");
}

/// The whole output of the program that reads a text.
fn read_text_case(found: &mut Findings, rng: &mut Rng) {
    let text = if rng.percent(40) { texts::damaged(rng) } else { texts::good(rng) };
    program::compare_read_text(found, &text, text.len().max(1));
}
