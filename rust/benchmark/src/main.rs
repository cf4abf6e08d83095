//! The benchmark: the proved judge beside an unverified twin of the same algorithm. It prints tables and fails only where
//! the two do not agree; what it measures is for a reader to judge.
use benchmark::judging::{Cells, Line};
use benchmark::workloads::{self, SIZES};
use benchmark::{bundles, judging, layouts, others, reading, recursion, report, tool};
use std::{env, path::Path};

/// Rounds over all lines, so that what else the machine does for a while falls on no line alone.
const ROUNDS: usize = 4;

const METHOD: &str = "\
ns/r: nanoseconds of a whole call (checks, clearing, run) over its readings. Processor time of the thread, the LEAST of
  many calls: what else the machine does can only add to it. The ratio is also given by the median times.
All take turns on the same cells, which are allocated and touched before; each clears them in each call.
tuned: a second form of the twin's judge, one loop tuned by hand with no record; its open configurations are linked.
fastest: the same with a stack of them, as fast as we could make safe Rust.
judge clears, twin clears: the time of a call with the same image and length on a capture whose first byte ends the run
  at once (checks, clearing, under 100 readings), over the time of the call. fill(0): both slices cleared by fill(0) and
  nothing else, over the time of the twin's call.
Checking, building, the calls on a text, the checks for left recursion, judging a bundle, and judging once more are measured
  in several layouts (below). Images are for the whole capture, but where a row says leading. Judging leading: a capture whose
  first half is lines and whose second half is a banner, which a leading match passes.
  A bundle: 64 captures of lines, all lengths between two, in one call that checks the image once. Reading: blanks
  is the ring's text and then spaces, which is read; operators is one line of every operator, with no name but its own, which needs too many
  rules; names is texts of one length with more and more lines, each with a use of another. Left recursion: lines and
  ranges are the grammars that are built, of a few rules and of the most; alternatives is ten of them, each a byte and then all
  again; next and before are 31 rules that each wait for the next one, or for the one before, to match nothing; first and last
  are 31 that lead one to the next, and the last back to the first, or to itself.
";

fn main() {
    let words: Vec<String> = env::args().skip(1).collect();
    match words.split_first() {
        None => long_calls(),
        Some((word, [])) if word == "short" => short_calls(),
        Some((word, [path])) if word == "tool" => tool::print(Path::new(path)).expect("files can be written"),
        Some((word, files)) if word == "layouts" => layouts::print(files).expect("the runs' tables can be read"),
        _ => panic!("nothing, `short`, `tool` and its path, or `layouts` and files"),
    }
}

/// The calls that take microseconds, and judging for a short while: `rust/measure` runs them in several layouts.
fn short_calls() {
    others::images();
    reading::texts();
    reading::ring();
    recursion::grammars();
    recursion::texts();
    bundles::bundles();
    judging::in_a_layout();
    judging::leading_in_a_layout();
}

fn long_calls() {
    let workloads = workloads::all();
    println!("{METHOD}");
    for workload in &workloads {
        println!("{:<13} {}", workload.name, workload.about);
    }
    println!();

    let mut cells = Cells::for_all(&workloads);
    let mut lines = Vec::new();
    for workload in &workloads {
        for n in SIZES {
            lines.push(Line::new(workload, n, &mut cells));
        }
    }
    for _ in 0..ROUNDS {
        for line in &mut lines {
            line.measure(&mut cells);
        }
    }
    report::print_lines(&lines);
    report::print_growth(&workloads, &lines);
    report::print_less_clearing(&lines);
    report::print_backtracking(&lines);
    report::print_without_memory();
    let [on_lines, _, _, on_two_way] = &workloads;
    others::plain_runs(&[on_lines, on_two_way]);
    report::print_targets(&workloads, &lines);
}
