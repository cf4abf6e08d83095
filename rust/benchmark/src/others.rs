//! The calls beside judging: the plain run, checking an image, building one.
use crate::measure::{alternate, Times};
use crate::table::{grouped, Table};
use crate::twin;
use crate::workloads::{building, Workload, SIZES};
use sejimakpu::{Error, Matching, Ran, MAX_BUILT_IMAGE};
use std::{hint::black_box, time::Duration};

const LONG: Duration = Duration::from_millis(400);

/// Cells that the plain run is lent beyond one a byte: enough for both workloads at every length.
const SPARE_CELLS: usize = 64;

type PlainRun = fn(&[u8], &[u8], u32, &mut [u32]) -> Result<Ran, Error>;
type Check = fn(&[u8]) -> Result<(), Error>;
type Build = fn(&[u8], Matching, &mut [u8]) -> Result<usize, Error>;

/// Measures the plain run of some workloads and prints a table.
pub fn plain_runs(workloads: &[&Workload]) {
    let mut table = Table::new(&["plain run", "n", "verdict", "steps", "judge ns/step", "twin ns/step", "ratio"]);
    for workload in workloads {
        for n in SIZES {
            let (ran, [judge, twin]) = plain_run(workload, n);
            let steps = f64::from(ran.steps);
            table.row(vec![
                workload.name.into(),
                grouped(n),
                ran.verdict.to_string(),
                grouped(ran.steps as usize),
                format!("{:.2}", judge.least() / steps),
                format!("{:.2}", twin.least() / steps),
                format!("{:.2}", judge.least() / twin.least()),
            ]);
        }
    }
    table.print();
}

fn plain_run(workload: &Workload, n: usize) -> (Ran, [Times; 2]) {
    let capture = (workload.capture)(n);
    let mut stack = vec![7; n + SPARE_CELLS];
    let ran = sejimakpu::plain_run(&workload.image, &capture, u32::MAX, &mut stack);
    assert!(stack.iter().all(|&cell| cell == 0), "the plain run leaves its cells 0");
    assert_eq!(twin::plain_run(&workload.image, &capture, u32::MAX, &mut stack), ran, "both run the same");
    let ran = ran.expect("a workload is not refused");
    assert_eq!(ran.verdict, workload.verdict, "{} of {n}", workload.name);
    let call = |run: PlainRun, stack: &mut Vec<u32>| {
        let _ = black_box(run(black_box(&workload.image), black_box(&capture), u32::MAX, stack));
    };
    let times = alternate(
        LONG,
        &mut stack,
        [&|stack| call(sejimakpu::plain_run, stack), &|stack| call(twin::plain_run, stack)],
    );
    (ran, times)
}

/// Measures building and checking of two images for the whole capture, and building the same for a leading match, and
/// prints a table.
pub fn images() {
    let mut table = Table::new(&["image", "rules", "classes", "bytes", "judge us", "twin us", "ratio"]);
    let grammars = [("few rules", building::few()), ("most rules", building::widest())];
    for (name, grammar) in &grammars {
        let image = built(grammar, Matching::Whole);
        let built = time_build(grammar, Matching::Whole);
        table.row(row(format!("building, {name}"), grammar, &image, built));
        table.row(row(format!("checking, {name}"), grammar, &image, time_check(&image)));
    }
    for (name, grammar) in &grammars {
        let image = built(grammar, Matching::Leading);
        let built = time_build(grammar, Matching::Leading);
        table.row(row(format!("building leading, {name}"), grammar, &image, built));
    }
    table.print();
}

/// The image of a grammar, after comparing that of the library with that of the twin.
fn built(grammar: &[u8], matching: Matching) -> Vec<u8> {
    let (mut image, mut other) = (vec![0; MAX_BUILT_IMAGE], vec![0; MAX_BUILT_IMAGE]);
    let length = sejimakpu::build(grammar, matching, &mut image).expect("the grammar is right");
    assert_eq!(twin::build(grammar, matching, &mut other), Ok(length), "both build the same length");
    assert!(image == other, "both build the same image");
    image.truncate(length);
    image
}

fn row(name: String, grammar: &[u8], image: &[u8], [judge, twin]: [Times; 2]) -> Vec<String> {
    vec![
        name,
        (grammar.len() / 4).to_string(),
        image[25].to_string(),
        grouped(image.len()),
        format!("{:.2}", judge.least() / 1e3),
        format!("{:.2}", twin.least() / 1e3),
        format!("{:.2}", judge.least() / twin.least()),
    ]
}

fn time_build(grammar: &[u8], matching: Matching) -> [Times; 2] {
    let call = |build: Build, image: &mut Vec<u8>| {
        let _ = black_box(build(black_box(grammar), black_box(matching), image));
    };
    let mut image = vec![0; MAX_BUILT_IMAGE];
    alternate(LONG, &mut image, [&|image| call(sejimakpu::build, image), &|image| call(twin::build, image)])
}

fn time_check(mut image: &[u8]) -> [Times; 2] {
    let call = |check: Check, image: &[u8]| assert!(check(black_box(image)).is_ok(), "a built image is good");
    alternate(LONG, &mut image, [&|image| call(sejimakpu::check, image), &|image| call(twin::check, image)])
}
