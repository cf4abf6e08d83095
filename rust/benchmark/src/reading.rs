//! The calls that take a text: reading it, building its image, judging by it.
use crate::measure::{alternate, Times};
use crate::table::{grouped, Table};
use crate::twin;
use crate::workloads::texts::{blanks, names, operators, table, LENGTHS, LENGTH_WITH_NAMES, NAMES, RING};
use sejimakpu::{Error, Judged, MAX_BUILT_IMAGE, MAX_GRAMMAR};
use std::{hint::black_box, time::Duration};

const LONG: Duration = Duration::from_millis(400);

/// How many lines of the ring's table are judged.
const TABLES: [usize; 3] = [4, 160, 10_000];

/// What an earlier call might have left.
const OLD: u8 = 0xA5;

type Read = fn(&[u8], &mut [u8; MAX_GRAMMAR]) -> Result<usize, Error>;
type Build = fn(&[u8], &mut [u8]) -> Result<usize, Error>;
type Judge = fn(&[u8], &[u8], &mut [u8], &mut [u32], &mut [u32]) -> Result<Judged, Error>;

/// Measures reading and prints two tables: by the text's length, and by how many names there are in one length.
pub fn texts() {
    let mut by_length = Table::new(&["reading", "bytes", "names", "answer", "judge ns/byte", "twin ns/byte", "ratio"]);
    for (name, text) in [("blanks", blanks as fn(usize) -> Vec<u8>), ("operators", operators)] {
        for n in LENGTHS {
            by_length.row(row(name, &text(n), if name == "blanks" { 8 } else { 1 }));
        }
    }
    by_length.print();
    let mut by_names = Table::new(&["reading", "bytes", "names", "answer", "judge ns/byte", "twin ns/byte", "ratio"]);
    for count in NAMES {
        by_names.row(row("names", &names(LENGTH_WITH_NAMES, count), count));
    }
    by_names.print();
}

fn row(name: &str, text: &[u8], names: usize) -> Vec<String> {
    let answer = match compare(text) {
        Ok(length) => format!("{} rules", length / 4),
        Err(error) => format!("refused {}", error.refusal().map_or(0, |refusal| refusal.number())),
    };
    let [judge, twin] = time_read(text);
    let a_byte = |times: &Times| format!("{:.2}", times.least() / text.len() as f64);
    let ratio = format!("{:.2}", judge.least() / twin.least());
    vec![name.into(), grouped(text.len()), grouped(names), answer, a_byte(&judge), a_byte(&twin), ratio]
}

/// Reads by both, over old contents, and fails unless answers and all bytes are the same.
fn compare(text: &[u8]) -> Result<usize, Error> {
    let (mut grammar, mut other) = ([OLD; MAX_GRAMMAR], [OLD; MAX_GRAMMAR]);
    let read = sejimakpu::read_grammar(text, &mut grammar);
    assert_eq!(twin::read_grammar(text, &mut other), read, "both answer the same");
    assert_eq!(grammar, other, "both read the same grammar");
    read
}

fn time_read(text: &[u8]) -> [Times; 2] {
    let call = |read: Read, grammar: &mut [u8; MAX_GRAMMAR]| {
        let _ = black_box(read(black_box(text), grammar));
    };
    let mut grammar = [OLD; MAX_GRAMMAR];
    alternate(
        LONG,
        &mut grammar,
        [&|grammar| call(sejimakpu::read_grammar, grammar), &|grammar| call(twin::read_grammar, grammar)],
    )
}

/// Measures building and judging by the ring's text and prints a table.
pub fn ring() {
    let mut table = Table::new(&["ring's text", "capture", "answer", "judge us", "twin us", "ratio"]);
    let mut line = |call: &str, capture: usize, answer: String, [judge, twin]: [Times; 2]| {
        table.row(vec![
            call.into(),
            grouped(capture),
            answer,
            format!("{:.2}", judge.least() / 1e3),
            format!("{:.2}", twin.least() / 1e3),
            format!("{:.2}", judge.least() / twin.least()),
        ]);
    };
    let length = compare(RING).expect("the ring's text is right");
    line("reading", 0, format!("{} rules", length / 4), time_read(RING));
    let (length, times) = build();
    line("building", 0, format!("{} bytes", grouped(length)), times);
    for lines in TABLES {
        let (judged, times) = judge(lines);
        line("judging", 6 * lines, format!("{} {}", judged.verdict, grouped(judged.readings as usize)), times);
    }
    table.print();
}

fn build() -> (usize, [Times; 2]) {
    let (mut image, mut other) = (vec![OLD; MAX_BUILT_IMAGE], vec![OLD; MAX_BUILT_IMAGE]);
    let length = sejimakpu::build_text(RING, &mut image).expect("the ring's text is right");
    assert_eq!(twin::build_text(RING, &mut other), Ok(length), "both build the same length");
    assert!(image == other, "both build the same image");
    let call = |build: Build, image: &mut Vec<u8>| {
        let _ = black_box(build(black_box(RING), image));
    };
    let times = alternate(
        LONG,
        &mut image,
        [&|image| call(sejimakpu::build_text, image), &|image| call(twin::build_text, image)],
    );
    (length, times)
}

/// What judging is lent.
#[derive(Clone, PartialEq)]
struct Lent {
    image: Vec<u8>,
    notes: Vec<u32>,
    work: Vec<u32>,
}

fn judge(lines: usize) -> (Judged, [Times; 2]) {
    let capture = table(lines);
    let mut image = vec![OLD; MAX_BUILT_IMAGE];
    let length = sejimakpu::build_text(RING, &mut image).expect("the ring's text is right");
    let cells = sejimakpu::cells(&image[..length], capture.len()).expect("the table is not too long");
    let mut lent =
        Lent { image: vec![OLD; MAX_BUILT_IMAGE], notes: vec![u32::MAX; cells], work: vec![u32::MAX; cells] };
    let mut other = lent.clone();
    let call = |judge: Judge, lent: &mut Lent| {
        black_box(judge(black_box(RING), black_box(&capture), &mut lent.image, &mut lent.notes, &mut lent.work))
    };
    let judged = call(sejimakpu::judge_text, &mut lent);
    assert_eq!(call(twin::judge_text, &mut other), judged, "both answer the same");
    assert!(lent == other, "both leave the same image and cells");
    let again = |judge: Judge, lent: &mut Lent| {
        let _ = call(judge, lent);
    };
    let times =
        alternate(LONG, &mut lent, [&|lent| again(sejimakpu::judge_text, lent), &|lent| again(twin::judge_text, lent)]);
    (judged.expect("the ring is not refused"), times)
}
