//! Judging by the library, by the twin and by the twin's tuned forms: that they agree, and what each takes.
use crate::measure::{alternate, Times};
use crate::table::{grouped, Table};
use crate::twin;
use crate::workloads::{self, banner, Workload, SIZES};
use sejimakpu::{Error, Judged};
use std::{hint::black_box, time::Duration};

/// How long the calls of one line take turns in one round, and the calls that show the clearing.
const LONG: Duration = Duration::from_millis(400);
const LONG_CLEARING: Duration = Duration::from_millis(150);

/// How long the calls of one line take turns in one of several layouts.
const LONG_IN_A_LAYOUT: Duration = Duration::from_millis(120);

/// What the rows begin with that are measured in several layouts.
pub const BESIDE_TWIN: &str = "judging beside twin";
pub const BESIDE_TUNED: &str = "judging beside tuned";
pub const BESIDE_FASTEST: &str = "judging beside fastest";

/// What the rows begin with that are for a leading match. They are beside the twin, and have no target.
const LEADING: &str = "judging leading";

/// What an earlier call might have left: every cell has to be cleared.
const OLD: u32 = 0xA5A5_A5A5;

type Judge = fn(&[u8], &[u8], &mut [u32], &mut [u32]) -> Result<Judged, Error>;

/// All that are measured, in the order of their turns.
const JUDGES: [(&str, Judge); 4] = [
    ("judge", sejimakpu::judge),
    ("twin", twin::judge),
    ("tuned", twin::judge_tuned),
    ("fastest", twin::judge_fastest),
];

/// The cells that all are lent, allocated and touched once for all workloads.
pub struct Cells {
    notes: Vec<u32>,
    work: Vec<u32>,
    other_notes: Vec<u32>,
}

impl Cells {
    /// As many as the greatest of the workloads needs.
    pub fn for_all(workloads: &[Workload]) -> Self {
        let greatest = workloads.iter().flat_map(|workload| SIZES.map(|n| cells_of(workload, n))).max().unwrap_or(0);
        Cells { notes: vec![OLD; greatest], work: vec![OLD; greatest], other_notes: vec![OLD; greatest] }
    }
}

/// One line of the table: a workload at one length, and the times of whole calls.
pub struct Line<'a> {
    pub workload: &'a Workload,
    pub n: usize,
    pub judged: Judged,
    pub cells: usize,
    capture: Vec<u8>,
    short: Vec<u8>,
    pub judge: Times,
    pub twin: Times,
    pub tuned: Times,
    pub fastest: Times,
    /// On a capture whose run is over at once: checks and clearing.
    pub judge_short: Times,
    pub twin_short: Times,
    pub tuned_short: Times,
    pub fastest_short: Times,
    /// Clearing both slices by `fill(0)`, alone.
    pub fill: Times,
}

impl<'a> Line<'a> {
    /// A line with no times yet, after comparing the answers and all cells.
    pub fn new(workload: &'a Workload, n: usize, cells: &mut Cells) -> Self {
        let count = cells_of(workload, n);
        let capture = (workload.capture)(n);
        let short = workload.short_capture(n);
        let judged = compare(&workload.image, &capture, count, cells);
        assert_eq!(judged.verdict, workload.verdict, "{} of {n}", workload.name);
        let at_once = compare(&workload.image, &short, count, cells);
        assert!(at_once.readings < 100, "{} of {n}: a wrong byte ends the run at once", workload.name);
        let [judge, twin, tuned, fastest, judge_short, twin_short, tuned_short, fastest_short, fill] =
            std::array::from_fn(|_| Times::default());
        Line {
            workload,
            n,
            judged,
            cells: count,
            capture,
            short,
            judge,
            twin,
            tuned,
            fastest,
            judge_short,
            twin_short,
            tuned_short,
            fastest_short,
            fill,
        }
    }

    pub fn readings(&self) -> f64 {
        f64::from(self.judged.readings)
    }

    /// One more round of turns.
    pub fn measure(&mut self, cells: &mut Cells) {
        self.measure_calls(LONG, cells);
        let count = self.cells;
        let [judge, twin, tuned, fastest] = calls(&self.workload.image, &self.short);
        let clear_only = |cells: &mut Cells| clear(cells, count);
        let [judge, twin, tuned, fastest, fill] =
            alternate(LONG_CLEARING, cells, [&judge, &twin, &tuned, &fastest, &clear_only]);
        self.judge_short.add(judge);
        self.twin_short.add(twin);
        self.tuned_short.add(tuned);
        self.fastest_short.add(fastest);
        self.fill.add(fill);
    }

    /// Turns of whole calls, for so long in all.
    fn measure_calls(&mut self, long: Duration, cells: &mut Cells) {
        let [judge, twin, tuned, fastest] = calls(&self.workload.image, &self.capture);
        let [judge, twin, tuned, fastest] = alternate(long, cells, [&judge, &twin, &tuned, &fastest]);
        self.judge.add(judge);
        self.twin.add(twin);
        self.tuned.add(tuned);
        self.fastest.add(fastest);
    }

    /// A row by which one of several layouts tells the judge's time a reading beside another's.
    fn row(&self, beside: &str, other: &Times) -> Vec<String> {
        let a_reading = |times: &Times| format!("{:.3}", times.least() / self.readings());
        let ratio = format!("{:.2}", self.judge.least() / other.least());
        let name = format!("{beside}, {}", self.workload.name);
        vec![name, grouped(self.n), a_reading(&self.judge), a_reading(other), ratio]
    }
}

/// Measures all lines for a short while and prints three tables: the judge beside the twin, and beside each tuned form.
pub fn in_a_layout() {
    let workloads = workloads::all();
    let mut cells = Cells::for_all(&workloads);
    let mut beside_twin = Table::new(&["judging", "n", "judge ns/r", "twin ns/r", "ratio"]);
    let mut beside_tuned = Table::new(&["judging", "n", "judge ns/r", "tuned ns/r", "ratio"]);
    let mut beside_fastest = Table::new(&["judging", "n", "judge ns/r", "fastest ns/r", "ratio"]);
    for workload in &workloads {
        for n in SIZES {
            let mut line = Line::new(workload, n, &mut cells);
            line.measure_calls(LONG_IN_A_LAYOUT, &mut cells);
            beside_twin.row(line.row(BESIDE_TWIN, &line.twin));
            beside_tuned.row(line.row(BESIDE_TUNED, &line.tuned));
            beside_fastest.row(line.row(BESIDE_FASTEST, &line.fastest));
        }
    }
    beside_twin.print();
    beside_tuned.print();
    beside_fastest.print();
}

/// Measures the judging of a capture with a banner, for a short while, and prints a table: the judge beside the twin.
pub fn leading_in_a_layout() {
    let workload = banner::workload();
    let mut cells = Cells::for_all(std::slice::from_ref(&workload));
    let mut table = Table::new(&["judging", "n", "judge ns/r", "twin ns/r", "ratio"]);
    for n in SIZES {
        let mut line = Line::new(&workload, n, &mut cells);
        line.measure_calls(LONG_IN_A_LAYOUT, &mut cells);
        table.row(line.row(LEADING, &line.twin));
    }
    table.print();
}

/// A call of each on an image and a capture.
fn calls<'a>(image: &'a [u8], capture: &'a [u8]) -> [impl Fn(&mut Cells) + 'a; 4] {
    JUDGES.map(|(_, judge)| {
        move |cells: &mut Cells| {
            let _ = black_box(judge(black_box(image), black_box(capture), &mut cells.notes, &mut cells.work));
        }
    })
}

fn cells_of(workload: &Workload, n: usize) -> usize {
    sejimakpu::cells(&workload.image, n).expect("a workload is not refused")
}

fn clear(cells: &mut Cells, count: usize) {
    black_box(&mut cells.notes[..count]).fill(0);
    black_box(&mut cells.work[..count]).fill(0);
}

/// Judges by all, from cells with old contents, and fails unless answers, notes and work cells are the same.
fn compare(image: &[u8], capture: &[u8], count: usize, cells: &mut Cells) -> Judged {
    let [first, others @ ..] = &JUDGES;
    let judged = judge_anew(first, image, capture, &mut cells.notes[..count], &mut cells.work[..count]);
    for other in others {
        let answer = judge_anew(other, image, capture, &mut cells.other_notes[..count], &mut cells.work[..count]);
        assert_eq!(answer, judged, "judge and {} answer the same", other.0);
        assert!(cells.notes[..count] == cells.other_notes[..count], "judge and {} leave the same notes", other.0);
    }
    judged.expect("a workload is not refused")
}

fn judge_anew(
    (name, judge): &(&str, Judge),
    image: &[u8],
    capture: &[u8],
    notes: &mut [u32],
    work: &mut [u32],
) -> Result<Judged, Error> {
    notes.fill(OLD);
    work.fill(OLD);
    let judged = judge(image, capture, notes, work);
    assert!(work.iter().all(|&cell| cell == 0), "{name} leaves its work cells 0");
    judged
}
