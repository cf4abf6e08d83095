//! Judging a bundle, by the library and by the twin.
use crate::measure::{alternate, Times};
use crate::table::{grouped, Table};
use crate::twin;
use crate::workloads::bundles::{Captures, BUNDLES};
use crate::workloads::lines;
use sejimakpu::{Error, Report, Verdict};
use std::{hint::black_box, time::Duration};

const LONG: Duration = Duration::from_millis(400);

/// What an earlier call might have left.
const OLD: u32 = 0xA5A5_A5A5;

/// Measures the bundles and prints a table.
pub fn bundles() {
    let image = lines::workload().image;
    let mut table = Table::new(&["bundle", "captures", "bytes", "readings", "judge us", "twin us", "ratio"]);
    for bundle in &BUNDLES {
        table.row(row(bundle, &image));
    }
    table.print();
}

fn row(captures: &Captures, image: &[u8]) -> Vec<String> {
    let bundle = sejimakpu::pack_bundle(&captures.make()).expect("so many captures can be packed");
    let mut lent = Lent::of(sejimakpu::cells(image, captures.most).expect("a workload is not refused"));
    let report = compare(image, &bundle, &lent);
    assert_eq!(report.totals().of(Verdict::Accepted) as usize, report.lines().len(), "all lines are accepted");
    let [judge, twin] = time(image, &bundle, &mut lent);
    vec![
        format!("judging {}, {} to {}", captures.name, captures.least, grouped(captures.most)),
        grouped(report.lines().len()),
        grouped(bundle.len()),
        grouped(report.totals().readings() as usize),
        format!("{:.2}", judge.least() / 1e3),
        format!("{:.2}", twin.least() / 1e3),
        format!("{:.2}", judge.least() / twin.least()),
    ]
}

/// What judging is lent.
#[derive(Clone, PartialEq)]
struct Lent {
    notes: Vec<u32>,
    work: Vec<u32>,
}

impl Lent {
    fn of(cells: usize) -> Self {
        Lent { notes: vec![OLD; cells], work: vec![OLD; cells] }
    }
}

/// Whether the twin reports what the library does: the same refusal, or the same lines and totals.
pub fn report_the_same(library: &Result<Report, Error>, other: &Result<twin::Report, Error>) -> bool {
    use Verdict::{Accepted, Deep, Ended, Halted, Looping, Spent, Stuck};
    let (report, other) = match (library, other) {
        (Ok(report), Ok(other)) => (report, other),
        (Err(error), Err(other)) => return error == other,
        _ => return false,
    };
    let totals = report.totals();
    report.lines().eq(other.lines.iter().copied())
        && [Accepted, Ended, Stuck, Looping, Spent, Deep, Halted].iter().all(|&of| totals.of(of) == other.of(of))
        && (totals.refusals(), totals.readings()) == (other.refusals, other.readings)
}

/// Judges by both, over old contents, and fails unless reports and all cells are the same.
fn compare(image: &[u8], bundle: &[u8], lent: &Lent) -> Report {
    let (mut one, mut other) = (lent.clone(), lent.clone());
    let report = sejimakpu::judge_bundle(image, bundle, &mut one.notes, &mut one.work);
    let twins = twin::judge_bundle(image, bundle, &mut other.notes, &mut other.work);
    assert!(report_the_same(&report, &twins), "both report the same");
    assert!(one == other, "both leave the same cells");
    report.expect("a workload is not refused")
}

fn time(image: &[u8], bundle: &[u8], lent: &mut Lent) -> [Times; 2] {
    alternate(
        LONG,
        lent,
        [
            &|lent| {
                let report =
                    sejimakpu::judge_bundle(black_box(image), black_box(bundle), &mut lent.notes, &mut lent.work);
                let _ = black_box(report);
            },
            &|lent| {
                let report = twin::judge_bundle(black_box(image), black_box(bundle), &mut lent.notes, &mut lent.work);
                let _ = black_box(report);
            },
        ],
    )
}
