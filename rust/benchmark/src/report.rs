//! What the benchmark says of judging: the table, how both grow, and the figures beside their targets.
use crate::backtracking_parser::parse;
use crate::judging::Line;
use crate::measure::{greatest, median};
use crate::table::{grouped, Table};
use crate::targets::{Targets, LARGEST_TO_TUNED, TO_TUNED, TO_TWIN};
use crate::workloads::{backtracking, Workload, SIZES};

/// The target of growth: nanoseconds a reading at the greatest length over those at the least.
const GROWTH: f64 = 1.5;

/// What the readings a byte of (b) may vary by to be called linear; its nanoseconds a byte may grow as all others.
const READINGS_VARY: f64 = 1.05;

/// Calls after which the parser without memory is given up.
const STEP_LIMIT: u64 = 20_000_000;

fn percent(part: f64, whole: f64) -> String {
    format!("{:.0}%", 100.0 * part / whole)
}

/// Workloads by lengths: times a reading, and the share of clearing.
pub fn print_lines(lines: &[Line]) {
    let mut table = Table::new(&[
        "judging",
        "n",
        "verdict",
        "readings",
        "N",
        "judge ns/r",
        "twin ns/r",
        "tuned ns/r",
        "fastest ns/r",
        "RATIO",
        "to tuned",
        "to fastest",
        "judge clears",
        "twin clears",
        "fill(0)",
    ]);
    for line in lines {
        table.row(vec![
            line.workload.name.into(),
            grouped(line.n),
            line.judged.verdict.to_string(),
            grouped(line.judged.readings as usize),
            grouped(line.cells),
            format!("{:.2}", line.judge.least() / line.readings()),
            format!("{:.2}", line.twin.least() / line.readings()),
            format!("{:.2}", line.tuned.least() / line.readings()),
            format!("{:.2}", line.fastest.least() / line.readings()),
            format!("{:.2}", line.judge.least() / line.twin.least()),
            format!("{:.2}", line.judge.least() / line.tuned.least()),
            format!("{:.2}", line.judge.least() / line.fastest.least()),
            percent(line.judge_short.least(), line.judge.least()),
            percent(line.twin_short.least(), line.twin.least()),
            percent(line.fill.least(), line.twin.least()),
        ]);
    }
    table.print();
}

/// How nanoseconds a reading grow with the length, and without what the clearing takes.
pub fn print_growth(workloads: &[Workload], lines: &[Line]) {
    let heading = format!("ns/r at {} over {}", grouped(SIZES[3]), grouped(SIZES[0]));
    let mut table = Table::new(&[&heading, "judge", "twin", "judge, less clearing", "twin, less clearing"]);
    for workload in workloads {
        let growth = |time: &dyn Fn(&Line) -> f64| format!("{:.2}", growth_of(workload.name, lines, time));
        table.row(vec![
            workload.name.into(),
            growth(&|line| line.judge.least()),
            growth(&|line| line.twin.least()),
            growth(&|line| line.judge.least() - line.judge_short.least()),
            growth(&|line| line.twin.least() - line.twin_short.least()),
        ]);
    }
    table.print();
}

fn growth_of(name: &str, lines: &[Line], time: &dyn Fn(&Line) -> f64) -> f64 {
    let of_length = |n| {
        let line =
            lines.iter().find(|line| line.workload.name == name && line.n == n).expect("every length is measured");
        time(line) / line.readings()
    };
    of_length(SIZES[SIZES.len() - 1]) / of_length(SIZES[0])
}

/// (b): readings and time a byte.
pub fn print_backtracking(lines: &[Line]) {
    let mut table = Table::new(&["backtracking", "readings/n", "judge ns/n", "twin ns/n"]);
    for line in backtracking_lines(lines) {
        let n = line.n as f64;
        table.row(vec![
            grouped(line.n),
            format!("{:.3}", line.readings() / n),
            format!("{:.1}", line.judge.least() / n),
            format!("{:.1}", line.twin.least() / n),
        ]);
    }
    table.print();
}

/// (b) by a parser without memory: its calls at small lengths, up to the length at which it passes the limit.
pub fn print_without_memory() {
    let mut table = Table::new(&["without memory, n", "calls"]);
    for n in 0.. {
        let Ok((accepted, calls)) = parse(&backtracking::GRAMMAR, &backtracking::capture(n), STEP_LIMIT) else {
            table.row(vec![n.to_string(), format!("over {}", grouped(STEP_LIMIT as usize))]);
            break;
        };
        assert!(accepted, "the parser without memory accepts too");
        if n % 4 == 0 || calls > STEP_LIMIT / 4 {
            table.row(vec![n.to_string(), grouped(calls as usize)]);
        }
    }
    table.print();
}

fn backtracking_lines<'a>(lines: &'a [Line<'a>]) -> impl Iterator<Item = &'a Line<'a>> {
    lines.iter().filter(|line| line.workload.name == backtracking::NAME)
}

/// The greatest over the least of some positive numbers.
fn spread(numbers: impl Iterator<Item = f64>) -> f64 {
    let (least, greatest) = numbers.fold((f64::INFINITY, 0.0_f64), |(a, b), x| (a.min(x), b.max(x)));
    greatest / least
}

/// Nanoseconds a reading without what the clearing takes: of each the median over the lines.
pub fn print_less_clearing(lines: &[Line]) {
    let mut table = Table::new(&["ns/r, less clearing", "judge", "twin", "tuned", "fastest"]);
    let of_median = |time: &dyn Fn(&Line) -> f64| {
        format!("{:.2}", median(lines.iter().map(|line| time(line) / line.readings()).collect()))
    };
    table.row(vec![
        "median".into(),
        of_median(&|line| line.judge.least() - line.judge_short.least()),
        of_median(&|line| line.twin.least() - line.twin_short.least()),
        of_median(&|line| line.tuned.least() - line.tuned_short.least()),
        of_median(&|line| line.fastest.least() - line.fastest_short.least()),
    ]);
    table.print();
}

/// The figures that have a target, each beside it.
pub fn print_targets(workloads: &[Workload], lines: &[Line]) {
    let mut targets = Targets::new();
    let ratios = |ratio: &dyn Fn(&Line) -> f64| -> Vec<f64> { lines.iter().map(ratio).collect() };
    let to_twin = ratios(&|line| line.judge.least() / line.twin.least());
    targets.at_most(TO_TWIN, "median ratio judge/twin", median(to_twin));
    let by_medians = ratios(&|line| line.judge.median() / line.twin.median());
    targets.at_most(TO_TWIN, "the same, by the median times", median(by_medians));
    let to_tuned = ratios(&|line| line.judge.least() / line.tuned.least());
    targets.at_most(LARGEST_TO_TUNED, "largest ratio judge/tuned", greatest(&to_tuned));
    targets.at_most(TO_TUNED, "median ratio judge/tuned", median(to_tuned));
    let to_fastest = ratios(&|line| line.judge.least() / line.fastest.least());
    targets.told("median ratio judge/fastest", median(to_fastest));

    let growth = |time: &dyn Fn(&Line) -> f64| -> Vec<f64> {
        workloads.iter().map(|workload| growth_of(workload.name, lines, time)).collect()
    };
    targets.at_most(GROWTH, "largest growth, judge", greatest(&growth(&|line| line.judge.least())));
    targets.at_most(GROWTH, "largest growth, twin, to compare", greatest(&growth(&|line| line.twin.least())));

    let readings = spread(backtracking_lines(lines).map(|line| line.readings() / line.n as f64));
    targets.at_most(READINGS_VARY, "(b) readings/n, most over least", readings);
    let time = growth_of(backtracking::NAME, lines, &|line| line.judge.least() * line.readings() / line.n as f64);
    targets.at_most(GROWTH, "(b) judge ns/n, growth", time);
    targets.print();
}
