//! Calls over several layouts: the linker puts the same machine code at other places in each, which alone moves a short
//! loop's time by up to a third. A place can only add to what the code takes, as the machine can: so the ratio is that of
//! the least times over the layouts, and the medians stand beside.
use crate::judging::{BESIDE_FASTEST, BESIDE_TUNED, BESIDE_TWIN};
use crate::measure::{greatest, least, median};
use crate::table::Table;
use crate::targets::{Targets, LARGEST_TO_TUNED, TO_TUNED, TO_TWIN};
use std::{fs, io};

/// The judge's time of one row of a printed table, and the other's: the twin's, or a tuned form's where the row says so.
pub struct Figures {
    pub row: String,
    pub judge: f64,
    pub other: f64,
}

/// The figures of a line whose last three fields are the judge's time, the other's, and their ratio.
pub fn figures(line: &str) -> Option<Figures> {
    let fields: Vec<&str> = line.split("  ").map(str::trim).filter(|field| !field.is_empty()).collect();
    let [row @ .., judge, other, ratio] = fields.as_slice() else { return None };
    ratio.parse::<f64>().ok()?;
    Some(Figures { row: row.join(", "), judge: judge.parse().ok()?, other: other.parse().ok()? })
}

/// One row over all layouts, by the least times and by the medians.
struct Over {
    leasts: Figures,
    medians: Figures,
}

impl Over {
    fn new(all: &[&Figures]) -> Self {
        let row = &all[0].row;
        assert!(all.iter().all(|figures| figures.row == *row), "each run has the same rows");
        let by = |one_of: fn(Vec<f64>) -> f64| Figures {
            row: row.clone(),
            judge: one_of(all.iter().map(|figures| figures.judge).collect()),
            other: one_of(all.iter().map(|figures| figures.other).collect()),
        };
        Over { leasts: by(|times| least(&times)), medians: by(median) }
    }
}

/// Prints the rows of several runs' tables, one run a file, and what the rows of judging come to beside their targets.
pub fn print(files: &[String]) -> io::Result<()> {
    let runs: Vec<Vec<Figures>> = files
        .iter()
        .map(|file| Ok(fs::read_to_string(file)?.lines().filter_map(figures).collect()))
        .collect::<io::Result<_>>()?;
    let rows: Vec<Over> = (0..runs.first().map_or(0, Vec::len))
        .map(|row| Over::new(&runs.iter().map(|run| &run[row]).collect::<Vec<_>>()))
        .collect();
    let heading = format!("over {} layouts", runs.len());
    let mut table = Table::new(&[&heading, "judge", "other", "RATIO", "median", "median", "ratio"]);
    for Over { leasts, medians } in &rows {
        let mut fields = vec![leasts.row.clone()];
        for Figures { judge, other, .. } in [leasts, medians] {
            fields.extend([*judge, *other, judge / other].map(|number| format!("{number:.2}")));
        }
        table.row(fields);
    }
    table.print();
    print_judging(&rows);
    Ok(())
}

/// The median over the rows of judging, and the largest, each by the least times and by the medians.
fn print_judging(rows: &[Over]) {
    let mut targets = Targets::new();
    for (by, figures_of) in
        [("least times", (|row| &row.leasts) as fn(&Over) -> &Figures), ("medians", |row| &row.medians)]
    {
        let ratios = |beside: &str| -> Vec<f64> {
            let figures = rows.iter().map(figures_of).filter(|figures| figures.row.starts_with(beside));
            figures.map(|figures| figures.judge / figures.other).collect()
        };
        let (to_twin, to_tuned) = (ratios(BESIDE_TWIN), ratios(BESIDE_TUNED));
        if to_twin.is_empty() || to_tuned.is_empty() {
            return;
        }
        targets.at_most(TO_TWIN, &format!("median ratio judge/twin, by {by}"), median(to_twin));
        targets.at_most(LARGEST_TO_TUNED, &format!("largest ratio judge/tuned, by {by}"), greatest(&to_tuned));
        targets.at_most(TO_TUNED, &format!("median ratio judge/tuned, by {by}"), median(to_tuned));
        targets.told(&format!("median ratio judge/fastest, by {by}"), median(ratios(BESIDE_FASTEST)));
    }
    targets.print();
}
