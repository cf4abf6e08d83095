//! A shift's plan: which captures are judged by which grammars.
use crate::captures::{self, Source};
use crate::cli;
use crate::inspection::Inspection;
use crate::judging::Task;
use globset::{GlobBuilder, GlobMatcher};
use sejimakpu::Matching;
use serde::Deserialize;
use std::fs;
use std::path::{Path, PathBuf};

#[derive(Deserialize)]
#[serde(deny_unknown_fields)]
struct Plan {
    #[serde(default)]
    row: Vec<Row>,
}

#[derive(Deserialize)]
#[serde(deny_unknown_fields)]
struct Row {
    captures: Patterns,
    #[serde(default)]
    grammars: Vec<PathBuf>,
    #[serde(default)]
    images: Vec<PathBuf>,
    #[serde(default)]
    matching: RowMatching,
}

#[derive(Deserialize)]
#[serde(untagged)]
enum Patterns {
    One(String),
    Several(Vec<String>),
}

/// Whole where the plan does not say.
#[derive(Clone, Copy, Default, Deserialize)]
#[serde(rename_all = "lowercase")]
enum RowMatching {
    #[default]
    Whole,
    Leading,
}

impl Patterns {
    fn each(&self) -> &[String] {
        match self {
            Patterns::One(pattern) => std::slice::from_ref(pattern),
            Patterns::Several(patterns) => patterns,
        }
    }

    /// A star does not pass a folder's end, two do.
    fn matchers(&self) -> Result<Vec<GlobMatcher>, globset::Error> {
        let matcher = |pattern: &String| GlobBuilder::new(pattern).literal_separator(true).build();
        self.each().iter().map(|pattern| Ok(matcher(pattern)?.compile_matcher())).collect()
    }
}

/// A row with its patterns ready and its machines loaded.
struct Ready {
    patterns: Vec<GlobMatcher>,
    machines: Vec<usize>,
}

/// What a plan asks to judge in a folder; words where the plan is not as it must be.
pub fn inspection(given: &cli::Shift) -> Result<Inspection, String> {
    let shown = |path: &Path| crate::shown::name(path.as_os_str());
    let text =
        fs::read_to_string(&given.plan).map_err(|error| format!("{}: cannot be read: {error}", shown(&given.plan)))?;
    // What the plan has may not print.
    let wrong = |words: String| format!("{}: {}", shown(&given.plan), crate::shown::name(words.as_ref()));
    let plan: Plan = toml::from_str(&text).map_err(|error| wrong(error.to_string()))?;
    if plan.row.is_empty() {
        return Err(wrong("the plan has no row".into()));
    }
    if !given.folder.is_dir() {
        return Err(format!("{}: is no folder", shown(&given.folder)));
    }
    let mut inspection = Inspection { plan: Some(given.plan.clone()), ..Inspection::default() };
    let base = given.plan.parent().unwrap_or(Path::new(""));
    let mut rows = Vec::new();
    for (number, row) in (1..).zip(&plan.row) {
        let patterns = row.captures.matchers().map_err(|error| wrong(format!("row {number}: {error}")))?;
        if row.captures.each().is_empty() || row.grammars.is_empty() && row.images.is_empty() {
            return Err(wrong(format!("row {number} needs a pattern of captures, and a grammar or an image")));
        }
        rows.push(Ready { patterns, machines: inspection.load_row(base, row) });
    }
    inspection.add_tasks(&given.folder, &rows);
    for (number, row) in (1..).zip(&rows) {
        inspection.tell_unfound(&given.folder, number, row);
    }
    Ok(inspection)
}

/// Whether a pattern names a capture: by its path below the folder.
fn names(pattern: &GlobMatcher, folder: &Path, source: &Source) -> bool {
    source.file().and_then(|file| file.strip_prefix(folder).ok()).is_some_and(|path| pattern.is_match(path))
}

impl Inspection {
    /// The numbers of a row's machines.
    fn load_row(&mut self, base: &Path, row: &Row) -> Vec<usize> {
        let matching = match row.matching {
            RowMatching::Whole => Matching::Whole,
            RowMatching::Leading => Matching::Leading,
        };
        let placed = |files: &[PathBuf]| files.iter().map(|file| base.join(file)).collect::<Vec<_>>();
        self.load(&placed(&row.grammars), &placed(&row.images), matching)
    }

    /// Every file below the folder, by all rows that name it. One that no row names is told.
    fn add_tasks(&mut self, folder: &Path, rows: &[Ready]) {
        for capture in captures::below(folder) {
            let named = |row: &&Ready| {
                let source = capture.as_ref().ok();
                source.is_some_and(|source| row.patterns.iter().any(|pattern| names(pattern, folder, source)))
            };
            let machines: Vec<usize> = rows.iter().filter(named).flat_map(|row| row.machines.iter().copied()).collect();
            let unnamed = capture.is_ok() && machines.is_empty();
            let error = unnamed.then(|| "no row of the plan names it".to_string());
            self.tasks.push(Task { error, ..Task::new(capture, machines) });
        }
    }

    /// Each pattern has to find a capture: one that is missing must not pass unseen.
    fn tell_unfound(&mut self, folder: &Path, number: usize, row: &Ready) {
        for pattern in &row.patterns {
            let named = |task: &Task| task.capture.as_ref().is_ok_and(|source| names(pattern, folder, source));
            if !self.tasks.iter().any(named) {
                let pattern = crate::shown::name(pattern.glob().glob().as_ref());
                self.problems.push(format!("row {number} of the plan finds no capture: {pattern}"));
            }
        }
    }
}
