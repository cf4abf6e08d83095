//! Telling a person what comes: lines on standard output, hints and progress on standard error.
use crate::cli::{self, Color};
use crate::descriptors;
use crate::formats::text;
use crate::machines::Machine;
use crate::output::{self, complain};
use crate::record::{self, Capture, Totals};
use crate::status::Status;
use indicatif::{ProgressBar, ProgressDrawTarget, ProgressState, ProgressStyle};
use std::env;
use std::fmt;
use std::io::{self, BufWriter, IsTerminal, Stdout, Write};

pub struct Teller {
    as_text: bool,
    hints: bool,
    lines: text::Style,
    remarks: text::Style,
    progress: ProgressBar,
    /// Standard output: by lines on a terminal, else by blocks, written out before anything goes to standard error.
    out: BufWriter<Stdout>,
    by_lines: bool,
    /// What telling itself came to.
    pub status: Status,
}

impl Teller {
    pub fn new(output: &cli::Output, as_text: bool, tasks: usize) -> Teller {
        let style = |terminal| text::Style { coloured: coloured(output.color, terminal) };
        let progress = if output.quiet || !io::stderr().is_terminal() { ProgressBar::hidden() } else { bar(tasks) };
        Teller {
            as_text,
            hints: !output.quiet,
            lines: style(io::stdout().is_terminal()),
            remarks: style(io::stderr().is_terminal()),
            progress,
            out: BufWriter::new(io::stdout()),
            by_lines: io::stdout().is_terminal(),
            status: Status::Accepted,
        }
    }

    /// What is wrong with a grammar, and a warning where a capture may loop by it.
    pub fn machine(&mut self, machine: &Machine) {
        let wrong = machine.complaint().map(|complaint| text::complaint("error:", &complaint, self.remarks));
        let warning = machine.warning().filter(|_| self.hints);
        let warning = warning.map(|complaint| text::complaint("warning:", &complaint, self.remarks));
        self.remark(&wrong.or(warning).unwrap_or_default());
    }

    pub fn capture(&mut self, capture: &Capture, machines: &[record::Machine]) {
        let line = self.as_text.then(|| text::line(capture, machines, self.lines));
        line.iter().for_each(|line| self.line(line));
        self.remark(&text::remarks(capture, machines, self.hints, self.remarks));
        self.progress.inc(1);
    }

    pub fn totals(&mut self, totals: &Totals) {
        self.progress.finish_and_clear();
        if self.as_text {
            self.line(&text::totals(totals));
            self.written(|out| out.flush());
        }
    }

    /// A line on standard output.
    fn line(&mut self, line: &str) {
        let by_lines = self.by_lines;
        self.written(|out| writeln!(out, "{line}").and_then(|()| if by_lines { out.flush() } else { Ok(()) }));
    }

    /// Writes to standard output. The first failure is told, and makes the status 2; judging goes on.
    fn written(&mut self, write: impl FnOnce(&mut BufWriter<Stdout>) -> io::Result<()>) {
        if self.status == Status::Accepted {
            let out = &mut self.out;
            let open = descriptors::output_open();
            if let Err(error) = open.and_then(|()| self.progress.suspend(|| write(out))) {
                self.status = output::written("standard output", Err(error));
            }
        }
    }

    fn remark(&mut self, lines: &[String]) {
        if !lines.is_empty() {
            self.written(|out| out.flush());
            self.progress.suspend(|| complain(&lines.join("\n")));
        }
    }
}

/// A bar with count and rate.
fn bar(tasks: usize) -> ProgressBar {
    let bar = ProgressBar::with_draw_target(Some(tasks as u64), ProgressDrawTarget::stderr());
    let rate = |state: &ProgressState, out: &mut dyn fmt::Write| {
        // Where it cannot be written there is no bar.
        let _ = write!(out, "{:.0}/s", state.per_sec());
    };
    let style = ProgressStyle::with_template("{wide_bar} {pos}/{len} captures, {rate}, {eta} left");
    bar.set_style(style.unwrap_or_else(|_| ProgressStyle::default_bar()).with_key("rate", rate));
    bar
}

/// The usual conventions: never with NO_COLOR, always with CLICOLOR_FORCE, else on a terminal.
fn coloured(color: Color, terminal: bool) -> bool {
    let value = |name| env::var_os(name).filter(|value| !value.is_empty());
    match color {
        Color::Always => true,
        Color::Never => false,
        Color::Auto if value("NO_COLOR").is_some() => false,
        Color::Auto if value("CLICOLOR_FORCE").is_some_and(|value| value != "0") => true,
        Color::Auto => terminal && value("TERM").is_none_or(|term| term != "dumb"),
    }
}
