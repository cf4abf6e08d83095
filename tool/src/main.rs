//! `sejimakpu`: a command line over the proved library. Every verdict, refusal and place is the library's; the tool finds the
//! files, lends the cells, and tells what came out.
mod captures;
mod cli;
mod descriptors;
mod formats;
mod grammar_command;
mod hint;
mod inspection;
mod judging;
mod machines;
mod output;
mod plan;
mod record;
mod report;
mod selftest;
mod shown;
mod status;
mod teller;
mod version;

use clap::error::ErrorKind;
use clap::{CommandFactory, Parser};
use cli::{Cli, Command, Grammar};
use inspection::Inspection;
use output::complain;
use status::Status;
use std::process::ExitCode;

fn main() -> ExitCode {
    let status = match Cli::parse().command {
        Command::Judge(given) => judge(&given),
        Command::Shift(given) => shift(&given),
        Command::Grammar(Grammar::Check { grammars }) => grammar_command::check(&grammars),
        Command::Grammar(Grammar::Show { grammar }) => grammar_command::show(&grammar),
        Command::Selftest => selftest::run(),
        Command::Completions { shell } => completions(shell),
    };
    status.into()
}

/// Leaves with a message on how the tool is used, and status 2.
fn misused(words: &str) -> ! {
    Cli::command().error(ErrorKind::ArgumentConflict, words).exit()
}

/// Record and page in one file: one of the two would be lost.
fn check_files(output: &cli::Output) {
    if output.out.is_some() && output.out == output.report {
        misused("the record and the page cannot go to one file");
    }
}

fn judge(given: &cli::Judge) -> Status {
    check_files(&given.output);
    if given.captures.iter().filter(|name| *name == "-").count() > 1 {
        misused("standard input, -, is one capture and can be given once");
    }
    Inspection::of(given).run(&given.output)
}

fn shift(given: &cli::Shift) -> Status {
    check_files(&given.output);
    match plan::inspection(given) {
        Ok(inspection) => inspection.run(&given.output),
        Err(words) => {
            complain(&format!("error: {words}"));
            Status::Failed
        }
    }
}

fn completions(shell: clap_complete::Shell) -> Status {
    let mut script = Vec::new();
    clap_complete::generate(shell, &mut Cli::command(), "sejimakpu", &mut script);
    output::print(&script)
}
