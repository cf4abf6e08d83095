//! The command line: commands, options and their help.
use clap::builder::{PathBufValueParser, TypedValueParser};
use clap::{Args, Parser, Subcommand, ValueEnum};
use std::ffi::OsString;
use std::num::NonZeroUsize;
use std::path::PathBuf;

/// Judges console captures by grammars: every verdict is that of the proved library.
///
/// Status: 0 if every capture is accepted, 1 if one is not, 2 if something was refused or could not be read or written. 2 wins.
#[derive(Parser)]
#[command(name = "sejimakpu", version = crate::version::SHORT.as_str(), long_version = crate::version::LONG.as_str())]
#[command(propagate_version = true, infer_subcommands = false, max_term_width = 100)]
pub struct Cli {
    #[command(subcommand)]
    pub command: Command,
}

#[derive(Subcommand)]
pub enum Command {
    /// Judges captures by one or more grammars
    ///
    /// A capture passes only if each grammar accepts it. A line for each capture goes to standard output, in the order
    /// given, then the totals; why a capture is not accepted goes to standard error, as a hint.
    #[command(override_usage = "sejimakpu judge -g <GRAMMAR>.. [OPTIONS] <CAPTURE>..")]
    Judge(Judge),
    /// Judges a shift's captures as a plan says, which names the grammars for each
    ///
    /// Every file below the folder must be named by a row of the plan, and each pattern must find one: what is not judged
    /// makes the status 2.
    Shift(Shift),
    /// Looks at grammars
    #[command(subcommand)]
    Grammar(Grammar),
    /// Judges the worked examples C1 to C10 and the samples, to see that the tool works on this machine
    Selftest,
    /// Writes a completion script for a shell to standard output
    Completions {
        /// The shell
        shell: clap_complete::Shell,
    },
}

#[derive(Args)]
pub struct Judge {
    /// A grammar: a text where the name ends in .peg, else its bytes; several may be given
    #[arg(short, long = "grammar", value_name = "GRAMMAR", required_unless_present = "image")]
    pub grammar: Vec<PathBuf>,
    /// The image of a machine; several may be given, beside grammars too
    #[arg(short, long, value_name = "IMAGE")]
    pub image: Vec<PathBuf>,
    /// Each grammar must match at the start, and anything may follow (else it must match the whole capture)
    #[arg(short, long)]
    pub leading: bool,
    /// Captures: files, folders (every file below), or - for standard input
    #[arg(value_name = "CAPTURE", required = true)]
    pub captures: Vec<OsString>,
    #[command(flatten)]
    pub output: Output,
}

#[derive(Args)]
pub struct Shift {
    /// The plan: which captures are judged by which grammars
    #[arg(value_name = "PLAN.toml")]
    pub plan: PathBuf,
    /// The folder of the captures
    #[arg(value_name = "DIR")]
    pub folder: PathBuf,
    #[command(flatten)]
    pub output: Output,
}

#[derive(Args)]
pub struct Output {
    /// The form of the record; without it, by the ending of --out's FILE (json, jsonl, csv, xml), else text
    #[arg(short, long, value_enum, value_name = "FORMAT")]
    pub format: Option<Format>,
    /// Writes the record to a file, which appears when it is whole; standard output then has the text
    #[arg(short, long, value_name = "FILE", value_parser = PathBufValueParser::new().try_map(file))]
    pub out: Option<PathBuf>,
    /// Writes a page for a browser, which appears when it is whole
    #[arg(long, value_name = "FILE.html", value_parser = PathBufValueParser::new().try_map(file))]
    pub report: Option<PathBuf>,
    /// How many captures are judged at once [default: as many as there are processors]
    #[arg(short, long, value_name = "N")]
    pub jobs: Option<NonZeroUsize>,
    /// No text, no hint and no progress: the status, and what could not be done
    #[arg(short, long)]
    pub quiet: bool,
    /// When to colour: auto is on a terminal, unless NO_COLOR is set
    #[arg(long, value_enum, value_name = "WHEN", default_value_t = Color::Auto)]
    pub color: Color,
}

/// A file's name. Standard output is no file: it has the text, or the record without --out.
fn file(name: PathBuf) -> Result<PathBuf, &'static str> {
    if name.as_os_str() == "-" {
        return Err("- is no file; without --out the record goes to standard output");
    }
    Ok(name)
}

#[derive(Clone, Copy, PartialEq, Eq, ValueEnum)]
pub enum Format {
    /// A line for each capture, then the totals
    Text,
    /// One object: what judged, the grammars, the captures, the totals
    Json,
    /// An object for each capture and grammar, a line each
    Jsonl,
    /// A row for each capture and grammar, below a row of names
    Csv,
    /// JUnit's XML: a test case for each capture and grammar
    Junit,
}

#[derive(Clone, Copy, PartialEq, Eq, ValueEnum)]
pub enum Color {
    Auto,
    Always,
    Never,
}

#[derive(Subcommand)]
pub enum Grammar {
    /// Says what is wrong with a grammar, or what it needs: rules of 31, classes, memory
    Check {
        /// Grammars: a text where the name ends in .peg, else its bytes
        #[arg(value_name = "GRAMMAR", required = true)]
        grammars: Vec<PathBuf>,
    },
    /// Writes a grammar's rules as text, one a line; read again, it is the same grammar
    Show {
        /// A text where the name ends in .peg, else its bytes
        #[arg(value_name = "GRAMMAR")]
        grammar: PathBuf,
    },
}
