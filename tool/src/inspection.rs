//! One call of the tool: which captures are judged by which machines, telling them as they come, and the record at the end.
use crate::captures;
use crate::cli::{self, Format};
use crate::descriptors;
use crate::formats;
use crate::judging::{self, Task};
use crate::machines::{self, Machine};
use crate::output::{self, complain};
use crate::record::{Capture, Kind, Record, Totals};
use crate::report;
use crate::shown;
use crate::status::Status;
use crate::teller::Teller;
use crate::version::JudgedBy;
use sejimakpu::Matching;
use std::fs::{self, Metadata};
use std::io::{self, BufWriter, Write};
use std::num::NonZeroUsize;
use std::os::unix::fs::MetadataExt;
use std::path::{Path, PathBuf};
use std::thread;
use std::time::SystemTime;

/// What is to be judged.
#[derive(Default)]
pub struct Inspection {
    pub machines: Vec<Machine>,
    pub tasks: Vec<Task>,
    /// The plan, if there is one.
    pub plan: Option<PathBuf>,
    /// What is wrong and of no capture.
    pub problems: Vec<String>,
}

impl Inspection {
    /// Every capture that is given, by every grammar and image.
    pub fn of(given: &cli::Judge) -> Inspection {
        let mut inspection = Inspection::default();
        let matching = if given.leading { Matching::Leading } else { Matching::Whole };
        let machines = inspection.load(&given.grammar, &given.image, matching);
        let task = |capture| Task::new(capture, machines.iter().copied());
        inspection.tasks = captures::find(&given.captures).into_iter().map(task).collect();
        inspection
    }

    /// The numbers of grammars and images, each read once: the same file for the same matching is one machine.
    pub fn load(&mut self, grammars: &[PathBuf], images: &[PathBuf], matching: Matching) -> Vec<usize> {
        let grammars = grammars.iter().map(|file| (file, machines::kind_of(file), matching));
        let images = images.iter().map(|file| (file, Kind::Image, Matching::default()));
        grammars.chain(images).map(|(file, kind, matching)| self.machine(file, kind, matching)).collect()
    }

    fn machine(&mut self, file: &Path, kind: Kind, matching: Matching) -> usize {
        let same = |other: &Machine| (other.file.as_path(), other.kind, other.matching) == (file, kind, matching);
        self.machines.iter().position(same).unwrap_or_else(|| {
            self.machines.push(Machine::load(file, kind, matching));
            self.machines.len() - 1
        })
    }

    /// A file that is to be written and is one of those that are judged or judge: it would be lost.
    fn overwritten<'a>(&self, output: &'a cli::Output) -> Option<&'a Path> {
        let identity =
            |file: &Path| fs::metadata(file).ok().filter(Metadata::is_file).map(|what| (what.dev(), what.ino()));
        let sources = || self.tasks.iter().filter_map(|task| task.capture.as_ref().ok()?.file());
        let machines = || self.machines.iter().map(|machine| machine.file.as_path());
        let read = || sources().chain(machines()).chain(self.plan.as_deref());
        let written = [&output.out, &output.report].into_iter().flatten();
        written
            .map(PathBuf::as_path)
            .find(|file| identity(file).is_some_and(|own| read().any(|other| identity(other) == Some(own))))
    }

    /// Judges, tells and writes all of it.
    pub fn run(self, output: &cli::Output) -> Status {
        if let Some(file) = self.overwritten(output) {
            complain(&format!("error: {}: is a file that is read, and is not written", shown::name(file.as_os_str())));
            return Status::Failed;
        }
        let started = SystemTime::now();
        let format = output.format.or_else(|| formats::of_ending(output.out.as_deref()?)).unwrap_or(Format::Text);
        let as_text = !output.quiet && (output.out.is_some() || format == Format::Text);
        let mut teller = Teller::new(output, as_text, self.tasks.len());
        for machine in &self.machines {
            teller.machine(machine);
        }
        let machines: Vec<_> = self.machines.iter().map(Machine::record).collect();
        let (mut totals, mut captures, mut status) = (Totals::default(), Vec::new(), Status::Accepted);
        judging::judge_all(&self.machines, &self.tasks, jobs(output), |capture| {
            status = status.max(capture.outcome().into());
            totals.add(&capture);
            teller.capture(&capture, &machines);
            captures.push(capture);
        });
        for problem in self.problems {
            let capture = unfound(problem);
            status = Status::Failed;
            totals.add(&capture);
            teller.capture(&capture, &machines);
            captures.push(capture);
        }
        teller.totals(&totals);
        let judged_by = JudgedBy::this();
        let record = Record { machines, captures, totals, started, finished: SystemTime::now(), judged_by };
        let status = status.max(teller.status).max(write_page(&record, output));
        status.max(write_record(&record, format, output, status))
    }
}

/// In the place of a capture that was not found.
fn unfound(problem: String) -> Capture {
    let error = Some(problem);
    Capture { file: None, bytes: None, sha256: None, judgements: Vec::new(), error, time: SystemTime::now() }
}

fn jobs(output: &cli::Output) -> NonZeroUsize {
    output.jobs.or_else(|| thread::available_parallelism().ok()).unwrap_or(NonZeroUsize::MIN)
}

/// Writes the page, where one was asked for.
fn write_page(record: &Record, output: &cli::Output) -> Status {
    output.report.as_ref().map_or(Status::Accepted, |file| {
        let name = shown::name(file.as_os_str());
        output::written(&name, output::write_file(file, |out| report::write(record, out)))
    })
}

/// Writes the record to where it was asked for; the text on standard output was told as it came.
fn write_record(record: &Record, format: Format, output: &cli::Output, status: Status) -> Status {
    match &output.out {
        Some(file) => {
            let name = shown::name(file.as_os_str());
            output::written(&name, output::write_file(file, |out| formats::write(format, record, status, out)))
        }
        None if format == Format::Text => Status::Accepted,
        None => {
            let mut out = BufWriter::new(io::stdout().lock());
            let result = descriptors::output_open().and_then(|()| formats::write(format, record, status, &mut out));
            output::written("standard output", result.and_then(|()| out.flush()))
        }
    }
}
