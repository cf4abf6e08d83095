//! Judging: captures by machines, by several threads, told in the order given.
use crate::captures::{self, Found, Source};
use crate::hint::Hint;
use crate::machines::{Machine, Trouble};
use crate::record::{Answer, Capture, Judgement};
use crate::shown;
use sejimakpu::{Error, Grammar, Image, Verdict, Workspace, MAX_CAPTURE};
use std::collections::BTreeMap;
use std::num::NonZeroUsize;
use std::sync::atomic::{AtomicUsize, Ordering};
use std::sync::mpsc::{self, Sender};
use std::thread;
use std::time::{Duration, Instant, SystemTime};

/// A capture to judge, and by which machines; or a thing that cannot be judged.
pub struct Task {
    pub capture: Found,
    /// The numbers of the machines.
    pub machines: Vec<usize>,
    /// What is told in the place of a judgement.
    pub error: Option<String>,
}

impl Task {
    /// A capture by these machines. One that is named twice judges once.
    pub fn new(capture: Found, named: impl IntoIterator<Item = usize>) -> Task {
        let mut machines = Vec::new();
        for machine in named {
            if !machines.contains(&machine) {
                machines.push(machine);
            }
        }
        Task { capture, machines, error: None }
    }
}

/// Judges every task, and hands on each capture in the order of the tasks.
pub fn judge_all(machines: &[Machine], tasks: &[Task], jobs: NonZeroUsize, mut told: impl FnMut(Capture)) {
    let jobs = jobs.get().min(tasks.len());
    if jobs <= 1 {
        let mut worker = Worker::default();
        return tasks.iter().for_each(|task| told(worker.judge(machines, task)));
    }
    let next = &AtomicUsize::new(0);
    let (sender, receiver) = mpsc::channel();
    thread::scope(|scope| {
        let start = |sender: Sender<Batch>| {
            let run = move || judge_next(machines, tasks, next, &sender);
            thread::Builder::new().spawn_scoped(scope, run).is_ok()
        };
        // Where the system gives no more threads, those that there are judge all; where it gives none, this one does.
        let started = (0..jobs).take_while(|_| start(sender.clone())).count();
        if started == 0 {
            judge_next(machines, tasks, next, &sender);
        }
        drop(sender);
        // What comes before its turn waits.
        let (mut waiting, mut turn) = (BTreeMap::new(), 0);
        for batch in receiver {
            waiting.extend(batch);
            while let Some(capture) = waiting.remove(&turn) {
                told(capture);
                turn += 1;
            }
        }
    });
}

/// Captures with their numbers, handed on together.
type Batch = Vec<(usize, Capture)>;

/// How long a thread keeps captures back: waking the one that tells them costs as much as judging a short one.
const BATCH: Duration = Duration::from_millis(2);

/// One thread: takes the next task until there is none.
fn judge_next(machines: &[Machine], tasks: &[Task], next: &AtomicUsize, sender: &Sender<Batch>) {
    let mut worker = Worker::default();
    let (mut batch, mut since) = (Batch::new(), Instant::now());
    while let Some((number, task)) = take_next(next, tasks) {
        batch.push((number, worker.judge(machines, task)));
        if since.elapsed() >= BATCH {
            // The receiver stays until every thread has ended.
            let _ = sender.send(std::mem::take(&mut batch));
            since = Instant::now();
        }
    }
    let _ = sender.send(batch);
}

fn take_next<'a>(next: &AtomicUsize, tasks: &'a [Task]) -> Option<(usize, &'a Task)> {
    let number = next.fetch_add(1, Ordering::Relaxed);
    Some((number, tasks.get(number)?))
}

/// What one thread keeps from capture to capture.
#[derive(Default)]
struct Worker {
    workspace: Workspace,
    bytes: Vec<u8>,
}

impl Worker {
    fn judge(&mut self, machines: &[Machine], task: &Task) -> Capture {
        let mut capture = Capture {
            file: None,
            bytes: None,
            sha256: None,
            judgements: Vec::new(),
            error: task.error.clone(),
            time: SystemTime::now(),
        };
        match &task.capture {
            Ok(source) => {
                capture.file = Some(shown::name(source.name()));
                self.judge_source(machines, &task.machines, source, &mut capture);
            }
            Err((path, error)) => {
                capture.file = Some(shown::name(path.as_os_str()));
                capture.error = Some(error.clone());
            }
        }
        capture
    }

    fn judge_source(&mut self, machines: &[Machine], by: &[usize], source: &Source, capture: &mut Capture) {
        let taken = match captures::take(source, &mut self.bytes) {
            Ok(taken) => taken,
            Err(error) => {
                capture.error = Some(format!("cannot be read: {error}"));
                return;
            }
        };
        (capture.bytes, capture.sha256) = (Some(taken.length), taken.sha256);
        for &machine in by {
            let answer = match &machines[machine].image {
                Err(Trouble::Refused(refusal)) => Answer::Refused(*refusal),
                Err(Trouble::Error(error)) => Answer::Error(error.clone()),
                Ok(image) => self.answer(image, machines[machine].grammar.as_ref(), taken.length),
            };
            capture.judgements.push(Judgement { machine, answer });
        }
    }

    /// What the library says of the bytes that were read, or of a length that it refuses.
    fn answer(&mut self, image: &Image, grammar: Option<&Grammar>, length: u64) -> Answer {
        let judged = if length > MAX_CAPTURE as u64 {
            image.cells(length as usize).map(|_| None)
        } else {
            self.workspace.judge(image, &self.bytes).map(Some)
        };
        match judged {
            Ok(Some(judged)) => {
                let notes = self.workspace.notes().filter(|_| judged.verdict != Verdict::Accepted);
                let hint = notes.map(|notes| Hint::of(grammar, &self.bytes, &judged, &notes));
                Answer::Judged { verdict: judged.verdict, readings: judged.readings, end: judged.end, hint }
            }
            Err(Error::Refused(refusal)) => Answer::Refused(refusal),
            // The archive's contract rules both out: another was linked.
            Ok(None) => Answer::Error("the archive does not refuse a capture that is too long".into()),
            Err(error) => Answer::Error(error.to_string()),
        }
    }
}
