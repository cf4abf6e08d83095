//! The command-line tool beside the bare library calls: whole processes, which find, read and hash the files, judge them and
//! print their lines, beside the judging of the same bytes in memory. Wall time, since two threads are to be seen.
use crate::measure::{least, median};
use crate::table::Table;
use crate::targets::Targets;
use crate::workloads::lines;
use std::path::{Path, PathBuf};
use std::process::{Command, Stdio};
use std::time::Instant;
use std::{env, fs, hint::black_box, io, process, thread};

/// How often each takes its turn.
const TURNS: usize = 25;

/// What the tool may take beside the bare calls, and how much faster two threads have to be.
const TO_BARE: f64 = 1.2;
const BY_TWO: f64 = 1.7;

/// Captures of one length, in memory and in files of a folder.
struct Captures {
    name: &'static str,
    folder: PathBuf,
    bytes: Vec<Vec<u8>>,
}

/// A folder that is removed with its files.
struct Folder(PathBuf);

impl Folder {
    fn new() -> io::Result<Folder> {
        let path = env::temp_dir().join(format!("sejimakpu-benchmark-{}", process::id()));
        fs::create_dir(&path)?;
        fs::write(path.join("lines.grammar"), lines::GRAMMAR.as_flattened())?;
        Ok(Folder(path))
    }

    fn captures(&self, name: &'static str, count: usize, length: usize) -> io::Result<Captures> {
        let folder = self.0.join(length.to_string());
        fs::create_dir(&folder)?;
        let bytes = vec![lines::capture(length); count];
        for (number, capture) in bytes.iter().enumerate() {
            fs::write(folder.join(format!("{number:04}.capture")), capture)?;
        }
        Ok(Captures { name, folder, bytes })
    }
}

impl Drop for Folder {
    fn drop(&mut self) {
        let _ = fs::remove_dir_all(&self.0);
    }
}

/// Judges all by the library, in cells that are allocated and touched before.
struct Bare {
    image: Vec<u8>,
    notes: Vec<u32>,
    work: Vec<u32>,
}

impl Bare {
    fn new(longest: usize) -> Bare {
        let image = lines::workload().image;
        let cells = sejimakpu::cells(&image, longest).expect("a workload's image is good");
        Bare { image, notes: vec![1; cells], work: vec![1; cells] }
    }

    fn judge_all(&mut self, captures: &[Vec<u8>]) {
        for capture in captures {
            let judged = sejimakpu::judge(&self.image, capture, &mut self.notes, &mut self.work);
            assert_eq!(black_box(judged).map(|judged| judged.verdict), Ok(sejimakpu::Verdict::Accepted));
        }
    }
}

/// Runs the tool on a folder.
fn run_tool(tool: &Path, grammar: &Path, captures: &Captures, jobs: &str) {
    let status = Command::new(tool)
        .args(["judge", "--jobs", jobs, "--grammar"])
        .args([grammar, &captures.folder])
        .stdout(Stdio::null())
        .status();
    assert!(status.is_ok_and(|status| status.success()), "the tool accepts all captures");
}

/// Seconds of a call.
fn seconds(call: impl FnOnce()) -> f64 {
    let start = Instant::now();
    call();
    start.elapsed().as_secs_f64()
}

/// The bare calls on two threads, half of the captures each: what the machine's memory lets two threads gain.
fn judge_by_two(bare: &mut [Bare; 2], captures: &[Vec<u8>]) {
    let halves = captures.chunks(captures.len().div_ceil(2));
    thread::scope(|scope| {
        for (bare, half) in bare.iter_mut().zip(halves) {
            scope.spawn(|| bare.judge_all(half));
        }
    });
}

/// The table, and the targets by the least times: what else the machine does can only add to them.
pub fn print(tool: &Path) -> io::Result<()> {
    let folder = Folder::new()?;
    let grammar = folder.0.join("lines.grammar");
    let heading = ["the tool, milliseconds", "bare", "by two", "tool", "by two", "to bare", "bare, two", "tool, two"];
    let (mut table, mut targets) = (Table::new(&heading), Targets::new());
    for captures in [folder.captures("1,000 of 1 kB", 1_000, 1_000)?, folder.captures("64 of 60 kB", 64, 60_000)?] {
        let mut bare = [0, 1].map(|_| Bare::new(captures.bytes[0].len()));
        let mut times: [Vec<f64>; 4] = Default::default();
        for _ in 0..TURNS {
            times[0].push(seconds(|| bare[0].judge_all(&captures.bytes)));
            times[1].push(seconds(|| judge_by_two(&mut bare, &captures.bytes)));
            times[2].push(seconds(|| run_tool(tool, &grammar, &captures, "1")));
            times[3].push(seconds(|| run_tool(tool, &grammar, &captures, "2")));
        }
        for (by, times) in [("least", times.each_ref().map(|times| least(times))), ("median", times.map(median))] {
            let [bare, bare_by_two, one, two] = times;
            let mut row = vec![format!("{}, {by}", captures.name)];
            row.extend(times.map(|time| format!("{:.1}", time * 1e3)));
            row.extend([one / bare, bare / bare_by_two, one / two].map(|ratio| format!("{ratio:.2}")));
            table.row(row);
            targets.at_most(TO_BARE, &format!("the tool to the bare calls, {}, {by}", captures.name), one / bare);
            targets.at_least(BY_TWO, &format!("the tool by two threads, {}, {by}", captures.name), one / two);
            targets.told(&format!("the bare calls by two threads, {}, {by}", captures.name), bare / bare_by_two);
        }
    }
    table.print();
    targets.print();
    Ok(())
}
