//! What all tests use: temporary folders, the tool's real binary, and small grammars, images and captures.
use std::ffi::OsStr;
use std::fs;
use std::io::Write;
use std::path::{Path, PathBuf};
use std::process::{Command, Output, Stdio};
use std::sync::atomic::{AtomicUsize, Ordering};

/// The binary under test.
pub const TOOL: &str = env!("CARGO_BIN_EXE_sejimakpu");

pub const RING: &[u8] = include_bytes!("../../../examples/ring.peg");
pub const RING_BYTES: &[u8] = include_bytes!("../../../examples/ring.grammar");
pub const FORMED: &[u8] = include_bytes!("../../../examples/formed.capture");
pub const BROKEN: &[u8] = include_bytes!("../../../examples/broken.capture");

/// What is told of broken.capture by ring.peg.
pub const BROKEN_HINT: &str = "\
hint: broken.capture: line 3, column 3: expected '1'-'8' (port), found '?'
    3-? F
      ^
";

/// A temporary folder, removed at the end. The tool is run in it, so that names are short.
pub struct Folder(PathBuf);

impl Folder {
    pub fn new() -> Folder {
        static NEXT: AtomicUsize = AtomicUsize::new(0);
        let number = NEXT.fetch_add(1, Ordering::Relaxed);
        let path = std::env::temp_dir().join(format!("sejimakpu-{}-{number}", std::process::id()));
        fs::create_dir(&path).unwrap();
        Folder(path)
    }

    /// With the four files of the ring example.
    pub fn ring() -> Folder {
        let folder = Folder::new();
        folder.file("ring.peg", RING);
        folder.file("ring.grammar", RING_BYTES);
        folder.file("formed.capture", FORMED);
        folder.file("broken.capture", BROKEN);
        folder
    }

    pub fn path(&self, name: impl AsRef<OsStr>) -> PathBuf {
        self.0.join(name.as_ref())
    }

    /// Writes a file, with the folders above it.
    pub fn file(&self, name: impl AsRef<OsStr>, bytes: impl AsRef<[u8]>) -> PathBuf {
        let path = self.path(name);
        fs::create_dir_all(path.parent().unwrap()).unwrap();
        fs::write(&path, bytes).unwrap();
        path
    }

    pub fn folder(&self, name: impl AsRef<OsStr>) {
        fs::create_dir_all(self.path(name)).unwrap();
    }

    pub fn link(&self, target: impl AsRef<Path>, name: impl AsRef<OsStr>) {
        std::os::unix::fs::symlink(target, self.path(name)).unwrap();
    }

    pub fn pipe(&self, name: impl AsRef<OsStr>) -> PathBuf {
        let path = self.path(name);
        assert!(Command::new("mkfifo").arg(&path).status().unwrap().success());
        path
    }

    pub fn text(&self, name: impl AsRef<OsStr>) -> String {
        fs::read_to_string(self.path(name)).unwrap()
    }

    /// The names in the folder, sorted.
    pub fn names(&self) -> Vec<String> {
        let entries = fs::read_dir(&self.0).unwrap();
        let mut names: Vec<_> = entries.map(|entry| entry.unwrap().file_name().into_string().unwrap()).collect();
        names.sort();
        names
    }

    /// A program in this folder, with nothing in the environment that changes what the tool writes.
    pub fn program(&self, program: impl AsRef<OsStr>) -> Command {
        let mut command = Command::new(program);
        command.current_dir(&self.0).stdin(Stdio::null()).stdout(Stdio::piped()).stderr(Stdio::piped());
        for name in ["NO_COLOR", "CLICOLOR_FORCE", "CLICOLOR", "RUST_BACKTRACE", "COLUMNS"] {
            command.env_remove(name);
        }
        command
    }

    pub fn tool<A: AsRef<OsStr>>(&self, arguments: impl IntoIterator<Item = A>) -> Command {
        let mut command = self.program(TOOL);
        command.args(arguments);
        command
    }

    pub fn run<A: AsRef<OsStr>>(&self, arguments: impl IntoIterator<Item = A>) -> Ran {
        ran(&mut self.tool(arguments))
    }

    /// With arguments that are apart by spaces.
    pub fn words(&self, arguments: &str) -> Ran {
        self.run(arguments.split_whitespace())
    }

    /// With these bytes on standard input.
    pub fn with_input(&self, arguments: &str, input: &[u8]) -> Ran {
        let mut child = self.tool(arguments.split_whitespace()).stdin(Stdio::piped()).spawn().unwrap();
        let mut pipe = child.stdin.take().unwrap();
        let written = pipe.write_all(input);
        drop(pipe);
        let ran = Ran::of(child.wait_with_output().unwrap());
        // The tool may end before it has read all of a long input.
        assert!(written.is_ok() || input.len() > 65_535);
        ran
    }

    /// A shell's command, in which "$@" is the tool with the arguments.
    pub fn shell(&self, script: &str, arguments: &str) -> Ran {
        let mut command = self.program("bash");
        ran(command.args(["-c", script, "bash", TOOL]).args(arguments.split_whitespace()))
    }
}

impl Drop for Folder {
    fn drop(&mut self) {
        // Where it cannot be removed, the test has failed before.
        let _ = fs::remove_dir_all(&self.0);
    }
}

pub fn ran(command: &mut Command) -> Ran {
    Ran::of(command.output().unwrap())
}

/// What a run of the tool gave.
#[derive(Debug)]
pub struct Ran {
    /// None where a signal ended it.
    pub status: Option<i32>,
    pub stdout: String,
    pub stderr: String,
}

impl Ran {
    pub fn of(output: Output) -> Ran {
        let text = |bytes| String::from_utf8(bytes).expect("the tool writes UTF-8");
        Ran { status: output.status.code(), stdout: text(output.stdout), stderr: text(output.stderr) }
    }

    /// The whole of it, each line compared.
    #[track_caller]
    pub fn gives(&self, status: i32, stdout: &str, stderr: &str) {
        assert_eq!(self.stdout, stdout, "standard output; standard error was:\n{}", self.stderr);
        assert_eq!(self.stderr, stderr, "standard error");
        assert_eq!(self.status, Some(status), "status");
    }

    /// The lines of standard output and the status, where standard error says more than is looked at.
    #[track_caller]
    pub fn writes(&self, status: i32, stdout: &str) {
        assert_eq!(self.stdout, stdout, "standard output; standard error was:\n{}", self.stderr);
        assert_eq!(self.status, Some(status), "status");
    }
}

/// An image of one state, class and symbol, no final state: this rule stands at the left marker, where the run starts.
pub fn image(rule: [u8; 4]) -> Vec<u8> {
    let numbers = [24u32, 8, 32, 256, 288, 12];
    let mut bytes: Vec<u8> = numbers.iter().flat_map(|number| number.to_le_bytes()).collect();
    bytes.extend([1, 1, 1, 0, 0, 0, 0, 0]);
    bytes.extend([0; 256]);
    bytes.extend([[0; 4], rule, [0; 4]].as_flattened());
    bytes
}

/// Pops and stays: ended.
pub const ENDING: [u8; 4] = [3, 0, 0, 0];
/// Halts.
pub const HALTING: [u8; 4] = [4, 0, 0, 0];
/// Changes to the same configuration: looping.
pub const LOOPING: [u8; 4] = [1, 0, 0, 0];
/// A missing rule: stuck.
pub const MISSING: [u8; 4] = [0, 0, 0, 0];

/// The SHA-256 in hexadecimal digits.
pub fn sha256(bytes: &[u8]) -> String {
    use sha2::Digest;
    format!("{:x}", sha2::Sha256::digest(bytes))
}

/// Numbers that look random and are the same in every run.
pub struct Numbers(pub u64);

impl Numbers {
    /// One below a bound.
    pub fn below(&mut self, bound: usize) -> usize {
        self.0 = self.0.wrapping_mul(6_364_136_223_846_793_005).wrapping_add(1_442_695_040_888_963_407);
        (self.0 >> 33) as usize % bound
    }

    pub fn byte(&mut self) -> u8 {
        self.below(256) as u8
    }
}
