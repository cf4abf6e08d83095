//! Where records go: standard output, and files that appear when they are whole.
use crate::descriptors;
use crate::status::Status;
use std::ffi::OsString;
use std::fs::{self, File};
use std::io::{self, BufWriter, Write};
use std::path::{Path, PathBuf};
use std::process;
use std::sync::atomic::{AtomicUsize, Ordering};

/// A line on standard error. Where that cannot be written nothing else changes.
pub fn complain(line: &str) {
    let _ = writeln!(io::stderr(), "{line}");
}

/// Writes to standard output, and says what could not be written.
pub fn print(bytes: &[u8]) -> Status {
    let mut out = io::stdout().lock();
    let printed = descriptors::output_open().and_then(|()| out.write_all(bytes)).and_then(|()| out.flush());
    written("standard output", printed)
}

/// Says what could not be written.
pub fn written(name: &str, result: io::Result<()>) -> Status {
    match result {
        Ok(()) => Status::Accepted,
        Err(error) => {
            complain(&format!("error: {name}: cannot be written: {error}"));
            Status::Failed
        }
    }
}

/// Writes a file aside, in the same folder, and renames it when it is whole and on the disk; what stood there before stays
/// until then. A device or a pipe cannot be renamed to, and is written as it is.
pub fn write_file(file: &Path, write: impl FnOnce(&mut dyn Write) -> io::Result<()>) -> io::Result<()> {
    let file = match fs::metadata(file) {
        Ok(what) if !what.is_file() || is_descriptor(file) => {
            let mut out = BufWriter::new(File::options().append(true).open(file)?);
            write(&mut out)?;
            return out.flush();
        }
        Ok(_) => fs::canonicalize(file)?,
        Err(_) => followed(file),
    };
    let aside = file.with_file_name(aside());
    let whole = || {
        let new = File::create_new(&aside)?;
        if let Ok(old) = fs::metadata(&file) {
            new.set_permissions(old.permissions())?;
        }
        let mut out = BufWriter::new(new);
        write(&mut out)?;
        out.into_inner()?.sync_all()?;
        fs::rename(&aside, &file)
    };
    whole().inspect_err(|_| {
        // Nothing more can be done where it cannot be removed.
        let _ = fs::remove_file(&aside);
    })
}

/// Whether a name stands for a file that is open already, such as a log that is written on.
fn is_descriptor(file: &Path) -> bool {
    ["/dev/stdout", "/dev/stderr"].map(Path::new).contains(&file)
        || ["/dev/fd", "/proc/self/fd"].iter().any(|folder| file.starts_with(folder))
}

/// Where a link leads at whose end nothing is yet: the link stays one. As many as the system follows.
fn followed(file: &Path) -> PathBuf {
    let mut file = file.to_path_buf();
    for _ in 0..40 {
        match fs::read_link(&file) {
            Ok(target) => file = file.parent().unwrap_or(Path::new("")).join(target),
            Err(_) => break,
        }
    }
    file
}

/// A name that no other process and no other file of this one takes.
fn aside() -> OsString {
    static COUNT: AtomicUsize = AtomicUsize::new(0);
    format!(".sejimakpu-{}-{}.part", process::id(), COUNT.fetch_add(1, Ordering::Relaxed)).into()
}
