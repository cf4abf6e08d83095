//! Captures: which files are meant, and reading them.
use crate::descriptors;
use sejimakpu::MAX_CAPTURE;
use sha2::{Digest, Sha256};
use std::collections::BTreeSet;
use std::ffi::{OsStr, OsString};
use std::fs::{self, DirEntry, File, FileType, Metadata};
use std::io::{self, Read};
use std::path::{Path, PathBuf};

/// Where a capture comes from.
#[derive(Clone, Debug, PartialEq, Eq)]
pub enum Source {
    Input,
    File(PathBuf),
}

impl Source {
    /// The file, if it is one.
    pub fn file(&self) -> Option<&Path> {
        match self {
            Source::Input => None,
            Source::File(file) => Some(file),
        }
    }

    pub fn name(&self) -> &OsStr {
        match self {
            Source::Input => OsStr::new("-"),
            Source::File(file) => file.as_os_str(),
        }
    }
}

/// A source, or what was given and is none.
pub type Found = Result<Source, (PathBuf, String)>;

/// The captures that are meant: each file, and of a folder every file below it, by name. Nothing that is found is left out:
/// what cannot be a capture is told in its place.
pub fn find(given: &[OsString]) -> Vec<Found> {
    let mut found = Vec::new();
    for name in given {
        let path = Path::new(name);
        if name == "-" {
            found.push(Ok(Source::Input));
        } else if path.is_dir() {
            found.extend(below(path));
        } else {
            found.push(Ok(Source::File(path.into())));
        }
    }
    found
}

/// Every file below a folder, by name; a folder without one is told.
pub fn below(folder: &Path) -> Vec<Found> {
    let mut found = Vec::new();
    walk(folder, &mut BTreeSet::new(), &mut found);
    if found.is_empty() {
        found.push(Err((folder.into(), "there is no capture in this folder".into())));
    }
    found
}

fn walk(folder: &Path, above: &mut BTreeSet<PathBuf>, found: &mut Vec<Found>) {
    let entries = || -> io::Result<(PathBuf, Vec<DirEntry>)> {
        Ok((fs::canonicalize(folder)?, fs::read_dir(folder)?.collect::<io::Result<_>>()?))
    };
    let (real, mut entries) = match entries() {
        Ok(both) => both,
        Err(error) => return found.push(Err((folder.into(), format!("cannot be read: {error}")))),
    };
    // A link may lead to a folder above it.
    if !above.insert(real.clone()) {
        return found.push(Err((folder.into(), "a link leads back to a folder above it".into())));
    }
    entries.sort_by_cached_key(DirEntry::file_name);
    for entry in entries {
        let path = entry.path();
        match kind(&entry) {
            Ok(what) if what.is_dir() => walk(&path, above, found),
            Ok(what) if what.is_file() => found.push(Ok(Source::File(path))),
            // Of a pipe or a device nobody knows whether it ends; who means one names it.
            Ok(_) => found.push(Err((path, "is no file".into()))),
            Err(error) => found.push(Err((path, format!("cannot be read: {error}")))),
        }
    }
    above.remove(&real);
}

/// What an entry is, or what it leads to. Only a link has to be asked for.
fn kind(entry: &DirEntry) -> io::Result<FileType> {
    match entry.file_type()? {
        what if what.is_symlink() => Ok(fs::metadata(entry.path())?.file_type()),
        what => Ok(what),
    }
}

/// A capture that was read: its bytes, or its length where it has too many for any judging.
pub struct Taken {
    pub length: u64,
    pub sha256: Option<String>,
}

/// Reads a capture into a buffer. Of a longer one than any capture may be, only so much is read as shows that.
pub fn take(source: &Source, bytes: &mut Vec<u8>) -> io::Result<Taken> {
    const MOST: usize = MAX_CAPTURE + 1;
    bytes.clear();
    bytes.reserve(MOST);
    let mut told = None;
    match source {
        Source::Input => {
            descriptors::input_open()?;
            io::stdin().lock().take(MOST as u64).read_to_end(bytes)?;
        }
        Source::File(file) => {
            let file = File::open(file)?;
            (&file).take(MOST as u64).read_to_end(bytes)?;
            if bytes.len() == MOST {
                told = Some(file.metadata()?).filter(Metadata::is_file).map(|what| what.len());
            }
        }
    }
    if bytes.len() == MOST {
        // A file tells its length; of a pipe it is known that it has so many bytes or more.
        return Ok(Taken { length: told.unwrap_or(0).max(MOST as u64), sha256: None });
    }
    Ok(Taken { length: bytes.len() as u64, sha256: Some(format!("{:x}", Sha256::digest(bytes))) })
}
