//! Names what the tool is built of: the commit, and the checksum of the archive that is linked.
use sha2::{Digest, Sha256};
use std::{env, fs, process::Command};

fn main() {
    println!("cargo:rerun-if-changed=src");
    println!("cargo:rerun-if-env-changed=SEJIMAKPU_COMMIT");
    let commit = env::var("SEJIMAKPU_COMMIT").ok().or_else(commit).unwrap_or_else(|| "unknown".into());
    println!("cargo:rustc-env=SEJIMAKPU_COMMIT={commit}");

    // rust/sejimakpu says where the archive is.
    let archive = env::var("DEP_SEJIMAKPU_ARCHIVE").expect("the archive's path");
    println!("cargo:rerun-if-changed={archive}");
    let bytes = fs::read(&archive).expect("the archive");
    println!("cargo:rustc-env=SEJIMAKPU_ARCHIVE_SHA256={:x}", Sha256::digest(bytes));
}

/// The commit of the checkout, if this is one.
fn commit() -> Option<String> {
    // Changes with every commit, and with every file that is added to one.
    for file in ["logs/HEAD", "index"] {
        println!("cargo:rerun-if-changed={}", git(&["rev-parse", "--git-path", file])?);
    }
    let dirty = if git(&["status", "--porcelain", "--untracked-files=no"])?.is_empty() { "" } else { "-dirty" };
    Some(git(&["rev-parse", "--short=12", "HEAD"])? + dirty)
}

fn git(arguments: &[&str]) -> Option<String> {
    // Without it a status may write the index anew, and by that the next build would start again.
    let output = Command::new("git").arg("--no-optional-locks").args(arguments).output().ok()?;
    let text = String::from_utf8(output.stdout).ok().filter(|_| output.status.success())?;
    Some(text.trim().to_string())
}
