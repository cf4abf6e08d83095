//! What judged: the tool's version and commit, and the archive's version and checksum.
use serde::Serialize;
use std::sync::LazyLock;

/// The commit that the tool was built from, with `-dirty` where files differed from it.
pub const COMMIT: &str = env!("SEJIMAKPU_COMMIT");

/// The SHA-256 of the archive that is linked, as the file was when it was linked.
pub const ARCHIVE_SHA256: &str = env!("SEJIMAKPU_ARCHIVE_SHA256");

/// The tool's own version.
pub const TOOL: &str = env!("CARGO_PKG_VERSION");

/// The version that the archive tells.
pub static ARCHIVE: LazyLock<String> = LazyLock::new(|| sejimakpu::version().to_string());

/// For `-V`.
pub static SHORT: LazyLock<String> = LazyLock::new(|| format!("{TOOL} (archive {}, commit {COMMIT})", *ARCHIVE));

/// For `--version`.
pub static LONG: LazyLock<String> =
    LazyLock::new(|| format!("{TOOL}\narchive {}\narchive sha256 {ARCHIVE_SHA256}\ncommit {COMMIT}", *ARCHIVE));

/// As records name it.
#[derive(Serialize)]
pub struct JudgedBy {
    pub tool_version: &'static str,
    pub tool_commit: &'static str,
    pub archive_version: &'static str,
    pub archive_sha256: &'static str,
}

impl JudgedBy {
    pub fn this() -> JudgedBy {
        JudgedBy {
            tool_version: TOOL,
            tool_commit: COMMIT,
            archive_version: ARCHIVE.as_str(),
            archive_sha256: ARCHIVE_SHA256,
        }
    }
}
