//! The version of the archive that is linked.
use crate::ffi;
use std::fmt;

/// A version of the library: 0.1.0 has major 0, minor 1 and patch 0. A later version is greater.
#[derive(Clone, Copy, Debug, PartialEq, Eq, PartialOrd, Ord, Hash)]
pub struct Version {
    /// The first number.
    pub major: u32,
    /// The second number.
    pub minor: u32,
    /// The third number.
    pub patch: u32,
}

impl Version {
    /// The version that the archive tells as 1,000,000 · major + 1,000 · minor + patch.
    fn of_number(number: u32) -> Version {
        Version { major: number / 1_000_000, minor: number / 1_000 % 1_000, patch: number % 1_000 }
    }
}

impl fmt::Display for Version {
    fn fmt(&self, f: &mut fmt::Formatter<'_>) -> fmt::Result {
        write!(f, "{}.{}.{}", self.major, self.minor, self.patch)
    }
}

/// The version of the archive that is linked.
///
/// It names the archive in an acceptance record. This crate is made for the archive of its own version: any other says
/// that the wrong archive was linked.
///
/// ```
/// use sejimakpu::Version;
///
/// let version = sejimakpu::version();
/// assert_eq!(version, Version { major: 0, minor: 1, patch: 0 });
/// assert!(version < Version { major: 1, minor: 0, patch: 0 });
/// assert_eq!(format!("judged by sejimakpu {version}"), "judged by sejimakpu 0.1.0");
/// ```
#[must_use]
pub fn version() -> Version {
    Version::of_number(ffi::version())
}

#[cfg(test)]
mod tests {
    use super::*;
    use crate::header;

    #[test]
    fn archive_crate_and_header_have_one_version() {
        let Version { major, minor, patch } = version();
        assert_eq!(version().to_string(), env!("CARGO_PKG_VERSION"));
        let number = ffi::version();
        for (name, number) in
            [("VERSION_MAJOR", major), ("VERSION_MINOR", minor), ("VERSION_PATCH", patch), ("VERSION", number)]
        {
            header::defines(name, number);
        }
        assert_eq!(number, 1_000_000 * major + 1_000 * minor + patch);
    }

    #[test]
    fn numbers_are_taken_apart() {
        for (number, parts, text) in [
            (0, (0, 0, 0), "0.0.0"),
            (999, (0, 0, 999), "0.0.999"),
            (999_000, (0, 999, 0), "0.999.0"),
            (1_002_003, (1, 2, 3), "1.2.3"),
            (u32::MAX, (4_294, 967, 295), "4294.967.295"),
        ] {
            let version = Version::of_number(number);
            assert_eq!((version.major, version.minor, version.patch), parts);
            assert_eq!(version.to_string(), text);
        }
    }

    #[test]
    fn versions_are_ordered_as_their_numbers() {
        let numbers = [0, 1, 999, 1_000, 1_001, 999_999, 1_000_000, 1_001_000, u32::MAX];
        assert!(numbers.map(Version::of_number).is_sorted_by(|a, b| a < b));
    }
}
