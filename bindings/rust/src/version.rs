//! The version of the interface.
use crate::raw::version;
use std::error::Error;
use std::fmt;

/// The version of the interface that this crate is written for. It is raised when an exported signature
/// or record moves.
pub const VERSION: u32 = 1;

/// The archive that is linked is of another version than this crate.
#[derive(Clone, Copy, Debug, PartialEq, Eq, Hash)]
pub struct VersionMismatch {
    /// The archive's version.
    pub archive: u32,
}

impl fmt::Display for VersionMismatch {
    fn fmt(&self, f: &mut fmt::Formatter<'_>) -> fmt::Result {
        write!(f, "libjakepuro.a is of version {}, this crate of {VERSION}", self.archive)
    }
}

impl Error for VersionMismatch {}

/// Whether the archive that is linked is of this crate's version.
///
/// The types of this crate's root ask in every call. A program asks first thing if it would rather be told
/// by a value than by a panic, or calls [`raw`](crate::raw).
///
/// ```
/// jakepuro::check_version()?;
/// assert_eq!(jakepuro::version(), jakepuro::VERSION);
/// # Ok::<(), jakepuro::VersionMismatch>(())
/// ```
pub fn check_version() -> Result<(), VersionMismatch> {
    of_version(version())
}

fn of_version(archive: u32) -> Result<(), VersionMismatch> {
    if archive == VERSION {
        Ok(())
    } else {
        Err(VersionMismatch { archive })
    }
}

/// Panics where the archive is of another version.
pub(crate) fn assert_version() {
    if let Err(mismatch) = check_version() {
        panic!("{mismatch}");
    }
}

#[cfg(test)]
mod tests {
    use super::*;

    #[test]
    fn an_archive_of_this_version() {
        assert_eq!(of_version(VERSION), Ok(()));
        assert_eq!(check_version(), Ok(()));
    }

    #[test]
    fn an_archive_of_another_version() {
        for archive in [0, VERSION + 1, u32::MAX] {
            let mismatch = of_version(archive).unwrap_err();
            assert_eq!(mismatch, VersionMismatch { archive });
            let said = format!("libjakepuro.a is of version {archive}, this crate of {VERSION}");
            assert_eq!(mismatch.to_string(), said);
        }
    }
}
