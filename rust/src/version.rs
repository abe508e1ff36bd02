//! The version of the archive, and of what this crate was written for.

use core::fmt;

use rahmisve_sys::rahmisve_version;

/// The version of the archives that this crate is for.
pub const VERSION: u32 = 6;

/// The version of the archive that this program is linked with.
///
/// ```
/// println!("librahmisve.a of version {}", rahmisve::version());
/// ```
#[must_use]
pub fn version() -> u32 {
    // SAFETY: nothing is lent.
    unsafe { rahmisve_version() }
}

/// The archive is of a version that this crate is not for.
#[derive(Clone, Copy, Debug, PartialEq, Eq)]
pub struct OtherVersion {
    /// The archive's version.
    pub archive: u32,
}

impl fmt::Display for OtherVersion {
    fn fmt(&self, f: &mut fmt::Formatter<'_>) -> fmt::Result {
        write!(f, "librahmisve.a is of version {}, and this program is for version {VERSION}", self.archive)
    }
}

impl core::error::Error for OtherVersion {}

/// Refuses an archive of another version. A program that may be linked with one calls it once, before anything else.
///
/// # Errors
///
/// [`OtherVersion`] where [`version`] is not [`VERSION`].
///
/// ```
/// if let Err(other) = rahmisve::check_version() {
///     eprintln!("{other}");
///     std::process::exit(2);
/// }
/// ```
pub fn check_version() -> Result<(), OtherVersion> {
    match version() {
        VERSION => Ok(()),
        archive => Err(OtherVersion { archive }),
    }
}
