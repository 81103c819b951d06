//! The archive that is linked: its version and its format.

use crate::layout::FORMAT;
use crate::lent::abi;
use crate::ENGINE_VERSION;

/// The number of a version: 1,000,000 for each major, 1,000 for each minor, 1 for each patch.
const fn number_of(version: &str) -> u32 {
    let bytes = version.as_bytes();
    let (mut number, mut part, mut at) = (0, 0, 0);
    while at < bytes.len() {
        if bytes[at] == b'.' {
            number = (number + part) * 1_000;
            part = 0;
        } else {
            part = part * 10 + (bytes[at] - b'0') as u32;
        }
        at += 1;
    }
    number + part
}

/// The version of the archive that is linked: major, minor and patch. [`ENGINE_VERSION`] is the one that the
/// package is made for. Where major or minor differ, opening a member, and asking whether a state is well
/// formed, panics and says so.
///
/// ```
/// let (major, minor, patch) = forgelilac::archive_version();
/// assert_eq!(format!("{major}.{minor}.{patch}"), forgelilac::ENGINE_VERSION);
/// ```
#[must_use]
pub fn archive_version() -> (u32, u32, u32) {
    // SAFETY: a number, and nothing goes in.
    let number = unsafe { abi::forgelilac_version() };
    (number / 1_000_000, number / 1_000 % 1_000, number % 1_000)
}

/// The format of the words of the archive that is linked: [`FORMAT`]. An archive of another format does not
/// link.
#[must_use]
pub fn archive_format() -> u32 {
    // SAFETY: a number, and nothing goes in.
    unsafe { abi::forgelilac_format() }
}

/// # Panics
/// Where the archive is not of the version and the format that the package is made for.
pub(crate) fn test_archive() {
    let (major, minor, patch) = archive_version();
    // SAFETY: a number, and nothing goes in. An archive of another format has no function of this name.
    let format = unsafe { abi::forgelilac_format_3() };
    assert!(
        (major * 1_000 + minor, format) == (number_of(ENGINE_VERSION) / 1_000, FORMAT),
        "the archive is version {major}.{minor}.{patch}, format {format}; this package is made for {ENGINE_VERSION}, format {FORMAT}"
    );
}
