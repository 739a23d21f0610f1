//! The version that this package, include/kbuckets.h and the library share.

use crate::ffi;
use std::error::Error;
use std::fmt;

#[derive(Clone, Copy, Debug, PartialEq, Eq, PartialOrd, Ord)]
pub struct Version {
    pub major: u8,
    pub minor: u8,
    pub patch: u8,
}

/// The version of this package, and the one that the library must have.
pub const VERSION: Version = Version {
    major: number(env!("CARGO_PKG_VERSION_MAJOR")),
    minor: number(env!("CARGO_PKG_VERSION_MINOR")),
    patch: number(env!("CARGO_PKG_VERSION_PATCH")),
};

const fn number(digits: &str) -> u8 {
    match u8::from_str_radix(digits, 10) {
        Ok(number) => number,
        Err(_) => panic!("a part of the version is no byte"),
    }
}

/// The version of the linked library.
#[must_use]
pub fn library_version() -> Version {
    // SAFETY: it takes nothing and writes nothing.
    Version::from(unsafe { ffi::kbuckets_version() })
}

/// Another library is linked than the one that this package is written for.
#[derive(Clone, Copy, Debug, PartialEq, Eq)]
pub struct OtherLibrary(pub Version);

/// Holds the linked library to [`VERSION`]; a program asks once, at its start.
pub fn check_library() -> Result<(), OtherLibrary> {
    belongs(library_version())
}

fn belongs(library: Version) -> Result<(), OtherLibrary> {
    if library == VERSION { Ok(()) } else { Err(OtherLibrary(library)) }
}

/// From 0x00MMmmpp.
impl From<u32> for Version {
    fn from(number: u32) -> Version {
        let [_, major, minor, patch] = number.to_be_bytes();
        Version { major, minor, patch }
    }
}

impl fmt::Display for Version {
    fn fmt(&self, f: &mut fmt::Formatter<'_>) -> fmt::Result {
        write!(f, "{}.{}.{}", self.major, self.minor, self.patch)
    }
}

impl fmt::Display for OtherLibrary {
    fn fmt(&self, f: &mut fmt::Formatter<'_>) -> fmt::Result {
        write!(
            f,
            "the linked libkbuckets.a is version {}, and version {VERSION} is needed: build it again ('tools/library')",
            self.0
        )
    }
}

impl Error for OtherLibrary {}

#[cfg(test)]
mod tests {
    use super::*;

    #[test]
    fn the_linked_library_belongs() {
        assert_eq!(library_version(), VERSION);
        assert_eq!(check_library(), Ok(()));
        assert_eq!(VERSION.to_string(), env!("CARGO_PKG_VERSION"));
    }

    #[test]
    fn another_library_is_named() {
        for number in [0x00_00_01_ff, 0x00_01_02_00, 0x00_00_02_01] {
            let other = Version::from(number);
            let message = belongs(other).unwrap_err().to_string();
            assert!(message.contains(&format!("is version {other}, and version {VERSION} is needed")), "{message}");
        }
        assert_eq!(Version::from(0x00_01_02_03).to_string(), "1.2.3");
    }
}
