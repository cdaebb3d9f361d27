//! The version of the crate, and whether the library has the same.

/// The version of this crate, and of the library that it is made for: a whole number, one more with
/// each change that a caller may have to follow. Both are of the same sources.
///
/// ```
/// assert_eq!(desk::sys::version(), desk::VERSION);
/// ```
pub const VERSION: u32 = match u32::from_str_radix(env!("CARGO_PKG_VERSION_MAJOR"), 10) {
    Ok(version) => version,
    Err(_) => panic!("a version is a whole number"),
};

/// Notices a library of another version.
pub(crate) fn check(library: u32) -> Result<(), String> {
    if library == VERSION {
        return Ok(());
    }
    Err(format!(
        "the crate desk is version {VERSION} and the library libdesk.a that it was linked with is \
         version {library}; install both from the same sources"
    ))
}

#[cfg(test)]
mod tests {
    use super::{VERSION, check};

    #[test]
    fn the_same_version_is_accepted() {
        assert_eq!(check(VERSION), Ok(()));
    }

    #[test]
    fn another_version_is_said_in_words() {
        for other in [0, VERSION - 1, VERSION + 1, u32::MAX] {
            let expected = format!(
                "the crate desk is version {VERSION} and the library libdesk.a that it was linked \
                 with is version {other}; install both from the same sources"
            );
            assert_eq!(check(other), Err(expected));
        }
    }
}
