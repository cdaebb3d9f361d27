//! Finds the library's archive, sees that it is of this crate's version, and has it linked. The
//! tests of the repository take in this file as a module and call what is public to the crate.

use std::env;
use std::fs;
use std::iter::once_with;
use std::path::{Path, PathBuf, absolute};
use std::process::Command;

/// What the library is called where it is installed, and where `tools/staticlib` writes it.
const INSTALLED: &str = "desk";
const BUILT: &str = "desk_c";
/// The library has a function of this name, with its version behind.
const MARKER: &[u8] = b"desk_library_is_version_";

fn main() {
    println!("cargo::rerun-if-changed=build.rs");
    for variable in [
        "DESK_LIB_DIR",
        "PKG_CONFIG",
        "PKG_CONFIG_PATH",
        "PKG_CONFIG_LIBDIR",
    ] {
        println!("cargo::rerun-if-env-changed={variable}");
    }
    match archive() {
        Ok(archive) => archive.link(),
        Err(words) => println!("cargo::error={words}"),
    }
}

/// The archive to link, or in words why there is none.
fn archive() -> Result<Archive, String> {
    supported(|part| variable(&format!("CARGO_CFG_TARGET_{part}")))?;
    let here = env::var_os("CARGO_MANIFEST_DIR").unwrap_or_default();
    let here = fs::canonicalize(&here).unwrap_or_else(|_| here.into()); // it may be a link
    let named = env::var_os("DESK_LIB_DIR").filter(|named| !named.is_empty());
    let archive = match named {
        Some(named) => named_archive(Path::new(&named))?,
        None => found_archive(&here, pkg_config)?,
    };
    archive.check_version(&variable("CARGO_PKG_VERSION_MAJOR"))?;
    Ok(archive)
}

/// What cargo tells a build script.
fn variable(name: &str) -> String {
    env::var(name).unwrap_or_default()
}

/// The library is machine code for one sort of machine.
pub(crate) fn supported(target: impl Fn(&str) -> String) -> Result<(), String> {
    let found = ["ARCH", "OS", "POINTER_WIDTH"].map(target);
    if found == ["x86_64", "linux", "64"] {
        return Ok(());
    }
    let [arch, os, width] = found;
    Err(format!(
        "the library desk is made for x86_64 linux with 64-bit pointers alone, and this build is for \
         {arch} {os} with {width}-bit pointers"
    ))
}

#[derive(Clone, Debug, PartialEq)]
pub(crate) struct Archive {
    directory: PathBuf,
    name: &'static str,
}

impl Archive {
    fn new(directory: &Path, name: &'static str) -> Archive {
        let directory = absolute(directory).unwrap_or_else(|_| directory.to_path_buf());
        Archive { directory, name }
    }

    pub(crate) fn path(&self) -> PathBuf {
        self.directory.join(format!("lib{}.a", self.name))
    }

    fn is_there(&self) -> bool {
        self.path().is_file()
    }

    fn link(&self) {
        println!("cargo::rerun-if-changed={}", self.path().display());
        println!(
            "cargo::rustc-link-search=native={}",
            self.directory.display()
        );
        println!("cargo::rustc-link-lib=static={}", self.name);
    }

    /// Linking would notice another version too, but by the name of a function.
    fn check_version(&self, expected: &str) -> Result<(), String> {
        let path = self.path();
        let path = path.display();
        let bytes = fs::read(self.path()).map_err(|error| format!("{path}: {error}"))?;
        let found = match version_in(&bytes) {
            Some(version) if version == expected => return Ok(()),
            Some(version) => format!("version {version}"),
            None => "of no version that can be read".to_string(),
        };
        Err(format!(
            "the crate desk is version {expected} and the library {path} is {found}; install both \
             from the same sources"
        ))
    }
}

/// The digits behind the marker in the bytes of an archive.
fn version_in(archive: &[u8]) -> Option<String> {
    let found = archive.windows(MARKER.len()).position(|w| w == MARKER)?;
    let behind = archive[found + MARKER.len()..].iter();
    let digits = behind.take_while(|byte| byte.is_ascii_digit());
    Some(digits.map(|&digit| char::from(digit)).collect())
}

/// The archive in the directory that `DESK_LIB_DIR` names, which is then looked for nowhere else.
pub(crate) fn named_archive(directory: &Path) -> Result<Archive, String> {
    let mut archives = [INSTALLED, BUILT]
        .map(|name| Archive::new(directory, name))
        .into_iter();
    archives
        .find(Archive::is_there)
        .ok_or_else(|| not_where_named(directory))
}

/// Cargo runs a build script in its crate's folder.
fn not_where_named(directory: &Path) -> String {
    let counted = if directory.is_absolute() {
        ""
    } else {
        " (a relative path counts from the crate's folder)"
    };
    let directory = absolute(directory).unwrap_or_else(|_| directory.to_path_buf());
    let directory = directory.display();
    format!("DESK_LIB_DIR names {directory}{counted}, where neither libdesk.a nor libdesk_c.a is")
}

/// The archive that was installed with this crate; else that of the repository which this crate is
/// a part of; else the one that pkg-config knows.
pub(crate) fn found_archive(
    here: &Path,
    pkg_config: impl FnOnce() -> Option<PathBuf>,
) -> Result<Archive, String> {
    let places = [installed(here), Some(repository(here))];
    let known = || Some(Archive::new(&pkg_config()?, INSTALLED));
    let mut archives = places.into_iter().chain(once_with(known)).flatten();
    archives
        .find(Archive::is_there)
        .ok_or_else(|| nowhere(here))
}

/// Beside a crate in `PREFIX/share/desk/rust`; of a crate elsewhere three levels up mean nothing.
fn installed(here: &Path) -> Option<Archive> {
    let prefix = here.ancestors().nth(3)?;
    here.ends_with("share/desk/rust")
        .then(|| Archive::new(&prefix.join("lib"), INSTALLED))
}

/// This crate is `bindings/rust` of the repository.
fn repository(here: &Path) -> Archive {
    let top = here.ancestors().nth(2).unwrap_or(here);
    Archive::new(&top.join("target/staticlib"), BUILT)
}

fn pkg_config() -> Option<PathBuf> {
    let program = env::var_os("PKG_CONFIG").unwrap_or_else(|| "pkg-config".into());
    let mut command = Command::new(program);
    let answer = command.args(["--variable=libdir", "desk"]).output().ok()?;
    let directory = String::from_utf8(answer.stdout).ok()?;
    let directory = directory.trim();
    (answer.status.success() && !directory.is_empty()).then(|| directory.into())
}

fn nowhere(here: &Path) -> String {
    let places = installed(here).into_iter().chain([repository(here)]);
    let places = places.map(|archive| archive.path().display().to_string());
    let places = places.collect::<Vec<String>>().join(", nor at ");
    format!(
        "the library desk was not found: DESK_LIB_DIR is unset or empty, it is not at {places}, and \
         `pkg-config --variable=libdir desk` names no directory that holds libdesk.a; install it with \
         `./install PREFIX`, write it with `tools/staticlib`, or name the directory that holds it, \
         by an absolute path, in DESK_LIB_DIR"
    )
}
