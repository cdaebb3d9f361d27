//! The crate as a stranger has it who installed it: a copy outside the repository with the archive
//! beside it, a program that depends on it, and what is said where the library is missing or of
//! another version.

mod folder;

use desk::VERSION;
use folder::Folder;
use std::fs;
use std::os::unix::fs::symlink;
use std::path::{Path, PathBuf};
use std::process::{Command, Output};

const CRATE: &str = "share/desk/rust";
const ARCHIVE: &str = "lib/libdesk.a";
const MANIFEST: &str = r#"
[package]
name = "stranger"
edition = "2021"
[dependencies]
desk = { path = "../share/desk/rust" }
[workspace]
"#;
const PROGRAM: &str = r#"
use desk::{Desk, Place, Refusal, Table};

fn main() -> Result<(), Refusal> {
    let mut desk = Desk::empty();
    desk.load_table(Place::First, &Table::by_survivors().grade(2, 0, 0).grade(1, 3, 750_000))?;
    println!("{}", desk.measures(Place::First)?.gini);
    Ok(())
}
"#;

/// A folder with what is installed for Rust, this archive, and the stranger's program.
fn installed(name: &str, archive: Option<&[u8]>) -> Folder {
    let folder = Folder::new(name);
    for part in ["", "src", "examples"] {
        for file in fs::read_dir(Path::new("../rust").join(part)).expect("sources") {
            let path = file.expect("a source").path();
            let name = path.file_name().expect("a name").to_string_lossy();
            if path.is_file() && name != "Cargo.lock" {
                let bytes = fs::read(&path).expect("a source");
                folder.write(&format!("{CRATE}/{part}/{name}"), bytes);
            }
        }
    }
    if let Some(archive) = archive {
        folder.write(ARCHIVE, archive);
    }
    folder.write("stranger/Cargo.toml", MANIFEST);
    folder.write("stranger/src/main.rs", PROGRAM);
    folder
}

/// Has cargo run a program in a part of a folder, which knows of no other archive.
fn run(folder: &Folder, part: &str, words: &[&str], lib_dir: Option<&str>) -> Output {
    let mut cargo = Command::new(env!("CARGO"));
    cargo.args(["run", "--quiet", "--offline"]).args(words);
    cargo.current_dir(folder.path(part));
    cargo
        .env_remove("DESK_LIB_DIR")
        .env_remove("CARGO_TARGET_DIR");
    cargo.env("PKG_CONFIG", "no-pkg-config");
    cargo.envs(lib_dir.map(|directory| ("DESK_LIB_DIR", directory)));
    cargo.output().expect("cargo runs")
}

fn prints(output: &Output, text: &str) {
    let errors = String::from_utf8_lossy(&output.stderr);
    assert!(output.status.success(), "{errors}");
    assert_eq!(String::from_utf8_lossy(&output.stdout), text);
    assert_eq!(errors, "");
}

fn refused(output: &Output, words: &[&str]) {
    let said = String::from_utf8_lossy(&output.stderr);
    assert!(!output.status.success());
    for words in words {
        assert!(said.contains(words), "{words} is not in:\n{said}");
    }
}

/// The archive that these tests are linked with.
fn archive() -> Vec<u8> {
    let named = std::env::var_os("DESK_LIB_DIR").filter(|named| !named.is_empty());
    let directory = named.map_or("../../target/staticlib".into(), PathBuf::from);
    fs::read(directory.join("libdesk_c.a")).expect("the archive")
}

/// The archive with another version in the name of the function that has it, and that version.
fn another_archive() -> (Vec<u8>, u32) {
    let other = if VERSION % 10 == 9 {
        VERSION - 1
    } else {
        VERSION + 1
    }; // as long
    let marker = |version: u32| format!("desk_library_is_version_{version}").into_bytes();
    let (old, new) = (marker(VERSION), marker(other));
    let mut bytes = archive();
    while let Some(at) = bytes.windows(old.len()).position(|window| window == old) {
        bytes[at..at + old.len()].copy_from_slice(&new);
    }
    (bytes, other)
}

#[test]
fn a_program_and_the_example_run() {
    let folder = installed("runs", Some(&archive()));
    prints(&run(&folder, "stranger", &[], None), "0.666667 (6/9)\n");
    let shown = "Each scale is better at some prices.\n\
                 At 3 for a missed default and 2 for a survivor turned away the first costs more.\n\
                 At 1 for a missed default and 3 for a survivor turned away the second costs more.\n";
    prints(&run(&folder, CRATE, &["--example", "memory"], None), shown);
}

/// A crate below a workspace, as vendored, becomes a part of it.
#[test]
fn a_workspace_above_takes_it_in() {
    let folder = installed("workspace", Some(&archive()));
    folder.write("Cargo.toml", "[workspace]\nmembers = [\"app\"]\n");
    folder.write("app/Cargo.toml", MANIFEST.replace("[workspace]\n", ""));
    folder.write("app/src/main.rs", PROGRAM);
    for part in ["app", ""] {
        prints(&run(&folder, part, &[], None), "0.666667 (6/9)\n");
    }
}

#[test]
fn a_link_to_the_crate_will_do() {
    let folder = installed("link", Some(&archive()));
    folder.write(
        "project/Cargo.toml",
        MANIFEST.replace("../share/desk/rust", "desk"),
    );
    folder.write("project/src/main.rs", PROGRAM);
    symlink(folder.path(CRATE), folder.path("project/desk")).expect("a new link");
    prints(&run(&folder, "project", &[], None), "0.666667 (6/9)\n");
}

#[test]
fn a_missing_library_is_said_in_words() {
    let folder = installed("missing", None);
    let path = |name: &str| folder.path(name).display().to_string();
    let (installed, built) = (path(ARCHIVE), path("share/target/staticlib/libdesk_c.a"));
    let words = [
        "the library desk was not found",
        &format!(
            "it is not at {installed}, nor at {built}, and `pkg-config --variable=libdir desk`"
        ),
        "or name the directory that holds it, by an absolute path, in DESK_LIB_DIR",
    ];
    for lib_dir in [None, Some("")] {
        refused(&run(&folder, "stranger", &[], lib_dir), &words);
    }
    let words = ["DESK_LIB_DIR names /nowhere, where neither libdesk.a nor libdesk_c.a is"];
    refused(&run(&folder, "stranger", &[], Some("/nowhere")), &words);
    let words = format!(
        "DESK_LIB_DIR names {} (a relative path counts from the crate's folder), where neither",
        path(&format!("{CRATE}/nowhere"))
    );
    refused(&run(&folder, "stranger", &[], Some("nowhere")), &[&words]);
}

#[test]
fn a_directory_may_be_named() {
    let folder = installed("named", None);
    folder.write("elsewhere/libdesk_c.a", archive());
    let absolute = folder.path("elsewhere").display().to_string();
    for lib_dir in [absolute.as_str(), "../../../elsewhere"] {
        let output = run(&folder, "stranger", &[], Some(lib_dir));
        prints(&output, "0.666667 (6/9)\n");
    }
}

#[test]
fn a_library_of_another_version_is_said_in_words() {
    let (archive, other) = another_archive();
    let folder = installed("version", Some(&archive));
    let library = folder.path(ARCHIVE);
    let differs = |is: &str| {
        let library = library.display();
        format!(
            "the crate desk is version {VERSION} and the library {library} is {is}; install both from the same sources"
        )
    };
    refused(
        &run(&folder, "stranger", &[], None),
        &[&differs(&format!("version {other}"))],
    );
    folder.write(ARCHIVE, "!<arch>\n");
    refused(
        &run(&folder, "stranger", &[], None),
        &[&differs("of no version that can be read")],
    );
}

/// Where no build script sees to it, the linker misses the function with the version in its name.
#[test]
fn a_library_of_another_version_does_not_link() {
    let folder = installed("linking", Some(&another_archive().0));
    let directory = folder.path("lib");
    let script = "//! Links whatever is there.
fn main() {
    println!(\"cargo::rustc-link-lib=static=desk\");
    println!(\"cargo::rustc-link-search=native=DIRECTORY\");
}";
    let script = script.replace("DIRECTORY", &directory.to_string_lossy());
    folder.write(&format!("{CRATE}/build.rs"), script);
    let words = [
        "linking with",
        &format!("desk_library_is_version_{VERSION}"),
    ];
    refused(&run(&folder, "stranger", &[], None), &words);
}
