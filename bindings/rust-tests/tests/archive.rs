//! Where the crate's build script looks for the archive, and for which machines.

mod folder;

use folder::Folder;
use std::path::Path;

#[allow(
    dead_code,
    reason = "a program of its own, of which the tests call parts"
)]
#[path = "../../rust/build.rs"]
mod build;

fn supported(arch: &str, os: &str, width: &str) -> Result<(), String> {
    let parts = [("ARCH", arch), ("OS", os), ("POINTER_WIDTH", width)];
    let value = |name: &str| parts.into_iter().find(|part| part.0 == name);
    build::supported(|name| value(name).map_or(String::new(), |part| part.1.to_string()))
}

#[test]
fn another_machine_is_refused() {
    assert_eq!(supported("x86_64", "linux", "64"), Ok(()));
    let others = [
        ("aarch64", "linux", "64"),
        ("x86_64", "windows", "64"),
        ("x86_64", "macos", "64"),
        ("x86_64", "linux", "32"),
    ];
    for (arch, os, width) in others {
        let words = supported(arch, os, width).expect_err("another machine");
        let machine = format!("this build is for {arch} {os} with {width}-bit pointers");
        assert!(words.ends_with(&machine), "{words}");
    }
}

#[test]
fn of_an_installed_crate() {
    let folder = Folder::new("order");
    let known = || Some(folder.path("known"));
    let here = folder.path("share/desk/rust");
    let find = || build::found_archive(&here, known).map(|archive| archive.path());
    assert!(find().is_err());
    let rising = [
        "known/libdesk.a",
        "share/target/staticlib/libdesk_c.a",
        "lib/libdesk.a",
    ];
    for name in rising {
        folder.write(name, "");
        assert_eq!(find(), Ok(folder.path(name)));
    }
}

#[test]
fn of_the_repository() {
    let folder = Folder::new("repository");
    let here = folder.path("clone/bindings/rust");
    let find = || build::found_archive(&here, || None).map(|archive| archive.path());
    // three levels above is no prefix
    folder.write("lib/libdesk.a", "");
    assert!(find().is_err());
    let built = "clone/target/staticlib/libdesk_c.a";
    folder.write(built, "");
    assert_eq!(find(), Ok(folder.path(built)));
}

#[test]
fn in_the_directory_that_is_named() {
    let folder = Folder::new("named");
    let find = |name: &str| {
        let named = folder.path(name);
        build::named_archive(&named).map(|archive| archive.path())
    };
    for name in ["here/libdesk_c.a", "here/libdesk.a"] {
        folder.write(name, "");
        assert_eq!(find("here"), Ok(folder.path(name)));
    }
    let words = find("elsewhere").expect_err("nothing is there");
    let elsewhere = folder.path("elsewhere");
    assert!(words.contains(&format!("DESK_LIB_DIR names {}", elsewhere.display())));
    assert!(build::named_archive(Path::new("")).is_err());
}
