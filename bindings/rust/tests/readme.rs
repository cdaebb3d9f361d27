//! README.md shows an example of this crate, whole.

use std::fs;

fn read(path: &str) -> String {
    fs::read_to_string(path).expect(path)
}

/// The part of README.md that is about this crate.
fn section() -> String {
    let page = read("../../README.md");
    let start = page.find("## From Rust\n").expect("a section");
    let section = &page[start..];
    let end = section[2..].find("\n## ").expect("another section");
    section[..end].to_string()
}

#[test]
fn the_page_shows_the_file() {
    let program = read("examples/memory.rs");
    let indented = |line: &str| match line {
        "" => "\n".to_string(),
        _ => format!("    {line}\n"),
    };
    let block: String = program.lines().map(indented).collect();
    assert!(section().contains(&format!("\n\n{block}\n")));
    assert!(program.lines().count() < 40);
}

#[test]
fn the_page_says_the_version_of_rust() {
    let manifest = read("Cargo.toml");
    let line = manifest
        .lines()
        .find(|line| line.starts_with("rust-version = "));
    let version = line
        .and_then(|line| line.split('"').nth(1))
        .expect("a version");
    assert!(section().contains(&format!("Rust {version} ")));
}
