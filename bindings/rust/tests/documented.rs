//! Every public type, function, method and constant that a caller has to use rightly has an example, and
//! pages are named so that who installed the crate finds them.

use std::fs;

/// The public items of a source, each with the lines of documentation and attributes above it.
fn public_items(source: &str) -> Vec<(String, String)> {
    let mut items = Vec::new();
    let mut above = String::new();
    for line in source.lines().map(str::trim) {
        if line.starts_with("///") || line.starts_with("#[") {
            above += &line.replace(' ', "");
        } else {
            if is_public(line) {
                items.push((line.to_string(), above.clone()));
            }
            above.clear();
        }
    }
    items
}

fn is_public(line: &str) -> bool {
    let kinds = ["fn ", "const fn ", "safe fn ", "struct ", "enum "];
    let item = line.strip_prefix("pub ");
    item.is_some_and(|item| kinds.iter().any(|kind| item.starts_with(kind)))
}

#[test]
fn every_public_item_has_an_example() {
    let mut count = 0;
    for file in fs::read_dir("src").expect("sources") {
        let path = file.expect("a source").path();
        let source = fs::read_to_string(&path).expect("text");
        for (item, above) in public_items(&source) {
            assert!(
                above.contains("///```"),
                "{}: {item} has no example",
                path.display()
            );
            count += 1;
        }
    }
    assert!(count > 50, "only {count} public items were found");
}

/// A page is named by where it is installed as well as by where it is in the sources.
#[test]
fn every_page_is_named_by_its_places() {
    let mut count = 0;
    for file in fs::read_dir("src").expect("sources") {
        let path = file.expect("a source").path();
        let source = fs::read_to_string(&path).expect("text");
        let text = source.replace("///", " ").replace("//!", " ");
        let text = text.split_whitespace().collect::<Vec<&str>>().join(" ");
        assert!(!text.contains("ocument 01"), "{}", path.display());
        for (page, behind) in text
            .match_indices(".md")
            .map(|(at, _)| text.split_at(at + 3))
        {
            let name = page.rsplit('`').next().unwrap_or_default();
            assert!(
                fs::exists(format!("../../docs/{name}")).expect(name),
                "{name}"
            );
            let places = "` (in `share/doc/desk` where installed, `docs` in the sources)";
            assert!(behind.starts_with(places), "{}: {name}", path.display());
            count += 1;
        }
    }
    assert_eq!(count, 5);
}
