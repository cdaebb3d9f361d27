//! The functions and structs of `include/desk.h` are declared here with the same types: what the
//! library writes has no other check than that.

use std::fs;

fn read(path: &str) -> String {
    fs::read_to_string(path).expect(path)
}

/// A text without what stands between two marks, and with single spaces.
fn without(text: &str, start: &str, end: &str) -> String {
    let mut parts = text.split(start);
    let mut kept = parts.next().unwrap_or_default().to_string();
    for part in parts {
        kept.push(' ');
        kept += part.split_once(end).map_or("", |(_, behind)| behind);
    }
    kept
}

fn words(text: &str) -> String {
    text.split_whitespace().collect::<Vec<&str>>().join(" ")
}

fn header() -> String {
    without(&read("../../include/desk.h"), "/*", "*/")
}

/// The sources that declare what the header does, without comments and attributes but link names.
fn sources() -> String {
    let files = ["answer", "fraction", "sys"].map(|name| read(&format!("src/{name}.rs")));
    let lines = files.iter().flat_map(|file| file.lines());
    let code = lines.map(|line| line.split("//").next().unwrap_or_default().trim());
    let kept = code.filter(|line| !line.starts_with("#[") || line.starts_with("#[link_name"));
    words(
        &kept
            .collect::<Vec<&str>>()
            .join(" ")
            .replace("pub(crate) ", "")
            .replace("pub ", ""),
    )
    .replace("( ", "(") // a list of arguments that is longer than a line
    .replace(", )", ")")
}

/// What a type of C is here, pointers apart.
fn rust_type(name: &str) -> &str {
    match name {
        "uint8_t" => "u8",
        "uint32_t" => "u32",
        "int64_t" => "i64",
        "size_t" => "usize",
        "double" => "f64",
        "DeskPlace" => "Rows",
        "Desk" => "Desk",
        _ => name.strip_prefix("Desk").expect(name),
    }
}

/// `const Desk *desk` as `desk: &Desk`. What is lent with a length is a bare pointer.
fn argument(declared: &str, lent: bool) -> String {
    let changed = declared.strip_prefix("const ").unwrap_or(declared);
    let (name, pointed) = changed.rsplit_once(' ').expect(declared);
    let of = rust_type(name.trim());
    match (pointed.strip_prefix('*'), lent, changed == declared) {
        (None, _, _) => format!("{pointed}: {of}"),
        (Some(pointed), true, true) => format!("{pointed}: *mut {of}"),
        (Some(pointed), true, false) => format!("{pointed}: *const {of}"),
        (Some(pointed), false, true) => format!("{pointed}: &mut {of}"),
        (Some(pointed), false, false) => format!("{pointed}: &{of}"),
    }
}

fn arguments(declared: &str) -> String {
    let list: Vec<&str> = declared
        .split(", ")
        .filter(|word| *word != "void")
        .collect();
    let lent = |index: usize| {
        list.get(index + 1)
            .is_some_and(|next| ["size_t length", "size_t room"].contains(next))
    };
    let taken = (0..list.len()).map(|index| argument(list[index], lent(index)));
    taken.collect::<Vec<String>>().join(", ")
}

#[test]
fn every_function() {
    let (header, sources) = (header(), sources());
    let declared = header
        .lines()
        .filter_map(|line| line.strip_prefix("uint32_t desk_"));
    let mut count = 0;
    for (name, behind) in declared.filter_map(|line| line.split_once('(')) {
        let (declared, behind) = behind.split_once(')').expect(name);
        let checked = match behind {
            ";" => false,
            " DESK_CHECKED;" => true,
            _ => panic!("{behind} behind desk_{name}"),
        };
        assert_eq!(checked, !["empty", "version"].contains(&name), "{name}");
        let arguments = arguments(declared);
        let here = format!("fn desk_{name}({arguments}) -> u32;");
        let named = format!("#[link_name = \"desk_{name}\"] safe fn {name}({arguments}) -> u32;");
        assert!(
            sources.contains(&here) || sources.contains(&named),
            "{here}"
        );
        count += 1;
    }
    assert_eq!(count, 17, "the entry points, and the version");
}

/// What C warns about where its result is not looked at, Rust warns about too.
#[test]
fn every_checked_result() {
    let sources = words(&read("src/sys.rs"));
    let header = header();
    let checked = header
        .lines()
        .filter(|line| line.ends_with(" DESK_CHECKED;"));
    let names = checked.filter_map(|line| line.strip_prefix("uint32_t desk_")?.split_once('('));
    let mut count = 0;
    for (name, _) in names {
        let (before, _) = [format!("pub safe fn {name}("), format!("pub fn {name}(")]
            .iter()
            .find_map(|declared| sources.split_once(declared))
            .expect(name);
        let attribute = before.rsplit("#[").next().unwrap_or_default();
        assert!(attribute.starts_with("must_use = "), "{name}");
        assert!(attribute.trim().ends_with(']'), "{name}");
        count += 1;
    }
    assert_eq!(count, 15);
}

/// The fields of `uint32_t obligors[DESK_GRADES], grades; DeskPrice price;` as they are here, where
/// lengths have the names of the header's without `DESK_`.
fn fields(body: &str) -> Vec<String> {
    let mut fields = Vec::new();
    for declared in body
        .split(';')
        .map(str::trim)
        .filter(|declared| !declared.is_empty())
    {
        let (name, list) = declared.split_once(' ').expect(declared);
        let of = rust_type(name);
        for field in list.split(", ") {
            fields.push(match field.split_once("[DESK_") {
                Some((field, length)) => format!("{field}: [{of}; {length},"),
                None => format!("{field}: {of},"),
            });
        }
    }
    fields
}

#[test]
fn every_struct() {
    let (header, sources) = (words(&header()), sources());
    let mut count = 0;
    for declared in header.split("typedef struct ").skip(1) {
        let (name, behind) = declared.split_once(" { ").expect(declared);
        let (body, _) = behind.split_once('}').expect(declared);
        if ["DeskRow", "DeskBook", "DeskWrongCut"].contains(&name) {
            continue; // a table in memory and a cut are other things here
        }
        let here = format!(
            "struct {} {{ {} }}",
            rust_type(name),
            fields(body).join(" ")
        );
        assert!(sources.contains(&here), "{here}");
        count += 1;
    }
    assert_eq!(count, 8);
}
