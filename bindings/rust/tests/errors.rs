//! What a method says it refuses is named rightly, and is what `include/desk.h` says, in its order.

use desk::Refusal;
use std::fs;

fn read(path: &str) -> String {
    fs::read_to_string(path).expect(path)
}

/// The methods of a source that refuse, each with its section on errors in one line.
fn sections(source: &str) -> Vec<(String, String)> {
    let mut sections = Vec::new();
    for part in source.split("/// # Errors").skip(1) {
        let lines = part.lines().map(str::trim).skip(1);
        let above = lines.clone().take_while(|line| line.starts_with("///"));
        let said = above.map(|line| line[3..].trim());
        let said: Vec<&str> = said.take_while(|line| !line.starts_with('#')).collect();
        let mut methods = lines.filter_map(|line| line.strip_prefix("pub fn "));
        let method = methods.next().and_then(|line| line.split('(').next());
        sections.push((method.expect("a method").to_string(), said.join(" ")));
    }
    sections
}

/// Those of several sources.
fn all_sections<const N: usize>(names: [&str; N]) -> Vec<(String, String)> {
    names
        .map(|name| sections(&read(&format!("src/{name}.rs"))))
        .concat()
}

/// The numbers in a text, in their order.
fn numbers(text: &str) -> Vec<u32> {
    let words = text.split(|letter: char| !letter.is_ascii_digit());
    words.filter_map(|word| word.parse().ok()).collect()
}

/// The refusals that a header's comment on a function lists, without what it says in brackets.
fn refused_in_c(header: &str, function: &str) -> Vec<u32> {
    let (above, _) = header
        .split_once(&format!("uint32_t desk_{function}("))
        .expect(function);
    let (_, list) = above.rsplit_once("Refuses: ").expect(function);
    let (list, _) = list.split_once("*/").expect(function);
    let outside = |part: &str| part.rsplit(')').next().unwrap_or_default().to_string();
    numbers(&list.split('(').map(outside).collect::<String>())
}

#[test]
fn every_number_has_its_name() {
    let mut count = 0;
    for (method, said) in all_sections(["desk", "shortlist", "table"]) {
        let mut rest = said.clone();
        for refusal in Refusal::ALL {
            let named = format!("{} ([`Refusal::{refusal:?}`])", refusal.number());
            // not the end of a longer number
            rest = format!(" {rest}").replace(&format!(" {named}"), "");
        }
        assert_eq!(numbers(&rest), [0; 0], "{method}: {said}");
        assert!(!rest.contains("Refusal::"), "{method}: {said}");
        count += 1;
    }
    assert_eq!(count, 20);
}

#[test]
fn the_order_is_that_of_the_header() {
    let header = read("../../include/desk.h");
    let mut count = 0;
    for (method, said) in all_sections(["desk", "shortlist"]) {
        let function = match method.as_str() {
            "pool" | "shortlist" | "write" => continue, // made of others
            "load_table" => "load_rows",
            "pool_into" => "pool",
            "shortlist_into" => "shortlist",
            "write_into" => "write",
            name => name,
        };
        let mut expected = refused_in_c(&header, function);
        expected.retain(|&number| number != Refusal::Place.number()); // a Place is 1 or 2
        if function == "load_rows" {
            expected.retain(|&number| number != Refusal::Kind.number()); // and so is what is counted
        }
        assert_eq!(numbers(&said), expected, "{method}");
        count += 1;
    }
    assert_eq!(count, 16);
}

/// A book of tables is refused as the rows of one, with the number of raters before.
#[test]
fn the_order_of_a_book_is_that_of_its_rows() {
    let rows = refused_in_c(&read("../../include/desk.h"), "load_rows");
    let places = [Refusal::Place, Refusal::Loaded, Refusal::Kind].map(Refusal::number);
    let of_a_table = rows.into_iter().filter(|number| !places.contains(number));
    let expected: Vec<u32> = [Refusal::Raters.number()]
        .into_iter()
        .chain(of_a_table)
        .collect();
    let [(_, said)] = &sections(&read("src/table.rs"))[..] else {
        panic!("another method of a table refuses");
    };
    assert_eq!(numbers(said), expected);
}

#[test]
fn the_order_of_sys_is_that_of_the_header() {
    let (header, source) = (read("../../include/desk.h"), read("src/sys.rs"));
    let mut count = 0;
    for part in source.split("Refuses").skip(1) {
        let (said, behind) = part.split_once("```").expect("an example");
        let lines = behind.lines().map(str::trim);
        let mut names = lines.filter_map(|line| {
            line.strip_prefix("pub safe fn ")
                .or(line.strip_prefix("pub fn "))
        });
        let name = names.next().and_then(|line| line.split('(').next());
        let name = name.expect("a function");
        assert_eq!(numbers(said), refused_in_c(&header, name), "{name}");
        count += 1;
    }
    assert_eq!(count, 15);
}
