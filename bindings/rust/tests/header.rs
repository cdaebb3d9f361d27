//! This crate and `include/desk.h` name the same refusals and limits.

use desk::Refusal;
use std::fs;

fn header() -> String {
    fs::read_to_string("../../include/desk.h").expect("the header is there")
}

/// `NoObligors` as the header has it, `DESK_REFUSED_NO_OBLIGORS`.
fn constant(refusal: Refusal) -> String {
    let mut name = "DESK_REFUSED".to_string();
    for letter in format!("{refusal:?}").chars() {
        if letter.is_uppercase() {
            name.push('_');
        }
        name.push(letter.to_ascii_uppercase());
    }
    name
}

#[test]
fn refusals_are_those_of_the_header() {
    let expected: Vec<String> = Refusal::ALL
        .iter()
        .map(|&refusal| {
            let (number, meaning) = (refusal.number(), refusal.meaning());
            format!("X({}, {number}, \"{meaning}\")", constant(refusal))
        })
        .collect();
    let header = header();
    let found: Vec<&str> = header
        .lines()
        .filter(|line| line.contains("X(DESK_REFUSED_"))
        .map(|line| line.trim_end_matches('\\').trim())
        .collect();
    assert_eq!(found, expected);
}

#[test]
fn numbers_are_those_of_documents_01_and_02() {
    let numbers: Vec<u32> = Refusal::ALL
        .iter()
        .map(|refusal| refusal.number())
        .collect();
    let inputs = (1..=4).chain(6..=13); // R-2 gives 31 to 33 for 5
    let expected = inputs.chain(21..=25).chain(31..=33).chain(34..=38); // of
    assert_eq!(numbers, expected.collect::<Vec<u32>>());
}

#[test]
fn limits_are_those_of_the_header() {
    let limits = [
        ("DESK_GRADES", desk::GRADES.to_string()),
        ("DESK_RATERS", desk::RATERS.to_string()),
        ("DESK_MAX_OBLIGORS", desk::MAX_OBLIGORS.to_string()),
        (
            "DESK_MAX_OBLIGORS_ON_SHARES",
            desk::MAX_OBLIGORS_ON_SHARES.to_string(),
        ),
        ("DESK_MAX_PRICE", desk::MAX_PRICE.to_string()),
        (
            "DESK_MAX_PRICE_ON_SHARES", // unsigned, as int cannot hold it
            format!("{}U", desk::MAX_PRICE_ON_SHARES),
        ),
        ("DESK_POOL_NUMBERS", desk::POOL_NUMBERS.to_string()),
        ("DESK_BOOK_BYTES", desk::BOOK_BYTES.to_string()),
    ];
    for (name, limit) in limits {
        let line = format!("#define {name} {limit} ");
        assert!(header().contains(&line), "{line}");
    }
}
