//! What a tally says of the cases of a scene.

// Each test takes from here what it needs.
#![allow(dead_code)]

use std::fmt::Display;

/// The cells behind this start of a line.
pub fn cells<'a>(tally: &'a str, start: &str) -> Vec<&'a str> {
    let line = tally.lines().find_map(|line| line.strip_prefix(start));
    line.map_or(vec![], |line| {
        line.trim_end_matches(" |").split(" | ").collect()
    })
}

/// How often such a table was loaded, each time with this number; 0 if it loads.
pub fn loads_of(tally: &str, case: impl Display, number: u32) -> usize {
    let cells = cells(tally, &format!("| {case} | "));
    let answer = match number {
        0 => "ok".to_string(),
        number => number.to_string(),
    };
    let times = cells[0].parse().unwrap_or(0);
    assert_eq!(cells[1], format!("{answer}: {times}"), "{case}");
    times
}
