//! The comparison: runs a replay program on generated scripts and holds its lines against this
//! version's answers. Exact, save the price pairs and the floats: those are checked by their
//! meaning, with whole numbers.

use crate::answer::{verdict_prices, Answer};
use crate::cutoff::{cheapest_cost, Price, Verdict};
use crate::desk::Desk;
use crate::generate::Script;
use crate::random::Random;
use crate::script::Call;
use crate::shares::{cheapest_cost_on_shares, MAX_PRICE_ON_SHARES};
use crate::spread::lawful;
use crate::table::{Table, MILLION};
use std::io::{self, Write};
use std::process::{Command, Output, Stdio};

/// A line that is not lawful.
#[derive(Clone, Debug, PartialEq, Eq)]
pub struct Difference {
    /// Counted from 1, as the lines are.
    pub index: usize,
    /// The call, or `end of the script`.
    pub call: String,
    /// The desk that the call found.
    pub desk: String,
    pub expected: String,
    pub found: String,
}

/// The lines that this version prints for a script.
pub fn answers(calls: &[Call], breaks_off: bool) -> String {
    let mut desk = Desk::fresh();
    let mut text = String::new();
    for call in calls {
        text += &desk.call(call).line();
        text.push('\n');
    }
    if breaks_off {
        text += "end\n";
    }
    text
}

/// Holds the output of a replay program against the script.
pub fn judge(script: &Script, output: &str) -> Result<(), Box<Difference>> {
    let mut desk = Desk::fresh();
    let mut lines = output.split_inclusive('\n');
    for (index, call) in script.calls.iter().enumerate() {
        let line = lines.next().unwrap_or("");
        let before = desk.clone();
        let answer = desk.call(call);
        if !line_is_lawful(&before, call, &answer, line) {
            return Err(Box::new(Difference {
                index: index + 1,
                call: call.to_string(),
                desk: describe(&before),
                expected: answer.line(),
                found: line.to_string(),
            }));
        }
    }
    judge_end(script, &lines.collect::<String>())
}

/// What stands behind the last call's line.
fn judge_end(script: &Script, rest: &str) -> Result<(), Box<Difference>> {
    let expected = match script.tail.is_empty() {
        true => "",
        false => "end\n",
    };
    if rest == expected {
        return Ok(());
    }
    Err(Box::new(Difference {
        index: script.calls.len() + 1,
        call: format!("end of the script, tail {:?}", script.tail),
        desk: String::new(),
        expected: expected.to_string(),
        found: rest.chars().take(200).collect(),
    }))
}

fn describe(desk: &Desk) -> String {
    let place = |place: u32| match desk.table(place) {
        Ok(table) => {
            let row = |grade: &crate::table::Grade| {
                format!(
                    "({}, {}, {})",
                    grade.obligors, grade.defaults, grade.announced
                )
            };
            table.grades.iter().map(row).collect()
        }
        Err(_) => "empty".to_string(),
    };
    format!("place 1 {}\n  place 2 {}", place(1), place(2))
}

/// Whether the line, with its line feed, is a lawful answer to the call.
fn line_is_lawful(desk: &Desk, call: &Call, answer: &Answer, line: &str) -> bool {
    let Some(line) = line.strip_suffix('\n') else {
        return false;
    };
    match (answer, call) {
        (Answer::Compare(Ok(verdict)), _) => verdict_is_lawful(desk, answer, verdict, dearer, line),
        (Answer::CompareShares(Ok(verdict)), _) => {
            verdict_is_lawful(desk, answer, verdict, dearer_on_shares, line)
        }
        (Answer::Spread(Ok(_)), Call::Spread { place }) => spread_is_lawful(desk, *place, line),
        _ => line == answer.line(),
    }
}

/// The numbers behind these words, each written as decimals are.
fn numbers_behind(line: &str, words: &str) -> Option<Vec<u64>> {
    let number = |word: &str| word.parse().ok().filter(|n: &u64| n.to_string() == word);
    match line.strip_prefix(words)? {
        "" => Some(vec![]),
        rest => rest.strip_prefix(' ')?.split(' ').map(number).collect(),
    }
}

fn spread_is_lawful(desk: &Desk, place: u32, line: &str) -> bool {
    let table = desk.table(place).expect("spread was accepted");
    match numbers_behind(line, "spread ok").as_deref() {
        Some(&[total, residual]) => lawful(table, total, residual),
        _ => false,
    }
}

/// Whether one table costs more than the other at these prices, which are lawful.
pub type Dearer = fn(&Table, &Table, &Price) -> bool;

/// The verdict must be the same; its price pairs may be others, if they show what they have to.
fn verdict_is_lawful(
    desk: &Desk,
    answer: &Answer,
    verdict: &Verdict,
    dearer: Dearer,
    line: &str,
) -> bool {
    let own = answer.line();
    let words: Vec<&str> = own.split(' ').take(3).collect();
    let Some(numbers) = numbers_behind(line, &words.join(" ")) else {
        return false;
    };
    if numbers.len() != 2 * verdict_prices(verdict).len() {
        return false;
    }
    let price = |pair: &[u64]| Price {
        missed_default: pair[0],
        lost_survivor: pair[1],
    };
    let prices: Vec<Price> = numbers.chunks(2).map(price).collect();
    let first = desk.table(1).expect("the comparison was accepted");
    let second = desk.table(2).expect("the comparison was accepted");
    match verdict {
        Verdict::Equal => true,
        Verdict::First(_) => dearer(second, first, &prices[0]),
        Verdict::Second(_) => dearer(first, second, &prices[0]),
        Verdict::Crossing(..) => {
            dearer(first, second, &prices[0]) && dearer(second, first, &prices[1])
        }
    }
}

fn up_to(highest: u64, price: &Price) -> bool {
    price.missed_default <= highest && price.lost_survivor <= highest
}

/// In the first comparison.
pub fn dearer(one: &Table, other: &Table, price: &Price) -> bool {
    up_to(MILLION, price) && cheapest_cost(one, price) > cheapest_cost(other, price)
}

/// In the second comparison, request R-6 of document 02.
pub fn dearer_on_shares(one: &Table, other: &Table, price: &Price) -> bool {
    up_to(MAX_PRICE_ON_SHARES, price)
        && cheapest_cost_on_shares(one, price) > cheapest_cost_on_shares(other, price)
}

/// Runs a replay program on a script.
fn run_replay(program: &str, script: Vec<u8>) -> io::Result<Output> {
    let mut child = Command::new(program)
        .stdin(Stdio::piped())
        .stdout(Stdio::piped())
        .spawn()?;
    let mut input = child.stdin.take().expect("it was piped");
    // The program may stop reading at a broken tail; what it then leaves unread is no error.
    let writer = std::thread::spawn(move || drop(input.write_all(&script)));
    let output = child.wait_with_output();
    writer.join().expect("the writer does not panic");
    output
}

/// One script: seed, number of calls, and what went wrong with it.
pub struct Failure {
    pub seed: u64,
    pub calls: usize,
    pub reason: String,
}

/// A run of so many calls has a script about events, besides.
const LARGE_RUN: usize = 10_000;
const ABOUT_EVENTS: usize = 3_500;

/// The scripts of one run: seeds and numbers of calls. Short ones and long ones of all scenes, which
/// have so many calls together, and in a large run one about events.
pub fn plan(seed: u64, calls: usize) -> Vec<(u64, usize)> {
    let mut random = Random::of_seed(seed);
    let mut scripts = Vec::new();
    let mut left = calls;
    while left > 0 {
        let length = random
            .pick(&[1, 5, 5, 20, 20, 50, 50, 100, 200, 1_000, 2_000])
            .min(left);
        scripts.push((random.bits(), length));
        left -= length;
    }
    if calls >= LARGE_RUN {
        scripts.push((random.bits(), ABOUT_EVENTS));
    }
    scripts
}

/// Compares all scripts of one run; answers their number, or the first that differs.
pub fn compare(program: &str, seed: u64, calls: usize) -> Result<usize, Failure> {
    let scripts = plan(seed, calls);
    for &(seed, calls) in &scripts {
        compare_script(program, seed, calls).map_err(|reason| Failure {
            seed,
            calls,
            reason,
        })?;
    }
    Ok(scripts.len())
}

fn compare_script(program: &str, seed: u64, calls: usize) -> Result<(), String> {
    let script = Script::generate(seed, calls);
    let output = run_replay(program, script.encode())
        .map_err(|error| format!("{program} did not run: {error}"))?;
    let text = String::from_utf8_lossy(&output.stdout);
    judge(&script, &text).map_err(|difference| show(&difference))?;
    // How a program ends after the line `end` is its own matter, unless something killed it.
    let ended_well = match script.tail.is_empty() {
        true => output.status.success(),
        false => output.status.code().is_some(),
    };
    match ended_well {
        true => Ok(()),
        false => Err(format!("the program ended with {}", output.status)),
    }
}

fn show(difference: &Difference) -> String {
    format!(
        "call {}: {}\n  {}\n  expected: {}\n  found:    {}",
        difference.index,
        difference.call,
        difference.desk,
        difference.expected,
        difference.found.trim_end_matches('\n'),
    )
}
