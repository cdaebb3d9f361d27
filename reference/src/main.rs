//! The commands of the second opinion; see `USAGE`.

use reference::compare::{answers, compare, plan};
use reference::generate::Script;
use reference::print::print;
use reference::script::decode;
use reference::tally::Tally;
use std::io::{self, Read, Write};
use std::process::ExitCode;

const USAGE: &str = "\
reference compare REPLAY SEED CALLS   run REPLAY on generated scripts, compare its answers
reference answers < SCRIPT            answer a script as REPLAY.md says (also without arguments)
reference script SEED CALLS > SCRIPT  write one generated script
reference tally SEED CALLS            what the run of this seed exercises, as Markdown
reference print < BOOK                what the printing program prints
SEED is a number, or `fresh` for a new one.
";

fn main() -> ExitCode {
    let arguments: Vec<String> = std::env::args().skip(1).collect();
    let words: Vec<&str> = arguments.iter().map(String::as_str).collect();
    match run(&words) {
        Ok(success) if success => ExitCode::SUCCESS,
        Ok(_) => ExitCode::FAILURE,
        Err(message) => {
            eprintln!("{message}");
            ExitCode::from(2)
        }
    }
}

/// True if the command succeeded.
fn run(words: &[&str]) -> Result<bool, String> {
    match *words {
        [] | ["answers"] => {
            let (calls, breaks_off) = decode(&read_input()?);
            write_output(answers(&calls, breaks_off).as_bytes())
        }
        ["script", seed, calls] => {
            let script = Script::generate(read_seed(seed)?, read_count(calls)?);
            write_output(&script.encode())
        }
        ["tally", seed, calls] => {
            let tally = Tally::of_run(read_seed(seed)?, read_count(calls)?);
            write_output(tally.markdown().as_bytes())
        }
        ["print"] => write_output(print(&read_input()?).as_bytes()),
        ["compare", program, seed, calls] => Ok(run_comparison(
            program,
            read_seed(seed)?,
            read_count(calls)?,
        )),
        _ => Err(USAGE.to_string()),
    }
}

fn run_comparison(program: &str, seed: u64, calls: usize) -> bool {
    println!("comparing {calls} calls, seed {seed}");
    match compare(program, seed, calls) {
        Ok(scripts) => {
            let calls: usize = plan(seed, calls).iter().map(|script| script.1).sum();
            println!("all agree: {calls} calls in {scripts} scripts");
            true
        }
        Err(failure) => {
            println!(
                "DIFFERENCE in the script of seed {} with {} calls",
                failure.seed, failure.calls
            );
            println!(
                "(reference script {} {} > script)",
                failure.seed, failure.calls
            );
            println!("{}", failure.reason);
            false
        }
    }
}

fn read_seed(word: &str) -> Result<u64, String> {
    match word {
        "fresh" => Ok(fresh_seed()),
        _ => word.parse().map_err(|_| format!("not a seed: {word}")),
    }
}

/// A seed from the clock.
fn fresh_seed() -> u64 {
    let now = std::time::SystemTime::now();
    let since = now.duration_since(std::time::UNIX_EPOCH);
    since.map_or(0, |time| time.as_nanos() as u64)
}

fn read_count(word: &str) -> Result<usize, String> {
    word.parse()
        .map_err(|_| format!("not a number of calls: {word}"))
}

fn read_input() -> Result<Vec<u8>, String> {
    let mut bytes = Vec::new();
    let read = io::stdin().lock().read_to_end(&mut bytes);
    read.map(|_| bytes).map_err(|error| error.to_string())
}

fn write_output(bytes: &[u8]) -> Result<bool, String> {
    let written = io::stdout().lock().write_all(bytes);
    written.map(|_| true).map_err(|error| error.to_string())
}
