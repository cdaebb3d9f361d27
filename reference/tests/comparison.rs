//! The comparison itself: it accepts lawful answers and notices every other.

use reference::book;
use reference::compare::{answers, compare, judge};
use reference::desk::Desk;
use reference::generate::Script;
use reference::script::{decode, Call};
use reference::table::Table;
use reference::tally::Tally;

fn own_answers(script: &Script) -> String {
    let (calls, breaks_off) = decode(&script.encode());
    answers(&calls, breaks_off)
}

#[test]
fn scripts_decode_to_their_calls() {
    for seed in 0..60 {
        let script = Script::generate(seed, 60);
        let (calls, breaks_off) = decode(&script.encode());
        assert!(calls == script.calls, "seed {seed}");
        assert_eq!(breaks_off, !script.tail.is_empty(), "seed {seed}");
        let again = Script::decoded(&script.encode());
        assert!(
            again.calls == calls && again.tail == script.tail,
            "seed {seed}"
        );
    }
}

#[test]
fn tables_for_pietra_are_loaded_and_measured() {
    let mut measured = 0;
    for seed in 0..200 {
        let script = Script::generate(seed, 100);
        let mut desk = Desk::fresh();
        for (call, &scene) in script.calls.iter().zip(&script.scenes) {
            let answer = desk.call(call);
            if scene == "far from the diagonal" {
                assert_eq!(answer.refusal(), None, "seed {seed}, {call}");
                measured += usize::from(call.name() == "measures");
            }
        }
    }
    assert!(measured > 500, "{measured}");
}

#[test]
fn own_answers_are_accepted() {
    for seed in 0..30 {
        let script = Script::generate(seed, 100);
        assert_eq!(judge(&script, &own_answers(&script)), Ok(()));
    }
}

/// The line with one word changed, in as many ways as it has words.
fn changed_lines(line: &str) -> Vec<String> {
    let words: Vec<&str> = line.split(' ').collect();
    let mut changed = Vec::new();
    for index in 0..words.len() {
        let mut words: Vec<String> = words.iter().map(|word| word.to_string()).collect();
        words[index] = match words[index].parse::<u64>() {
            // No price can be as high, be it of the first comparison or of the second.
            Ok(number) => (number ^ 1 << 32).to_string(),
            Err(_) => format!("{}0", words[index]),
        };
        changed.push(words.join(" "));
    }
    changed.push(format!("{line} "));
    changed.push(format!("{line}\n"));
    changed.push(String::new());
    changed
}

/// The 2^32 bit of a float's mantissa moves it by less than the bound unless it is large.
fn is_float_line(line: &str) -> bool {
    line.starts_with("spread ok")
}

#[test]
fn every_changed_word_is_noticed() {
    for seed in 0..4 {
        let script = Script::generate(seed, 60);
        let text = own_answers(&script);
        let lines: Vec<&str> = text.lines().collect();
        for (index, line) in lines.iter().enumerate() {
            if is_float_line(line) || line.len() > 2_000 {
                continue;
            }
            for changed in changed_lines(line) {
                let mut lines = lines.clone();
                lines[index] = &changed;
                let output = lines.join("\n") + "\n";
                let difference = judge(&script, &output).expect_err(&changed);
                assert!([index + 1, index + 2].contains(&difference.index));
            }
        }
    }
}

#[test]
fn missing_and_additional_output_is_noticed() {
    let script = Script::generate(3, 40);
    let text = own_answers(&script);
    assert!(judge(&script, text.trim_end_matches('\n')).is_err());
    assert!(judge(&script, &text[..text.len() / 2]).is_err());
    assert!(judge(&script, &(text.clone() + "end\n")).is_err());
    assert!(judge(&script, "").is_err());
}

/// A script that loads tables of these rows (n, d) into both places and makes these calls.
fn script_of(rows: [&[(u64, u64)]; 2], questions: &[Call]) -> Script {
    let tables = rows.map(Table::of_rows);
    let load = |place, rater| Call::Load {
        place,
        rater,
        book: book::write(&[&tables[0], &tables[1]]),
    };
    let calls = [&[load(1, 1), load(2, 2)], questions].concat();
    Script {
        scenes: vec![""; calls.len()],
        calls,
        tail: vec![],
    }
}

/// Compares the two raters of table h: crossing.
fn crossing_accepts(compare: &str, total: f64, residual: f64) -> bool {
    let (total, residual) = (total.to_bits(), residual.to_bits());
    let output = format!("load ok\nload ok\n{compare}\nspread ok {total} {residual}\n");
    let questions = [Call::Compare, Call::Spread { place: 1 }];
    let script = script_of([&[(5, 2), (1, 1)], &[(2, 0), (4, 3)]], &questions);
    judge(&script, &output).is_ok()
}

#[test]
fn price_pairs_are_judged_by_their_meaning() {
    let accepts = |pairs: &str| crossing_accepts(&format!("compare ok {pairs}"), 1.5, 1.2);
    assert!(accepts("crossing 1 1 1 3"));
    assert!(accepts("crossing 333333 333333 100 300"));
    assert!(!accepts("crossing 1 3 1 1"));
    assert!(!accepts("crossing 1000001 1000001 1 3"));
    assert!(!accepts("crossing 1 1 0 0"));
    assert!(!accepts("crossing 1 1"));
    assert!(!accepts("crossing 1 1 1 3 1 3"));
    assert!(!accepts("crossing 01 1 1 3"));
    assert!(!accepts("first 1 3"));
    assert!(!accepts("second 1 1"));
    assert!(!accepts("equal"));
}

/// Whether this is accepted as the second comparison of tables of these rows.
fn shares_accept(rows: [&[(u64, u64)]; 2], answer: &str) -> bool {
    let script = script_of(rows, &[Call::CompareShares]);
    let output = format!("load ok\nload ok\ncompare_shares ok {answer}\n");
    judge(&script, &output).is_ok()
}

/// The first costs u, u/5 + 2v/5 or v, the second u, u/2 + v/8 or v: at u 1, v 3 they cost 1 and
/// 7/8, at u 1, v 1 they cost 3/5 and 5/8, at u 1, v 4 both cost 1.
#[test]
fn pairs_on_shares_are_judged_by_their_meaning() {
    let accepts = |pairs: &str| shares_accept([&[(10, 1), (10, 4)], &[(8, 1), (2, 1)]], pairs);
    assert!(accepts("crossing 1 3 1 1"));
    assert!(accepts("crossing 2000000 6000000 1000001 1000001"));
    assert!(accepts("crossing 800000000 2400000000 4 4"));
    assert!(accepts(
        "crossing 833333333 2500000000 2500000000 2500000000"
    ));
    // Above the limit, by one and by 2^32.
    assert!(!accepts("crossing 833333333 2500000001 1 1"));
    assert!(!accepts("crossing 1 3 2500000001 2500000000"));
    assert!(!accepts("crossing 1 3 2500000000 2500000001"));
    assert!(!accepts("crossing 4294967297 4294967299 1 1"));
    assert!(!accepts(
        "crossing 1 3 18446744073709551615 18446744073709551615"
    ));
    // Exchanged, as pairs and as prices, and the same pair twice.
    assert!(!accepts("crossing 1 1 1 3"));
    assert!(!accepts("crossing 3 1 1 1"));
    assert!(!accepts("crossing 1 3 1 3"));
    assert!(!accepts("crossing 1 1 1 1"));
    // Where they cost the same.
    assert!(!accepts("crossing 1 4 1 1"));
    assert!(!accepts("crossing 625000000 2500000000 1 1"));
    assert!(!accepts("crossing 1 100 1 1"));
    assert!(!accepts("crossing 1 3 0 0"));
    assert!(!accepts("crossing 1 3 0 1"));
    assert!(!accepts("crossing 1 3 1 0"));
    // Other verdicts and other words.
    assert!(!accepts("first 1 1"));
    assert!(!accepts("second 1 3"));
    assert!(!accepts("equal"));
    assert!(!accepts("crossing 1 3"));
    assert!(!accepts("crossing 1 3 1 1 1 1"));
    assert!(!accepts("crossing 1 03 1 1"));
    assert!(!accepts("crossing 1 3 1 1 "));
}

/// Tables of nearly 100,000 obligors: their costs differ by little.
#[test]
fn pairs_on_shares_are_judged_to_the_last_unit() {
    // A single grade costs u or v, whatever its totals.
    let one = |pairs: &str| shares_accept([&[(100_000, 49_999)], &[(99_999, 50_000)]], pairs);
    assert!(one("equal"));
    assert!(!one("first 2500000000 2500000000"));
    // 49,999 of 50,000 defaults caught, or all; no survivor turned away. They cost u/50,000 or v,
    // and nothing.
    let caught = [&[(50_001, 1), (49_999, 49_999)][..], &[(1, 0), (1, 1)]];
    let accepts = |pairs: &str| shares_accept(caught, pairs);
    assert!(accepts("second 1 1"));
    assert!(accepts("second 1 2500000000"));
    assert!(accepts("second 2500000000 1"));
    assert!(accepts("second 2500000000 2500000000"));
    assert!(!accepts("second 2500000001 1"));
    assert!(!accepts("second 1 2500000001"));
    assert!(!accepts("second 0 2500000000"));
    assert!(!accepts("second 2500000000 0"));
    assert!(!accepts("first 1 1"));
    // Slopes of 49,980²/(49,980² - 9) and (49,980² - 16)/(49,980² - 25), the flat one's own
    // break-even prices: 1 more or less, and the costs are the same or the other way round.
    let corners = [
        &[(6, 3), (99_957, 49_980)][..],
        &[(18, 9), (99_951, 49_976)],
    ];
    let accepts = |pairs: &str| shares_accept(corners, pairs);
    assert!(accepts("crossing 2498000391 2498000400 1 1"));
    assert!(!accepts("crossing 2498000392 2498000400 1 1"));
    assert!(!accepts("crossing 2498000391 2498000401 1 1"));
    assert!(!accepts("crossing 2498000390 2498000400 1 1"));
    assert!(!accepts("crossing 2498000375 2498000384 1 1"));
}

/// The first comparison keeps its limit and its name.
#[test]
fn the_two_comparisons_are_judged_apart() {
    let tables = [&[(5, 2), (1, 1)][..], &[(2, 0), (4, 3)]];
    let accepts = |first: &str, second: &str| {
        let script = script_of(tables, &[Call::Compare, Call::CompareShares]);
        judge(&script, &format!("load ok\nload ok\n{first}\n{second}\n")).is_ok()
    };
    let (low, high) = ("crossing 1 1 1 3", "crossing 1000001 1000001 1 3");
    let compare = |pairs: &str| format!("compare ok {pairs}");
    let shares = |pairs: &str| format!("compare_shares ok {pairs}");
    assert!(accepts(&compare(low), &shares(low)));
    assert!(accepts(&compare(low), &shares(high)));
    assert!(!accepts(&compare(high), &shares(low)));
    assert!(!accepts(&shares(low), &compare(low)));
    assert!(!accepts(&compare(low), &compare(low)));
    assert!(!accepts(&compare(low), "compare_shares refused 35"));
}

#[test]
fn floats_are_judged_by_their_meaning() {
    let accepts =
        |total, residual| crossing_accepts("compare ok crossing 1 1 1 3", total, residual);
    let step = |power: i32| 0.5f64.powi(power);
    // D 3, S 3, N 6; blocks 2/5 and 1/1.
    assert!(accepts(1.5, 1.2));
    assert!(accepts(1.5 + step(36), 1.2 + step(30)));
    assert!(!accepts(1.5 + step(36) + step(52), 1.2));
    assert!(!accepts(1.5, 1.2 - step(29) - step(40)));
    assert!(!accepts(f64::NAN, 1.2));
    assert!(!accepts(1.5, f64::INFINITY));
    assert!(!accepts(-1.5, 1.2));
}

#[test]
fn the_program_agrees_with_itself() {
    let program = env!("CARGO_BIN_EXE_reference");
    assert!(compare(program, 7, 2_000).is_ok());
}

/// The script of the gate: its stored answers are judged by their meaning.
#[test]
fn the_stored_answers_are_lawful() {
    let replay = concat!(env!("CARGO_MANIFEST_DIR"), "/../crates/replay/");
    let script = std::fs::read(format!("{replay}stdin")).expect("the script");
    let answers = std::fs::read_to_string(format!("{replay}stdout")).expect("its answers");
    assert_eq!(judge(&Script::decoded(&script), &answers), Ok(()));
}

#[test]
fn another_program_fails() {
    let failure = compare("true", 7, 50).map_err(|failure| failure.reason);
    assert!(failure.is_err_and(|reason| reason.contains("call 1:")));
    assert!(compare("no such program", 7, 50).is_err());
}

/// The rows of the tally that say what Pietra was.
fn pietras() -> Vec<String> {
    let mut rows = vec!["on the diagonal | all cutoffs".to_string()];
    for side in ["above", "below"] {
        for as_far in [
            "none",
            "none, but 1 less on the other side",
            "a later cutoff on the same side",
            "a later cutoff on the other side",
        ] {
            rows.push(format!("{side} the diagonal | {as_far}"));
        }
    }
    rows
}

#[test]
fn a_run_exercises_everything() {
    let table = Tally::of_run(1, 20_000).markdown();
    let expected = ["crossing", "equal", "first", "second"].map(String::from);
    let refusals = (1..=4).chain(6..=13).chain(21..=25).chain(31..=38);
    let refusals = refusals.map(|number| number.to_string());
    for row in expected.into_iter().chain(refusals).chain(pietras()) {
        let start = format!("| {row} | ");
        let line = table.lines().find(|line| line.starts_with(&start));
        let times = line.and_then(|line| line[start.len()..].split(' ').next()?.parse().ok());
        assert!(times.unwrap_or(0) >= 50, "{row}");
    }
    assert!(!table.contains("\n| 5 | "), "R-2: 5 is never given again");
}

/// The rows of the tally that say how books were cut wrong, each with its usual answer.
fn cuts() -> Vec<(String, &'static str)> {
    let [start, end] = ["a table starts elsewhere", "a table runs past the end"];
    let mut rows = vec![("bytes follow | last | none".to_string(), "33: ")];
    for table in ["first", "middle", "last"] {
        for (fault, other, number) in [(start, end, "31: "), (end, start, "32: ")] {
            rows.push((format!("{fault} | {table} | none"), number));
            rows.push((format!("{fault} | {table} | bytes follow"), number));
            rows.push((format!("{fault} | {table} | {other}: same"), "31: "));
            if table != "last" {
                rows.push((format!("{fault} | {table} | {other}: later"), number));
            }
            rows.push((format!("bytes follow | last | {fault}: {table}"), number));
        }
    }
    rows
}

/// As many calls as the gate has for a seed.
#[test]
fn a_run_cuts_books_wrong_in_every_way() {
    for seed in [1, 2, 3] {
        let tally = Tally::of_run(seed, 15_000).markdown();
        for (row, number) in cuts() {
            let start = format!("| {row} | ");
            let line = tally.lines().find(|line| line.starts_with(&start));
            let cells: Vec<&str> = line.map_or(vec![], |line| line.split(" | ").collect());
            assert_eq!(cells.len(), 5, "seed {seed}: {row}");
            let mut times = cells[3].split(", ").map(|times| times.parse().unwrap_or(0));
            assert!(times.all(|times| times >= 3), "seed {seed}: {line:?}");
            assert!(cells[4].contains(number), "seed {seed}: {line:?}");
        }
    }
}

#[test]
fn books_cut_wrong_have_1_2_3_and_up_to_16_raters() {
    let mut books = [0; 17];
    for seed in 0..200 {
        let script = Script::generate(seed, 100);
        for (call, &scene) in script.calls.iter().zip(&script.scenes) {
            if let (Call::Load { book, .. }, "book cut wrong") = (call, scene) {
                books[usize::from(book[0])] += 1;
            }
        }
    }
    assert!(books[1..].iter().all(|&times| times > 0), "{books:?}");
    let of_two_or_less: usize = books[..3].iter().sum();
    assert!(3 * of_two_or_less < books.iter().sum(), "{books:?}");
}

/// As many calls as the gate has for a seed.
#[test]
fn a_run_has_every_pair_of_faults() {
    for seed in [1, 2, 3] {
        let tally = Tally::of_run(seed, 15_000).markdown();
        for (stand, pairs) in [
            ("at one table", 18),
            ("at a table and the next", 32),
            ("at a table and behind the last", 5),
        ] {
            let start = format!("| {stand} | {pairs} | ");
            let line = tally.lines().find(|line| line.starts_with(&start));
            let fewest = line.and_then(|line| line.split(" | ").last());
            let fewest = fewest.and_then(|cell| cell.trim_end_matches(" |").parse().ok());
            assert!(fewest.unwrap_or(0) >= 5, "seed {seed}: {line:?}");
        }
    }
}
