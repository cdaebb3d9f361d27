//! The answers print as those of the Python module do.

use desk::{Fraction, Measures, PooledGrade, Price, Refusal, Table, Verdict, WrongCut};
use reference::random::Random;
use std::fmt::Display;
use std::process::Command;

/// What Python prints for these expressions over the module's answers, one line each.
fn printed(expressions: &[String]) -> Vec<String> {
    let program = "import struct, sys
from desk.answers import *
from desk.book import tables_in
from desk.refusals import Refused

def bits(fraction):
    return struct.unpack('<Q', struct.pack('<d', float(fraction)))[0]

def refused(book):
    try:
        tables_in(book)
    except Refused as refused:
        return refused

for line in sys.argv[1].split('\\n'):
    print(eval(line))";
    let output = Command::new("python3")
        .args(["-B", "-c", program, &expressions.join("\n")])
        .env("PYTHONPATH", "../python")
        .output()
        .expect("python3 is there");
    let errors = String::from_utf8_lossy(&output.stderr);
    assert!(output.status.success(), "{errors}");
    let text = String::from_utf8(output.stdout).expect("text");
    text.lines().map(str::to_string).collect()
}

/// Sees each answer print as the Python expression beside it does; few at a time, since a command
/// line has its limit.
fn prints_alike(cases: &[(String, String)]) {
    for cases in cases.chunks(500) {
        let (expressions, expected): (Vec<String>, Vec<String>) = cases.iter().cloned().unzip();
        let found = printed(&expressions);
        assert_eq!(found.len(), expected.len());
        for (index, expression) in expressions.iter().enumerate() {
            assert_eq!(found[index], expected[index], "{expression}");
        }
    }
}

fn case(expression: String, answer: impl Display) -> (String, String) {
    (expression, answer.to_string())
}

fn any_fraction(random: &mut Random) -> Fraction {
    let mut number = || i64::from_le_bytes(random.bits().to_le_bytes()) >> random.index(64);
    let (numerator, denominator) = (number(), (number() & i64::MAX).max(1));
    Fraction::new(numerator, denominator).expect("a positive denominator")
}

fn python(fraction: Fraction) -> String {
    let (numerator, denominator) = fraction.written();
    format!("WrittenFraction({numerator}, {denominator})")
}

#[test]
fn fractions() {
    let mut random = Random::of_seed(3);
    let mut cases = Vec::new();
    for _ in 0..1_000 {
        let fraction = any_fraction(&mut random);
        let python = python(fraction);
        cases.push(case(python.clone(), fraction));
        let decimal = format!("{fraction:.3}");
        let decimal = decimal.split(' ').next().expect("a word");
        cases.push(case(format!("decimal({python}, 3)"), decimal));
        let bits = fraction.to_f64().to_bits();
        cases.push(case(format!("bits({python})"), bits));
    }
    prints_alike(&cases);
}

#[test]
fn refusals_prices_and_verdicts() {
    let mut cases: Vec<(String, String)> = Refusal::ALL
        .iter()
        .map(|refusal| case(format!("Refused({})", refusal.number()), refusal))
        .collect();
    let (first_dearer, second_dearer) = (
        Price { u: 6, v: 4 },
        Price {
            u: 1_000_000,
            v: 500_000,
        },
    );
    let python = |price: Price| format!("Price({}, {})", price.u, price.v);
    let (first, second) = (python(first_dearer), python(second_dearer));
    cases.push(case(first.clone(), first_dearer));
    let verdict =
        |kind: &str, first: &str, second: &str| format!("Verdict(Kind.{kind}, {first}, {second})");
    cases.push(case(verdict("EQUAL", "None", "None"), Verdict::Equal));
    cases.push(case(
        verdict("FIRST", "None", &second),
        Verdict::First { second_dearer },
    ));
    cases.push(case(
        verdict("SECOND", &first, "None"),
        Verdict::Second { first_dearer },
    ));
    cases.push(case(
        verdict("CROSSING", &first, &second),
        Verdict::Crossing {
            first_dearer,
            second_dearer,
        },
    ));
    prints_alike(&cases);
}

#[test]
fn prices_on_shares() {
    let (u, v) = (2_500_000_000, 2_499_950_000);
    prints_alike(&[case(format!("Price({u}, {v})"), Price { u, v })]);
}

#[test]
fn measures_and_pooled_grades() {
    let mut random = Random::of_seed(4);
    let [gini, roc, cap, pietra] = [(); 4].map(|()| any_fraction(&mut random));
    let measures = Measures {
        defaults: 3,
        survivors: 4,
        gini,
        roc,
        cap,
        pietra,
        cutoff: 5,
    };
    let fractions = [gini, roc, cap, pietra].map(python).join(", ");
    let pooled = PooledGrade {
        defaults: 3,
        obligors: 20,
        band: 11,
    };
    prints_alike(&[
        case(format!("Measures(3, 4, {fractions}, 5)"), measures),
        case("PooledGrade(3, 20, 11)".to_string(), pooled),
    ]);
}

/// A short book, cut wrong in many ways: a byte of its layout changed, or its length.
fn cut_books() -> Vec<Vec<u8>> {
    let tables = [(); 3].map(|()| Table::by_obligors().grade(5, 2, 400_000));
    let book = Table::book(&tables).expect("valid tables");
    let mut books = Vec::new();
    for length in 4..book.len() + 20 {
        let mut other = book.clone();
        other.resize(length, 0);
        other[2] = u8::try_from(length).expect("a short book");
        books.push(other);
    }
    for byte in [4, 5, 6, 7, 8, 9, 10, 26, 42] {
        for number in (0..30).chain([42, 255]) {
            let mut other = book.clone();
            other[byte] = number;
            books.push(other);
        }
    }
    books
}

#[test]
fn cuts() {
    let mut cases = Vec::new();
    for book in cut_books() {
        if let Some(cut) = WrongCut::find(&book) {
            let words = format!("{}; {cut}", cut.refusal());
            cases.push(case(format!("refused(bytes({book:?}))"), words));
        }
    }
    for number in [31, 32, 33] {
        let refused = format!("refused {number}: ");
        let count = cases.iter().filter(|case| case.1.starts_with(&refused));
        assert!(count.count() > 10, "{number}");
    }
    prints_alike(&cases);
}
