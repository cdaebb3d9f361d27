//! compare [--shares] BOOK BOOK [RATER RATER]: says which of two rating scales over the same obligors is better; with --shares, of
//! two over different books. compare --shortlist BOOK: says which raters of a book no other one beats. compare --events BOOK RATER
//! [EVENT GRADE] ..: books firms that come and go, EVENT being enters, leaves, defaults or removed, and says the table as it stands then.

use desk::{Desk, Place, Price, Refusal, Verdict, WrongCut};
use std::error::Error;
use std::process::ExitCode;

fn read(path: &str) -> Result<Vec<u8>, String> {
    std::fs::read(path).map_err(|error| format!("{path}: {error}"))
}

fn load(desk: &mut Desk, place: Place, path: &str, rater: &str) -> Result<(), Box<dyn Error>> {
    let book = read(path)?;
    let rater = rater.parse().unwrap_or(0); // which load refuses
    let loaded = desk.load(place, &book, rater);
    Ok(loaded.map_err(|refusal| format!("{path}: {}", in_words(refusal, &book)))?)
}

/// Why a book was refused, and where it is cut wrong if that is why.
fn in_words(refusal: Refusal, book: &[u8]) -> String {
    match WrongCut::find(book).filter(|cut| cut.refusal() == refusal) {
        Some(cut) => format!("{refusal}; {cut}"),
        None => refusal.to_string(),
    }
}

fn say_costs(desk: &Desk, price: Price) -> Result<(), Box<dyn Error>> {
    let [first, second] = [Place::First, Place::Second].map(|place| desk.cheapest(place, price));
    let (first, second, Price { u, v }) = (first?.cost, second?.cost, price);
    print!("At {u} for a missed default and {v} for a survivor turned away");
    println!(" the first costs {first} and the second {second}.");
    Ok(())
}

/// Prices on shares are for all defaults or survivors of a table, whichever table it is.
fn say_dearer(verdict: Verdict) {
    let (first, second) = (verdict.first_dearer(), verdict.second_dearer());
    for (dearer, price) in [("first", first), ("second", second)] {
        if let Some(Price { u, v }) = price {
            print!("At {u} for all defaults missed and {v} for all survivors turned away");
            println!(" the {dearer} costs more.");
        }
    }
}

fn sentence(verdict: Verdict) -> &'static str {
    match verdict {
        Verdict::Equal => "The scales cost the same at all prices.",
        Verdict::First { .. } => "The first scale is better.",
        Verdict::Second { .. } => "The second scale is better.",
        Verdict::Crossing { .. } => "Each scale is better at some prices.",
    }
}

fn compare(desk: &Desk, on_shares: bool) -> Result<(), Box<dyn Error>> {
    let compared = if on_shares {
        desk.compare_shares()
    } else {
        desk.compare()
    };
    let verdict = compared.map_err(|refusal| format!("compare: {refusal}"))?;
    println!("{}", sentence(verdict));
    if on_shares {
        say_dearer(verdict);
        return Ok(());
    }
    let prices = [verdict.first_dearer(), verdict.second_dearer()];
    let mut prices = prices.into_iter().flatten();
    prices.try_for_each(|price| say_costs(desk, price))
}

/// Of a rater that is not listed: the first listed one that is better, and prices that show it.
fn say_beaten(book: &[u8], rater: u32, listed: &[u32]) -> Result<(), Refusal> {
    for &better in listed {
        let mut desk = Desk::empty();
        desk.load(Place::First, book, better)?;
        desk.load(Place::Second, book, rater)?;
        if let Verdict::First { second_dearer } = desk.compare()? {
            let Price { u, v } = second_dearer;
            print!("Rater {rater} is not listed: rater {better} is better.");
            print!(" At {u} for a missed default and {v} for a survivor turned away");
            println!(" rater {rater} costs more.");
            break;
        }
    }
    Ok(())
}

fn say_shortlist(path: &str) -> Result<(), Box<dyn Error>> {
    let book = read(path)?;
    let listed = desk::shortlist(&book)
        .map_err(|refusal| format!("{path}: {}", in_words(refusal, &book)))?;
    // The first byte of an accepted book is the number of its raters.
    for rater in 1..=u32::from(book[0]) {
        if listed.contains(&rater) {
            println!("Rater {rater} is listed.");
        } else {
            say_beaten(&book, rater, &listed)?;
        }
    }
    Ok(())
}

fn book_event(desk: &mut Desk, event: &str, grade: &str) -> Result<(), Box<dyn Error>> {
    let grade = grade.parse().unwrap_or(0); // which every event refuses
    let booked = match event {
        "enters" => desk.survivor_enters(Place::First, grade),
        "leaves" => desk.survivor_leaves(Place::First, grade),
        "defaults" => desk.survivor_defaults(Place::First, grade),
        "removed" => desk.defaulted_removed(Place::First, grade),
        _ => return Err(format!("{event}: no event").into()),
    };
    Ok(booked.map_err(|refusal| format!("{event}: {refusal}"))?)
}

fn say_events(path: &str, rater: &str, events: &[&str]) -> Result<(), Box<dyn Error>> {
    let mut desk = Desk::empty();
    load(&mut desk, Place::First, path, rater)?;
    for event in events.chunks_exact(2) {
        book_event(&mut desk, event[0], event[1])?;
    }
    let pooled = desk.pool(Place::First)?;
    for (number, (grade, pooled)) in (1..).zip(desk.grades(Place::First).zip(pooled)) {
        let (obligors, defaults) = (grade.obligors, grade.defaults);
        print!("Grade {number}: obligors {obligors}, defaults {defaults}; ");
        let (defaults, obligors, band) = (pooled.defaults, pooled.obligors, pooled.band);
        println!("pooled {defaults} of {obligors}, band {band}.");
    }
    Ok(())
}

fn run(words: &[&str]) -> Result<(), Box<dyn Error>> {
    let (on_shares, books) = match words {
        ["--shortlist", path] => return say_shortlist(path),
        ["--events", path, rater, events @ ..] if events.len() % 2 == 0 => {
            return say_events(path, rater, events);
        }
        ["--shares", books @ ..] => (true, books),
        _ => (false, words),
    };
    let ([one, other], [rater, other_rater]) = match *books {
        [one, other] => ([one, other], ["1", "1"]),
        [one, other, rater, other_rater] => ([one, other], [rater, other_rater]),
        _ => {
            return Err(
                "usage: compare [--shares] BOOK BOOK [RATER RATER], --shortlist BOOK, or --events BOOK RATER [EVENT GRADE] .."
                    .into(),
            );
        }
    };
    let mut desk = Desk::empty();
    load(&mut desk, Place::First, one, rater)?;
    load(&mut desk, Place::Second, other, other_rater)?;
    compare(&desk, on_shares)
}

fn main() -> ExitCode {
    let words: Vec<String> = std::env::args().collect();
    let words: Vec<&str> = words.iter().map(String::as_str).collect();
    let outcome = run(&words[1..]);
    if let Err(error) = &outcome {
        eprintln!("{error}");
    }
    ExitCode::from(u8::from(outcome.is_err()))
}
