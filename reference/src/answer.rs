//! The answers to the calls, and the lines of REPLAY.md that show them.

use crate::cutoff::{Price, Verdict};
use crate::events::Event;
use crate::measures::Measures;
use crate::spread::Spread;
use crate::table::Refusal;

#[derive(Clone, Debug, PartialEq)]
pub enum Answer {
    Load(Result<(), Refusal>),
    Clear(Result<(), Refusal>),
    /// With the lent numbers after the call.
    Pool(Result<(), Refusal>, Vec<u32>),
    /// g and cost.
    Cheapest(Result<(u32, u64), Refusal>),
    Compare(Result<Verdict, Refusal>),
    CompareShares(Result<Verdict, Refusal>),
    Measures(Result<Measures, Refusal>),
    /// Numerator and denominator.
    Brier(Result<(u64, u64), Refusal>),
    Spread(Result<Spread, Refusal>),
    /// With the lent bytes after the call.
    Write(Result<usize, Refusal>, Vec<u8>),
    /// How many raters are listed, with the lent numbers after the call.
    Shortlist(Result<usize, Refusal>, Vec<u32>),
    Event(Event, Result<(), Refusal>),
}

impl Answer {
    /// The line of REPLAY.md, without its line feed.
    pub fn line(&self) -> String {
        match self {
            Answer::Load(answer) => words("load", answer, |_| vec![]),
            Answer::Clear(answer) => words("clear", answer, |_| vec![]),
            Answer::Pool(answer, lent) => {
                append(words("pool", answer, |_| vec![]), &join(&texts(lent)))
            }
            Answer::Cheapest(answer) => words("cheapest", answer, |(g, cost)| {
                vec![g.to_string(), cost.to_string()]
            }),
            Answer::Compare(answer) => words("compare", answer, verdict_words),
            Answer::CompareShares(answer) => words("compare_shares", answer, verdict_words),
            Answer::Measures(answer) => words("measures", answer, measures_words),
            Answer::Brier(answer) => words("brier", answer, |(numerator, denominator)| {
                texts(&[numerator, denominator])
            }),
            Answer::Spread(answer) => words("spread", answer, |spread| {
                texts(&[spread.total.to_bits(), spread.residual.to_bits()])
            }),
            Answer::Write(answer, lent) => append(
                words("write", answer, |length| vec![length.to_string()]),
                &hex(lent),
            ),
            Answer::Shortlist(answer, lent) => append(
                words("shortlist", answer, |count| vec![count.to_string()]),
                &join(&texts(lent)),
            ),
            Answer::Event(event, answer) => words(event.name(), answer, |_| vec![]),
        }
    }

    /// The refusal number, if the call was refused.
    pub fn refusal(&self) -> Option<Refusal> {
        match self {
            Answer::Load(answer) | Answer::Clear(answer) => answer.err(),
            Answer::Pool(answer, _) | Answer::Event(_, answer) => answer.err(),
            Answer::Cheapest(answer) => answer.err(),
            Answer::Compare(answer) | Answer::CompareShares(answer) => answer.err(),
            Answer::Measures(answer) => answer.err(),
            Answer::Brier(answer) => answer.err(),
            Answer::Spread(answer) => answer.err(),
            Answer::Write(answer, _) | Answer::Shortlist(answer, _) => answer.err(),
        }
    }
}

/// `NAME ok ..` or `NAME refused N`.
fn words<T>(
    name: &str,
    answer: &Result<T, Refusal>,
    accepted: impl Fn(&T) -> Vec<String>,
) -> String {
    match answer {
        Ok(value) => append(format!("{name} ok"), &join(&accepted(value))),
        Err(number) => format!("{name} refused {number}"),
    }
}

/// Single spaces between words, hence none before an empty list.
fn append(line: String, more: &str) -> String {
    match more {
        "" => line,
        _ => format!("{line} {more}"),
    }
}

fn texts<T: ToString>(numbers: &[T]) -> Vec<String> {
    numbers.iter().map(T::to_string).collect()
}

fn join(words: &[String]) -> String {
    words.join(" ")
}

pub fn verdict_name(verdict: &Verdict) -> &'static str {
    match verdict {
        Verdict::Equal => "equal",
        Verdict::First(_) => "first",
        Verdict::Second(_) => "second",
        Verdict::Crossing(..) => "crossing",
    }
}

/// The price pairs that a verdict carries, in order.
pub fn verdict_prices(verdict: &Verdict) -> Vec<Price> {
    match *verdict {
        Verdict::Equal => vec![],
        Verdict::First(price) | Verdict::Second(price) => vec![price],
        Verdict::Crossing(first_dearer, second_dearer) => vec![first_dearer, second_dearer],
    }
}

fn verdict_words(verdict: &Verdict) -> Vec<String> {
    let mut words = vec![verdict_name(verdict).to_string()];
    for price in verdict_prices(verdict) {
        words.extend(texts(&[price.missed_default, price.lost_survivor]));
    }
    words
}

fn measures_words(measures: &Measures) -> Vec<String> {
    let mut words = texts(&[measures.defaults, measures.survivors]);
    for (numerator, denominator) in [measures.gini, measures.roc, measures.cap, measures.pietra] {
        words.extend(texts(&[numerator, denominator]));
    }
    words.push(measures.pietra_cutoff.to_string());
    words
}

/// Lowercase hex.
pub fn hex(bytes: &[u8]) -> String {
    let digit = |value: u8| char::from(b"0123456789abcdef"[value as usize]);
    let digits = |&byte: &u8| [digit(byte >> 4), digit(byte & 15)];
    bytes.iter().flat_map(digits).collect()
}
