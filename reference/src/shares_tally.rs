//! How often one run exercises the second comparison: which cases of its scene, what the places
//! hold, and which verdicts on which totals.

use crate::answer::{verdict_name, Answer};
use crate::desk::Desk;
use crate::lenders::{every_lenders, Lenders};
use crate::shares::MAX_PRICE_ON_SHARES;
use crate::shares_scene::{Holds, EVERY_HOLDS};
use crate::table::Table;
use crate::tally::{answer_counts, Answers, VERDICTS};
use std::collections::BTreeMap;

#[derive(Default)]
pub(crate) struct SharesTally {
    cases: BTreeMap<Lenders, Verdicts>,
    places: BTreeMap<[Holds; 2], Answers>,
    totals: BTreeMap<&'static str, Verdicts>,
    /// Accepted calls, by the highest break-even price of the two tables.
    pub prices: BTreeMap<&'static str, usize>,
}

/// How often each verdict was the answer.
type Verdicts = BTreeMap<&'static str, usize>;

impl SharesTally {
    /// The desk is as the call found and left it.
    pub fn add(&mut self, desk: &Desk, answer: &Answer, case: Option<Lenders>) {
        let Answer::CompareShares(answer) = answer else {
            return;
        };
        let tables = [1, 2].map(|place| desk.table(place).ok());
        let answers = self.places.entry(tables.map(Holds::of)).or_default();
        *answers.entry(answer.err()).or_default() += 1;
        let (Ok(verdict), [Some(first), Some(second)]) = (answer, tables) else {
            return;
        };
        let alike = [
            case.map(|case| self.cases.entry(case).or_default()),
            Some(self.totals.entry(totals(first, second)).or_default()),
        ];
        for verdicts in alike.into_iter().flatten() {
            *verdicts.entry(verdict_name(verdict)).or_default() += 1;
        }
        *self.prices.entry(highest(first, second)).or_default() += 1;
    }

    pub fn case_table(&self) -> String {
        let mut text = verdict_head("tables of two lenders");
        for case in every_lenders() {
            text += &verdict_row(case, self.cases.get(&case));
        }
        text
    }

    pub fn total_table(&self) -> String {
        let mut text = verdict_head("totals of the tables on shares");
        for (totals, verdicts) in &self.totals {
            text += &verdict_row(totals, Some(verdicts));
        }
        text
    }

    /// A row for what place 1 holds, a column for place 2.
    pub fn place_table(&self) -> String {
        let heads = EVERY_HOLDS.map(|holds| holds.to_string()).join(" | ");
        let dashes = ["---"; EVERY_HOLDS.len() + 1].join(" | ");
        let mut text = format!("| place 1, then place 2 | {heads} |\n| {dashes} |\n");
        for first in EVERY_HOLDS {
            let cell = |second| match self.places.get(&[first, second]) {
                Some(answers) => answer_counts(answers),
                None => String::new(),
            };
            let cells = EVERY_HOLDS.map(cell).join(" | ");
            text += &format!("| {first} | {cells} |\n");
        }
        text
    }
}

fn verdict_head(name: &str) -> String {
    let verdicts = VERDICTS.join(" | ");
    format!("| {name} | calls | {verdicts} |\n| --- | --- | --- | --- | --- | --- |\n")
}

fn verdict_row(name: impl std::fmt::Display, verdicts: Option<&Verdicts>) -> String {
    let times = |verdict| verdicts.and_then(|verdicts| verdicts.get(verdict)).copied();
    let times = VERDICTS.map(|verdict| times(verdict).unwrap_or(0));
    let calls: usize = times.iter().sum();
    let cells = times.map(|times| times.to_string()).join(" | ");
    format!("| {name} | {calls} | {cells} |\n")
}

fn totals(first: &Table, second: &Table) -> &'static str {
    let same_defaults = first.defaults() == second.defaults();
    match (same_defaults, first.survivors() == second.survivors()) {
        (true, true) => "D and S equal",
        (true, false) => "D equal, S differ",
        (false, true) => "S equal, D differ",
        (false, false) => "D and S differ",
    }
}

/// The highest break-even price of a table is DS.
fn highest(first: &Table, second: &Table) -> &'static str {
    let highest = [first, second].map(|table| table.defaults() * table.survivors());
    match highest[0].max(highest[1]) {
        MAX_PRICE_ON_SHARES => "2500000000",
        price if price >= 1 << 31 => "2^31 and more",
        price if price > 1_000_000 => "above 1000000",
        _ => "up to 1000000",
    }
}
