//! How often one run exercises announced rates in step and out of step: which cases of their scene
//! are loaded, and where in a table a rate falls first.

use crate::announced::falls;
use crate::announced_scene::{every_rates, Rates};
use crate::answer::Answer;
use crate::book;
use crate::script::Call;
use crate::table::Refusal;
use crate::tally::{comes_to_rows, loads_and_answers, Answers};
use std::collections::BTreeMap;

#[derive(Default)]
pub(crate) struct AnnouncedTally {
    cases: BTreeMap<Rates, Answers>,
    /// Loads that come to the rows, by the row of the first fall and the grades there.
    falls: BTreeMap<(&'static str, &'static str), Falls>,
    /// Accepted loads, by how the rates rise.
    pub loaded: BTreeMap<&'static str, usize>,
}

/// Loads of tables whose first fall is alike.
#[derive(Default)]
struct Falls {
    /// By 1 ppm, and by more.
    by_size: [usize; 2],
    answers: Answers,
}

impl AnnouncedTally {
    pub fn add(&mut self, call: &Call, answer: &Answer, case: Option<Rates>) {
        let Call::Load { rater, book, .. } = call else {
            return;
        };
        let refusal = answer.refusal();
        if let Some(case) = case {
            let answers = self.cases.entry(case).or_default();
            *answers.entry(refusal).or_default() += 1;
        }
        if comes_to_rows(refusal) {
            self.add_rows(book, *rater, refusal);
        }
    }

    fn add_rows(&mut self, book: &[u8], rater: u32, refusal: Option<Refusal>) {
        let rates = book::announced(book, rater);
        if let Some(&row) = falls(&rates).first() {
            let (_, obligors) = book::obligors(book, rater);
            let grades = grades_at(&obligors, row);
            let alike = self.falls.entry((row_name(row, rates.len()), grades));
            let alike = alike.or_default();
            alike.by_size[usize::from(rates[row - 1] - rates[row] > 1)] += 1;
            *alike.answers.entry(refusal).or_default() += 1;
        }
        if refusal.is_none() {
            *self.loaded.entry(rises(&rates)).or_default() += 1;
        }
    }

    pub fn case_table(&self) -> String {
        let mut text = "| announced rates | loads | answers |\n| --- | --- | --- |\n".to_string();
        for rates in every_rates() {
            let (loads, answers) = loads_and_answers(self.cases.get(&rates));
            text += &format!("| {rates} | {loads} | {answers} |\n");
        }
        text
    }

    pub fn fall_table(&self) -> String {
        let mut text = "\
            | a rate falls first in | grade | by 1 ppm | by more | answers |\n\
            | --- | --- | --- | --- | --- |\n"
            .to_string();
        for ((row, grades), falls) in &self.falls {
            let [by_one, by_more] = falls.by_size;
            let (_, answers) = loads_and_answers(Some(&falls.answers));
            text += &format!("| {row} | {grades} | {by_one} | {by_more} | {answers} |\n");
        }
        text
    }
}

fn row_name(row: usize, count: usize) -> &'static str {
    match row {
        _ if row == count - 1 => "the last row",
        1 => "the second row",
        _ => "a middle row",
    }
}

fn grades_at(obligors: &[u64], row: usize) -> &'static str {
    match (obligors[row - 1], obligors[row]) {
        (_, 0) => "empty",
        (0, _) => "behind an empty one",
        _ => "occupied, as the one before",
    }
}

fn rises(rates: &[u64]) -> &'static str {
    let rises = rates.windows(2).filter(|two| two[0] < two[1]).count();
    match rises {
        _ if rates.len() == 1 => "a single one",
        0 => "all equal",
        _ if rises == rates.len() - 1 => "a rise in every row",
        _ => "rises and equal neighbours",
    }
}
