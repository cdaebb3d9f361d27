//! How often one run exercises grades with nobody in them: where they stand in tables that are
//! pooled, and which tables of empty grades are loaded.

use crate::answer::Answer;
use crate::book;
use crate::desk::Desk;
use crate::empty_scene::{empty_runs, Stand, STANDS};
use crate::nearly_empty_scene::{every_rows, Rows};
use crate::script::Call;
use crate::tally::{comes_to_rows, loads_and_answers, Answers};
use std::collections::BTreeMap;

#[derive(Default)]
pub(crate) struct EmptyTally {
    /// Runs of empty grades in tables of accepted pools, by their length.
    runs: BTreeMap<(Stand, usize), usize>,
    rows: BTreeMap<Rows, Answers>,
    /// Loads that come to the rows, by how many grades are empty and by the kind of first column.
    loads: BTreeMap<(&'static str, &'static str), Answers>,
}

/// What a row of the tally says of the length of a run.
const LENGTHS: [(&str, usize, usize); 3] = [("1", 1, 1), ("2 to 5", 2, 5), ("6 and more", 6, 40)];

impl EmptyTally {
    /// The desk is the one that the call left.
    pub fn add(&mut self, desk: &Desk, call: &Call, answer: &Answer, rows: Option<Rows>) {
        let refusal = answer.refusal();
        if let Some(rows) = rows {
            *self
                .rows
                .entry(rows)
                .or_default()
                .entry(refusal)
                .or_default() += 1;
        }
        match call {
            Call::Pool { place, .. } if refusal.is_none() => {
                for run in desk
                    .table(*place)
                    .iter()
                    .flat_map(|table| empty_runs(table))
                {
                    *self.runs.entry(run).or_default() += 1;
                }
            }
            Call::Load { rater, book, .. } if comes_to_rows(refusal) => {
                let answers = self.loads.entry(load_kind(book, *rater)).or_default();
                *answers.entry(refusal).or_default() += 1;
            }
            _ => (),
        }
    }

    pub fn run_table(&self) -> String {
        let mut text =
            "| empty grades in pooled tables | in a row | times |\n| --- | --- | --- |\n"
                .to_string();
        for stand in STANDS {
            for (name, least, most) in LENGTHS {
                let runs = self.runs.range((stand, least)..=(stand, most));
                let times: usize = runs.map(|run| run.1).sum();
                text += &format!("| {stand} | {name} | {times} |\n");
            }
        }
        text
    }

    pub fn row_table(&self) -> String {
        let mut text =
            "| all grades empty, save for | loads | answers |\n| --- | --- | --- |\n".to_string();
        for rows in every_rows() {
            let (loads, answers) = loads_and_answers(self.rows.get(&rows));
            text += &format!("| {rows} | {loads} | {answers} |\n");
        }
        text
    }

    pub fn load_table(&self) -> String {
        let mut text = "\
            | grades of the table | first column | loads | answers |\n\
            | --- | --- | --- | --- |\n"
            .to_string();
        for ((empty, column), answers) in &self.loads {
            let (loads, answers) = loads_and_answers(Some(answers));
            text += &format!("| {empty} | {column} | {loads} | {answers} |\n");
        }
        text
    }
}

/// How many grades are empty, and the kind of first column.
fn load_kind(book: &[u8], rater: u32) -> (&'static str, &'static str) {
    let (kind, obligors) = book::obligors(book, rater);
    let occupied = obligors.iter().filter(|&&obligors| obligors > 0).count();
    let empty = match obligors.len() - occupied {
        0 => "none empty",
        _ if occupied == 0 => "all empty",
        _ if occupied == 1 => "all but one empty",
        _ => "some empty, several occupied",
    };
    let column = match kind {
        0 => "obligors",
        _ => "survivors",
    };
    (empty, column)
}
