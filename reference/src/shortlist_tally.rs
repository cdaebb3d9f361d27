//! How often one run exercises the shortlist: which cases of its scene, how many raters are listed
//! of how many, and which faults of books.

use crate::answer::Answer;
use crate::rivals::{every_rivals, Rivals};
use crate::script::Call;
use crate::shortlist_scene::{Fault, EVERY_STAGE, OF_A_RATER, OF_THE_BOOK};
use crate::table::Refusal;
use crate::tally::{answer_counts, Answers};
use std::collections::BTreeMap;
use std::fmt::Display;

#[derive(Default)]
pub(crate) struct ShortlistTally {
    cases: BTreeMap<Rivals, Listings>,
    /// Accepted calls, by the number of raters.
    raters: BTreeMap<usize, Listings>,
    faults: BTreeMap<Fault, Answers>,
}

/// How often one rater was listed, some or all; of a single one, all. Then how often the call was
/// refused.
type Listings = [usize; 4];

const LISTINGS: &str = "one listed | some | all";

/// What a row of the tally says of the number of raters.
const RATERS: [(&str, usize, usize); 5] = [
    ("1 rater", 1, 1),
    ("2 raters", 2, 2),
    ("3 to 5 raters", 3, 5),
    ("6 to 15 raters", 6, 15),
    ("16 raters", 16, 16),
];

impl ShortlistTally {
    pub fn add(
        &mut self,
        call: &Call,
        answer: &Answer,
        rivals: Option<Rivals>,
        fault: Option<Fault>,
    ) {
        let (Call::Shortlist { book, .. }, Answer::Shortlist(listed, _)) = (call, answer) else {
            return;
        };
        if let Some(fault) = fault {
            let answers = self.faults.entry(fault).or_default();
            *answers.entry(answer.refusal()).or_default() += 1;
        }
        let kind = match listed {
            Ok(listed) => {
                let raters = usize::from(book[0]);
                let kind = kind_of(*listed, raters);
                self.raters.entry(raters).or_default()[kind] += 1;
                kind
            }
            Err(_) => 3,
        };
        if let Some(rivals) = rivals {
            self.cases.entry(rivals).or_default()[kind] += 1;
        }
    }

    pub fn case_table(&self) -> String {
        let mut text = format!(
            "| raters of one book | calls | {LISTINGS} | refused |\n\
             | --- | --- | --- | --- | --- | --- |\n"
        );
        for case in every_rivals() {
            let times = self.cases.get(&case).copied().unwrap_or_default();
            text += &listing_row(case, &times);
        }
        text
    }

    pub fn rater_table(&self) -> String {
        let mut text = format!(
            "| book of | accepted calls | {LISTINGS} |\n\
             | --- | --- | --- | --- | --- |\n"
        );
        for (name, least, most) in RATERS {
            let alike: Vec<&Listings> = self.raters.range(least..=most).map(|r| r.1).collect();
            let sum = |kind: usize| alike.iter().map(|times| times[kind]).sum();
            text += &listing_row(name, &[sum(0), sum(1), sum(2)]);
        }
        text
    }

    pub fn single_table(&self) -> String {
        let head = "| fault of one rater | of the last | of another |";
        self.number_table(head, &OF_A_RATER, [Fault::InLast, Fault::BeforeLast])
    }

    pub fn book_table(&self) -> String {
        let head = "| fault of the book | alone | and of a rater |";
        self.number_table(head, &OF_THE_BOOK, [Fault::OfBook, Fault::OfBookAndRater])
    }

    /// A row for each number.
    fn number_table(
        &self,
        head: &str,
        numbers: &[Refusal],
        faults: [fn(Refusal) -> Fault; 2],
    ) -> String {
        let row = |&number: &Refusal| {
            let faults = faults.map(|fault| fault(number));
            self.fault_row(format!("number {number}"), &faults)
        };
        let rows: String = numbers.iter().map(row).collect();
        format!("{head}\n| --- | --- | --- |\n{rows}")
    }

    /// A row for the earlier rater's fault, a column for the later one's.
    pub fn pair_table(&self) -> String {
        let heads = EVERY_STAGE.map(|stage| stage.to_string()).join(" | ");
        let dashes = ["---"; EVERY_STAGE.len() + 1].join(" | ");
        let mut text = format!("| faults of two raters, then | {heads} |\n| {dashes} |\n");
        for one in EVERY_STAGE {
            let cells = EVERY_STAGE.map(|other| Fault::InTwo(one, other));
            text += &self.fault_row(one, &cells);
        }
        text
    }

    fn fault_row(&self, name: impl Display, faults: &[Fault]) -> String {
        let cell = |fault| self.faults.get(fault).map(answer_counts);
        let cells: Vec<String> = faults.iter().map(|f| cell(f).unwrap_or_default()).collect();
        format!("| {name} | {} |\n", cells.join(" | "))
    }
}

/// The column of so many listed of so many raters.
fn kind_of(listed: usize, raters: usize) -> usize {
    match listed {
        _ if listed == raters => 2,
        1 => 0,
        _ => 1,
    }
}

fn listing_row(name: impl Display, times: &[usize]) -> String {
    let calls: usize = times.iter().sum();
    let cells: Vec<String> = times.iter().map(usize::to_string).collect();
    format!("| {name} | {calls} | {} |\n", cells.join(" | "))
}
