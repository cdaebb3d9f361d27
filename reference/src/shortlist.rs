//! The shortlist of a whole book, request R-7 of document 02: "List the raters for which no other
//! rater of the book is better, in book order, as numbers of 4 bytes each into a lent buffer whose
//! further numbers are kept, and return how many".

use crate::book;
use crate::cutoff::{verdict, Verdict};
use crate::table::{check_outcomes, check_same_totals, Refusal, Table};

/// "better means at least as good, and not the reverse." Document 01: "Equal and First call the
/// first at least as good; Equal and Second the second."
pub fn is_better(one: &Table, other: &Table) -> bool {
    let verdict = verdict(one, other);
    let at_least_as_good = matches!(verdict, Verdict::Equal | Verdict::First(_));
    let reverse = matches!(verdict, Verdict::Equal | Verdict::Second(_));
    at_least_as_good && !reverse
}

/// The raters of tables with the same D and S for which no other one is better, counted from 1.
pub fn listed(tables: &[Table]) -> Vec<u32> {
    let is_beaten = |index: usize| {
        let mut others = (0..tables.len()).filter(|&other| other != index);
        others.any(|other| is_better(&tables[other], &tables[index]))
    };
    let indices = (0..tables.len()).filter(|&index| !is_beaten(index));
    indices.map(|index| index as u32 + 1).collect()
}

/// The book, "Then 23 is tested over all raters, then 24 over all, then 25 between any two, then 13
/// for a buffer shorter than R."
pub fn shortlist(book: &[u8], lent: &mut [u32]) -> Result<usize, Refusal> {
    let tables = book::read_all(book)?;
    let all: Vec<&Table> = tables.iter().collect();
    check_outcomes(&all)?;
    check_same_totals(&all)?;
    if lent.len() < tables.len() {
        return Err(13);
    }
    let listed = listed(&tables);
    lent[..listed.len()].copy_from_slice(&listed);
    Ok(listed.len())
}
