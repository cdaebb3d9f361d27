//! The scene "book cut wrong": each of R-2's three faults alone, and each two of them in both
//! orders, at the first, a middle and the last table.

use crate::book::{MAX_RATERS, ROW_BYTES};
use crate::cuts::{
    count_past_end, count_past_short_end, cut_rows, leave_bytes, leave_few, leave_over, leave_rows,
    missing_bytes, misstate_offset, run_past_end, start_elsewhere, start_elsewhere_whole,
};
use crate::draft::{any_tables, Draft};
use crate::generate::Generator;
use crate::random::Random;
use std::fmt;

/// In the order of their numbers: 31, 32, 33.
#[derive(Clone, Copy, Debug, PartialEq, Eq, PartialOrd, Ord)]
pub enum Fault {
    StartsElsewhere,
    RunsPastEnd,
    BytesFollow,
}

/// At which table. A book's only table is its first and its last.
#[derive(Clone, Copy, Debug, PartialEq, Eq, PartialOrd, Ord)]
pub enum At {
    First,
    Middle,
    Last,
    /// Where the fault before is.
    Same,
    /// Behind the fault before.
    Later,
}

/// How a book is cut wrong: a fault, and a second one if there are two. Bytes that follow are at
/// the last table.
#[derive(Clone, Copy, Debug, PartialEq, Eq, PartialOrd, Ord)]
pub struct Cut {
    pub fault: (Fault, At),
    pub then: Option<(Fault, At)>,
}

const TABLES: [At; 3] = [At::First, At::Middle, At::Last];

pub(crate) fn every_cut() -> Vec<Cut> {
    let mut faults = vec![(Fault::BytesFollow, At::Last)];
    for at in TABLES {
        faults.extend([(Fault::StartsElsewhere, at), (Fault::RunsPastEnd, at)]);
    }
    let mut cuts = Vec::new();
    for fault in faults {
        cuts.push(Cut { fault, then: None });
        cuts.extend(second_faults(fault).into_iter().map(|then| Cut {
            fault,
            then: Some(then),
        }));
    }
    cuts
}

/// What can be wrong besides, at this table or behind it. Nothing stands behind bytes that follow
/// the last table: there the second fault comes to a book that has them.
fn second_faults((fault, at): (Fault, At)) -> Vec<(Fault, At)> {
    let other = match fault {
        Fault::StartsElsewhere => Fault::RunsPastEnd,
        Fault::RunsPastEnd => Fault::StartsElsewhere,
        Fault::BytesFollow => {
            let faults = [Fault::StartsElsewhere, Fault::RunsPastEnd];
            let at_each = |fault| TABLES.map(|at| (fault, at));
            return faults.into_iter().flat_map(at_each).collect();
        }
    };
    let mut faults = vec![(Fault::BytesFollow, At::Last), (other, At::Same)];
    if at != At::Last {
        faults.push((other, At::Later));
    }
    faults
}

impl fmt::Display for Fault {
    fn fmt(&self, out: &mut fmt::Formatter) -> fmt::Result {
        out.write_str(match self {
            Fault::StartsElsewhere => "a table starts elsewhere",
            Fault::RunsPastEnd => "a table runs past the end",
            Fault::BytesFollow => "bytes follow",
        })
    }
}

impl fmt::Display for At {
    fn fmt(&self, out: &mut fmt::Formatter) -> fmt::Result {
        out.write_str(match self {
            At::First => "first",
            At::Middle => "middle",
            At::Last => "last",
            At::Same => "same",
            At::Later => "later",
        })
    }
}

/// Three cells of the tally.
impl fmt::Display for Cut {
    fn fmt(&self, out: &mut fmt::Formatter) -> fmt::Result {
        let (fault, at) = self.fault;
        match self.then {
            None => write!(out, "{fault} | {at} | none"),
            Some((Fault::BytesFollow, _)) => write!(out, "{fault} | {at} | bytes follow"),
            Some((then, later)) => write!(out, "{fault} | {at} | {then}: {later}"),
        }
    }
}

impl At {
    fn fewest_raters(self) -> usize {
        match self {
            At::First | At::Last | At::Same => 1,
            At::Later => 2,
            At::Middle => 3,
        }
    }

    /// The index of the table; `before` is that of the fault before.
    fn index(self, random: &mut Random, raters: usize, before: usize) -> usize {
        match self {
            At::First => 0,
            At::Middle => 1 + random.index(raters - 2),
            At::Last => raters - 1,
            At::Same => before,
            At::Later => before + 1 + random.index(raters - 1 - before),
        }
    }
}

impl Cut {
    /// A sound book with a table for each fault.
    fn sound_book(self, random: &mut Random) -> Draft {
        let mut fewest = self.fault.1.fewest_raters();
        if let Some((_, at)) = self.then {
            fewest = fewest.max(at.fewest_raters());
        }
        let few = 1 + random.index(2);
        let many = 4 + random.index(MAX_RATERS - 3);
        let raters = random.weighted(&[(1, few), (4, 3), (2, many), (1, MAX_RATERS)]);
        let raters = raters.max(fewest);
        if self.fault.0 == Fault::BytesFollow && self.then_is(Fault::RunsPastEnd) {
            return Draft::short(random, raters);
        }
        let most_grades = random.pick(&[1, 2, 2, 5, 40]);
        let tables = any_tables(random, raters, most_grades);
        Draft::of_tables(random, &tables, 1)
    }

    fn then_is(self, fault: Fault) -> bool {
        self.then.is_some_and(|then| then.0 == fault)
    }

    fn damage(self, random: &mut Random, draft: &mut Draft) {
        let index = self.fault.1.index(random, draft.raters(), 0);
        self.damage_first(random, draft, index);
        if let Some((_, at)) = self.then {
            let later = at.index(random, draft.raters(), index);
            self.damage_besides(random, draft, index, later);
        }
    }

    /// The second fault. The first one stays, save that bytes behind a table that runs past the end
    /// may be those that it lacks.
    fn damage_besides(self, random: &mut Random, draft: &mut Draft, index: usize, later: usize) {
        let Some((then, _)) = self.then else {
            return;
        };
        match (self.fault.0, then) {
            (_, Fault::StartsElsewhere) => misstate_offset(random, draft, later),
            (Fault::BytesFollow, _) => count_past_short_end(random, draft, later),
            (_, Fault::RunsPastEnd) => run_past_end(random, draft, later),
            (Fault::RunsPastEnd, _) => leave_about_enough(random, draft, index),
            (Fault::StartsElsewhere, _) => leave_over(random, draft),
        }
    }

    fn damage_first(self, random: &mut Random, draft: &mut Draft, index: usize) {
        let alone = self.then.is_none();
        let with_bytes = self.then_is(Fault::BytesFollow);
        let with_end = self.then_is(Fault::RunsPastEnd);
        match self.fault.0 {
            Fault::StartsElsewhere if with_end => start_elsewhere_whole(random, draft, index),
            Fault::StartsElsewhere => start_elsewhere(random, draft, index),
            // A header that is cut would be made up from those bytes.
            Fault::RunsPastEnd if with_bytes && random.chance(70) => {
                count_past_end(random, draft, index);
            }
            Fault::RunsPastEnd if with_bytes => cut_rows(random, draft, index),
            Fault::RunsPastEnd => run_past_end(random, draft, index),
            Fault::BytesFollow if alone && random.chance(30) => leave_rows(random, draft),
            Fault::BytesFollow if with_end => leave_few(random, draft),
            Fault::BytesFollow => leave_over(random, draft),
        }
    }
}

/// Bytes behind the book, about as many as this table lacks: with enough of them it ends in the
/// book after all.
fn leave_about_enough(random: &mut Random, draft: &mut Draft, index: usize) {
    let missing = missing_bytes(draft, index);
    let one_less = missing.saturating_sub(1);
    let count = random.pick(&[1, one_less, missing, missing + 1, missing + ROW_BYTES]);
    leave_bytes(random, draft, count.max(1));
}

impl Generator {
    /// The layout is the book's: it is refused alike whichever rater is loaded.
    pub(crate) fn book_cut_wrong(&mut self) {
        let cut = self.next_cut();
        let mut draft = cut.sound_book(&mut self.random);
        cut.damage(&mut self.random, &mut draft);
        self.list_now_and_then(&draft.bytes);
        let place = self.random.pick(&[1, 2]);
        let raters: Vec<u32> = (1..).take(draft.raters()).collect();
        let loaded = match raters.as_slice() {
            [first, between @ .., last] if !between.is_empty() => {
                vec![*first, self.random.pick(between), *last]
            }
            few => few.to_vec(),
        };
        for rater in loaded {
            self.empty(place);
            draft.rater = rater;
            self.load_cut(place, draft.clone(), cut);
        }
    }
}

#[cfg(test)]
mod tests {
    use super::*;
    use crate::book::{self, HEAD_BYTES, TABLE_HEAD_BYTES};
    use crate::cuts::stated_end;
    use crate::table::Refusal;

    /// Of the tables as they truly stand, whatever the offsets say.
    fn is_there(fault: Fault, draft: &Draft, index: usize) -> bool {
        let length = draft.bytes.len();
        let end_before = match index {
            0 => HEAD_BYTES + 2 * draft.raters(),
            _ => stated_end(draft, index - 1),
        };
        match fault {
            Fault::StartsElsewhere => draft.stated_start(index) != end_before,
            Fault::RunsPastEnd => {
                let no_header = draft.start(index) + TABLE_HEAD_BYTES > length;
                no_header || missing_bytes(draft, index) > 0
            }
            Fault::BytesFollow => draft.end(draft.raters() - 1) < length,
        }
    }

    fn number(fault: Fault) -> Refusal {
        match fault {
            Fault::StartsElsewhere => 31,
            Fault::RunsPastEnd => 32,
            Fault::BytesFollow => 33,
        }
    }

    /// Which of the two load comes to first.
    fn found_first(fault: Fault, then: Fault, at: At) -> Fault {
        match at {
            At::Later => fault,
            _ => fault.min(then),
        }
    }

    /// Bytes behind a table that runs past the end may be what it lacks.
    fn may_mend(cut: Cut) -> bool {
        cut.fault.0 == Fault::RunsPastEnd && cut.then_is(Fault::BytesFollow)
    }

    #[test]
    fn both_faults_are_there_and_load_finds_the_first() {
        for cut in every_cut().into_iter().filter(|&cut| !may_mend(cut)) {
            for seed in 0..300 {
                let random = &mut Random::of_seed(seed);
                let mut draft = cut.sound_book(random);
                let index = cut.fault.1.index(random, draft.raters(), 0);
                cut.damage_first(random, &mut draft, index);
                let mut found = cut.fault.0;
                if let Some((then, at)) = cut.then {
                    let later = at.index(random, draft.raters(), index);
                    cut.damage_besides(random, &mut draft, index, later);
                    assert!(is_there(then, &draft, later), "{cut}, {seed}");
                    found = found_first(found, then, at);
                    // Alone, bytes may follow as rows that the last table does not count.
                    assert!(is_there(cut.fault.0, &draft, index), "{cut}, {seed}");
                }
                for rater in (1..).take(draft.raters()) {
                    let read = book::read(&draft.bytes, rater).err();
                    assert_eq!(read, Some(number(found)), "{cut}, {seed}");
                }
            }
        }
    }

    #[test]
    fn bytes_behind_a_table_past_the_end_are_too_few_or_enough() {
        for cut in every_cut().into_iter().filter(|&cut| may_mend(cut)) {
            let (mut too_few, mut enough) = (0, 0);
            for seed in 0..300 {
                let random = &mut Random::of_seed(seed);
                let mut draft = cut.sound_book(random);
                let index = cut.fault.1.index(random, draft.raters(), 0);
                cut.damage_first(random, &mut draft, index);
                assert!(is_there(Fault::RunsPastEnd, &draft, index), "{cut}, {seed}");
                let (length, missing) = (draft.bytes.len(), missing_bytes(&draft, index));
                cut.damage_besides(random, &mut draft, index, index);
                let more = draft.bytes.len() - length;
                assert!(more > 0, "{cut}, {seed}");
                let still = is_there(Fault::RunsPastEnd, &draft, index);
                assert_eq!(still, more < missing, "{cut}, {seed}");
                too_few += usize::from(still);
                enough += usize::from(!still);
            }
            assert!(too_few > 50 && enough > 50, "{cut}: {too_few}, {enough}");
        }
    }
}
