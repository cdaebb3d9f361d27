//! The scene "two faults of a table": two faults of the layout at one table, at a table and the
//! next, or at a table and behind the last. The order of load's checks decides.

use crate::book::{MAX_RATERS, TABLE_HEAD_BYTES};
use crate::cuts::{count_past_short_end, cut_header_to, cut_rows, leave_few, misstate_offset};
use crate::damage::{COUNTS_ABOVE, COUNTS_OUTSIDE, ODD_KINDS, ODD_ZERO_BYTES};
use crate::draft::Draft;
use crate::generate::Generator;
use crate::random::Random;
use std::fmt;

/// In the order in which load comes to them at one table.
#[derive(Clone, Copy, Debug, PartialEq, Eq, PartialOrd, Ord)]
pub enum LayoutFault {
    StartsElsewhere,
    HeaderCut,
    CountOutside,
    OddKind,
    OddZeroBytes,
    RowsCut,
    /// A count of up to 40 grades that end behind the book.
    CountPastEnd,
    BytesFollow,
}

use LayoutFault::{
    BytesFollow, CountOutside, CountPastEnd, HeaderCut, OddKind, OddZeroBytes, RowsCut,
    StartsElsewhere,
};

const OF_A_TABLE: [LayoutFault; 7] = [
    StartsElsewhere,
    HeaderCut,
    CountOutside,
    OddKind,
    OddZeroBytes,
    RowsCut,
    CountPastEnd,
];

#[derive(Clone, Copy, Debug, PartialEq, Eq, PartialOrd, Ord)]
pub enum Where {
    OneTable,
    TableAndNext,
    TableAndBehindLast,
}

/// Two faults, of which load comes to the first one first.
#[derive(Clone, Copy, Debug, PartialEq, Eq, PartialOrd, Ord)]
pub struct FaultPair {
    pub stand: Where,
    pub first: LayoutFault,
    pub second: LayoutFault,
}

impl fmt::Display for Where {
    fn fmt(&self, out: &mut fmt::Formatter) -> fmt::Result {
        out.write_str(match self {
            Where::OneTable => "at one table",
            Where::TableAndNext => "at a table and the next",
            Where::TableAndBehindLast => "at a table and behind the last",
        })
    }
}

/// Every pair that can meet.
pub(crate) fn every_pair() -> Vec<FaultPair> {
    let mut pairs = Vec::new();
    for first in OF_A_TABLE {
        let mut add = |stand, second| {
            pairs.push(FaultPair {
                stand,
                first,
                second,
            });
        };
        for second in OF_A_TABLE {
            if first < second && meet_at_one_table(first, second) {
                add(Where::OneTable, second);
            }
            // Of tables behind a cut only the offsets are there.
            if first != second && (!first.cuts() || second == StartsElsewhere) {
                add(Where::TableAndNext, second);
            }
        }
        if !first.cuts() {
            add(Where::TableAndBehindLast, BytesFollow);
        }
    }
    pairs
}

/// A table runs past the end once: in its header, or in its rows by a cut or by their count.
fn meet_at_one_table(first: LayoutFault, second: LayoutFault) -> bool {
    let past_end = |fault| matches!(fault, HeaderCut | RowsCut | CountPastEnd);
    !(past_end(first) && past_end(second))
}

impl LayoutFault {
    fn cuts(self) -> bool {
        matches!(self, HeaderCut | RowsCut)
    }

    /// How many bytes of the header must be there for the fault to be seen.
    fn header_bytes(self) -> usize {
        match self {
            CountOutside => 1,
            OddKind => 2,
            OddZeroBytes => 3,
            _ => 0,
        }
    }

    /// Damages a short book at the table of this index. `besides` is wrong there too.
    fn damage(
        self,
        random: &mut Random,
        draft: &mut Draft,
        index: usize,
        besides: Option<LayoutFault>,
    ) {
        let start = draft.start(index);
        match self {
            StartsElsewhere => misstate_offset(random, draft, index),
            HeaderCut => {
                let fewest = besides.map_or(0, LayoutFault::header_bytes);
                let left = fewest + random.index(TABLE_HEAD_BYTES - fewest);
                cut_header_to(draft, index, left);
            }
            // 0 grades would end within the book.
            CountOutside if matches!(besides, Some(RowsCut | CountPastEnd)) => {
                draft.put(start, &[random.pick(&COUNTS_ABOVE)]);
            }
            CountOutside => draft.put(start, &[random.pick(&COUNTS_OUTSIDE)]),
            OddKind => draft.put(start + 1, &[random.pick(&ODD_KINDS)]),
            // Of the two zero bytes only one is left.
            OddZeroBytes if besides == Some(HeaderCut) => draft.put(start + 2, &[1]),
            OddZeroBytes => draft.put(start + 2, &random.pick(&ODD_ZERO_BYTES)),
            RowsCut => cut_rows(random, draft, index),
            // The count above 40 is one that ends behind the short book.
            CountPastEnd if besides == Some(CountOutside) => (),
            CountPastEnd => count_past_short_end(random, draft, index),
            BytesFollow => leave_few(random, draft),
        }
    }
}

impl FaultPair {
    /// A short book, and the index of the table with the first fault.
    fn sound_book(self, random: &mut Random) -> (Draft, usize) {
        let behind = usize::from(self.stand == Where::TableAndNext);
        let any = 1 + random.index(MAX_RATERS);
        let raters = random.weighted(&[(2, 1), (2, 3), (3, any), (1, MAX_RATERS)]);
        let draft = Draft::short(random, raters.max(1 + behind));
        let tables = draft.raters() - behind;
        let any = random.index(tables);
        let index = random.pick(&[0, any, tables - 1]);
        (draft, index)
    }

    fn damage(self, random: &mut Random, draft: &mut Draft, index: usize) {
        let FaultPair { first, second, .. } = self;
        match self.stand {
            Where::OneTable => {
                first.damage(random, draft, index, Some(second));
                second.damage(random, draft, index, Some(first));
            }
            Where::TableAndNext => {
                first.damage(random, draft, index, None);
                second.damage(random, draft, index + 1, None);
            }
            // A grade count past the end has to lie behind those bytes too.
            Where::TableAndBehindLast => {
                second.damage(random, draft, index, None);
                first.damage(random, draft, index, None);
            }
        }
    }
}

impl Generator {
    pub(crate) fn two_faults(&mut self) {
        for _ in 0..3 {
            let pair = self.next_pair();
            let (mut draft, index) = pair.sound_book(&mut self.random);
            pair.damage(&mut self.random, &mut draft, index);
            let raters: Vec<u32> = (1..).take(draft.raters()).collect();
            draft.rater = self.random.pick(&raters);
            self.list_now_and_then(&draft.bytes);
            let place = self.random.pick(&[1, 2]);
            self.empty(place);
            self.load_faulty(place, draft, pair);
        }
    }
}

#[cfg(test)]
mod tests {
    use super::*;
    use crate::book::{self, ROW_BYTES};
    use crate::table::{Refusal, MAX_GRADES};
    use std::collections::BTreeSet;

    fn number(fault: LayoutFault) -> Refusal {
        match fault {
            StartsElsewhere => 31,
            HeaderCut | RowsCut | CountPastEnd => 32,
            CountOutside => 6,
            OddKind | OddZeroBytes => 7,
            BytesFollow => 33,
        }
    }

    fn is_there(fault: LayoutFault, draft: &Draft, index: usize) -> bool {
        let (start, length) = (draft.start(index), draft.bytes.len());
        let byte = |at: usize| draft.bytes.get(start + at).map_or(0, |&byte| byte.into());
        let rows = start + TABLE_HEAD_BYTES;
        let rows_past_end = rows <= length && rows + ROW_BYTES * byte(0) > length;
        match fault {
            StartsElsewhere => draft.stated_start(index) != start,
            HeaderCut => rows > length,
            CountOutside => start < length && !(1..=MAX_GRADES).contains(&byte(0)),
            OddKind => byte(1) > 1,
            OddZeroBytes => byte(2) != 0 || byte(3) != 0,
            RowsCut => rows_past_end && draft.end(index) > length,
            CountPastEnd => rows_past_end && draft.end(index) <= length,
            BytesFollow => draft.end(draft.raters() - 1) < length,
        }
    }

    #[test]
    fn books_of_1_to_16_raters_are_wrong_at_the_first_a_middle_and_the_last_table() {
        for pair in every_pair() {
            let last = |raters: usize| match pair.stand {
                Where::TableAndNext => raters - 2,
                _ => raters - 1,
            };
            let mut seen = BTreeSet::new();
            for seed in 0..1_000 {
                let (draft, index) = pair.sound_book(&mut Random::of_seed(seed));
                let raters = draft.raters();
                seen.insert((raters, index == 0, index == last(raters)));
            }
            assert!(seen.contains(&(2, true, last(2) == 0)), "{pair:?}");
            for raters in 4..=MAX_RATERS {
                for at in [(true, false), (false, false), (false, true)] {
                    assert!(seen.contains(&(raters, at.0, at.1)), "{pair:?}, {raters}");
                }
            }
        }
    }

    #[test]
    fn both_faults_are_there_and_load_finds_the_first() {
        for pair in every_pair() {
            for seed in 0..300 {
                let random = &mut Random::of_seed(seed);
                let (mut draft, index) = pair.sound_book(random);
                pair.damage(random, &mut draft, index);
                let next = index + usize::from(pair.stand == Where::TableAndNext);
                assert!(is_there(pair.first, &draft, index), "{pair:?}, {seed}");
                assert!(is_there(pair.second, &draft, next), "{pair:?}, {seed}");
                for rater in (1..).take(draft.raters()) {
                    let read = book::read(&draft.bytes, rater).err();
                    assert_eq!(read, Some(number(pair.first)), "{pair:?}, {seed}");
                }
            }
        }
    }
}
