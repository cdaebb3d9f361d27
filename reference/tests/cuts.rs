//! R-2: "A table that starts elsewhere than where the last one ended now gives 31. A table that
//! runs past the end, in header or rows, gives 32. Bytes after the last table give 33." Each
//! fault alone and each two together, at each table, with what load tries before, between and
//! after; the numbers are worked out by hand.

use reference::book;
use reference::cuts;
use reference::desk::Desk;
use reference::draft::Draft;
use reference::population::any_table;
use reference::random::Random;

/// Three raters. The offsets stand at 4, 6, 8; the tables at 10 to 26, 26 to 54, 54 to 82.
const BOOK: [u8; 82] = [
    3, 0, 82, 0, 10, 0, 26, 0, 54, 0, //
    1, 0, 0, 0, //
    5, 0, 0, 0, 1, 0, 0, 0, 10, 0, 0, 0, //
    2, 1, 0, 0, //
    3, 0, 0, 0, 1, 0, 0, 0, 20, 0, 0, 0, //
    2, 0, 0, 0, 2, 0, 0, 0, 30, 0, 0, 0, //
    2, 0, 0, 0, //
    9, 0, 0, 0, 4, 0, 0, 0, 40, 0, 0, 0, //
    8, 0, 0, 0, 6, 0, 0, 0, 50, 0, 0, 0, //
];
const STARTS: [usize; 3] = [10, 26, 54];

#[derive(Clone, Debug)]
enum Change {
    /// Bytes laid over those at this place.
    Put(usize, Vec<u8>),
    /// Cut to this length, which is restated, as after the following ones.
    Cut(usize),
    /// So many bytes behind the book, of this value.
    Append(usize, u8),
    Insert(usize, Vec<u8>),
    /// From here to before there.
    Remove(usize, usize),
}

use Change::{Append, Cut, Insert, Put, Remove};

/// An offset of a table, 1 to 3.
fn start(table: usize, offset: u16) -> Change {
    Put(2 + 2 * table, offset.to_le_bytes().to_vec())
}

/// A grade count of a table, 1 to 3.
fn count(table: usize, grades: u8) -> Change {
    Put(STARTS[table - 1], vec![grades])
}

/// A kind of a table, 1 to 3.
fn kind(table: usize, kind: u8) -> Change {
    Put(STARTS[table - 1] + 1, vec![kind])
}

fn changed(book: &[u8], changes: &[Change]) -> Vec<u8> {
    let mut book = book.to_vec();
    for change in changes {
        match change {
            Put(at, bytes) => book[*at..at + bytes.len()].copy_from_slice(bytes),
            Cut(length) => book.truncate(*length),
            Append(count, byte) => book.extend(vec![*byte; *count]),
            Insert(at, bytes) => drop(book.splice(at..at, bytes.iter().copied())),
            Remove(from, to) => drop(book.drain(from..to)),
        }
        if !matches!(change, Put(..)) {
            let length = u16::try_from(book.len()).expect("a short book");
            book[2..4].copy_from_slice(&length.to_le_bytes());
        }
    }
    book
}

/// The refusal number of a load by a fresh desk, 0 if it is accepted. A refused load changes
/// nothing.
fn load(book: &[u8], rater: u32) -> u32 {
    let mut desk = Desk::fresh();
    let answer = desk.load(1, rater, book);
    assert_eq!(desk == Desk::fresh(), answer.is_err());
    answer.err().unwrap_or(0)
}

/// Whichever of its three raters is loaded, the changed book leads to this number.
fn refused(number: u32, changes: &[Change]) {
    let book = changed(&BOOK, changes);
    let found = [1, 2, 3].map(|rater| load(&book, rater));
    assert_eq!(found, [number; 3], "{changes:?}");
}

#[test]
fn the_book_itself_is_sound() {
    refused(0, &[]);
}

#[test]
fn a_wrong_offset_is_31() {
    for offset in [0, 9, 11, 22, 26, 54, 82, 266, 2_560, 65_535] {
        refused(31, &[start(1, offset)]);
    }
    for offset in [0, 10, 14, 25, 27, 38, 54, 82, 282, 6_656, 65_535] {
        refused(31, &[start(2, offset)]);
    }
    for offset in [0, 10, 26, 42, 53, 55, 66, 82, 310, 13_824, 65_535] {
        refused(31, &[start(3, offset)]);
    }
}

#[test]
fn a_wrong_grade_count_is_31_32_or_33() {
    // Table 1 ends at 14 + 12 * count, and 2 starts at 26.
    for grades in 2..=5 {
        refused(31, &[count(1, grades)]);
    }
    for grades in [6, 7, 40] {
        refused(32, &[count(1, grades)]);
    }
    // Table 2 ends at 30 + 12 * count, and 3 starts at 54.
    for grades in [1, 3, 4] {
        refused(31, &[count(2, grades)]);
    }
    for grades in [5, 6, 40] {
        refused(32, &[count(2, grades)]);
    }
    // Table 3 ends at 58 + 12 * count, and the book at 82.
    refused(33, &[count(3, 1)]);
    for grades in [3, 4, 40] {
        refused(32, &[count(3, grades)]);
    }
}

#[test]
fn bytes_between_tables_with_true_offsets_are_31() {
    for gap in [1, 4, 12, 16] {
        let moved = |start: u16| start + u16::try_from(gap).expect("a small gap");
        let bytes = vec![1; gap];
        let before_1 = Insert(10, bytes.clone());
        let all = [
            start(1, moved(10)),
            start(2, moved(26)),
            start(3, moved(54)),
        ];
        refused(31, &[&[before_1][..], &all[..]].concat());
        let before_2 = Insert(26, bytes.clone());
        refused(31, &[before_2, all[1].clone(), all[2].clone()]);
        refused(31, &[Insert(54, bytes), all[2].clone()]);
    }
    // The last bytes of the table before are lost.
    refused(31, &[Remove(25, 26), start(2, 25), start(3, 53)]);
    refused(31, &[Remove(42, 54), start(3, 42)]);
}

/// With the offsets as they were, what stands there now is read as the table.
#[test]
fn bytes_between_tables_with_old_offsets() {
    refused(6, &[Insert(26, vec![0; 4])]);
    // Kind and zero bytes of table 2, then its first column, for a header.
    refused(7, &[Remove(25, 26)]);
    // A table of 1 grade before the second, and before the third.
    let pasted = BOOK[10..26].to_vec();
    refused(31, &[Insert(26, pasted.clone())]);
    refused(33, &[Insert(54, pasted)]);
    // The second once more: it is read for the third, which is left over.
    refused(33, &[Insert(26, BOOK[26..54].to_vec())]);
    // A table lost: the second in the place of the first, the third in that of the second.
    refused(31, &[Remove(10, 26)]);
    refused(32, &[Remove(26, 54)]);
    refused(32, &[Remove(54, 82)]);
    // A grade lost or added, and counted.
    refused(31, &[Remove(42, 54), count(2, 1)]);
    refused(31, &[Insert(26, vec![1; 12]), count(1, 2)]);
}

#[test]
fn a_book_that_ends_in_a_table_is_32() {
    // At the start of each table, in its header, behind it, in its rows, a byte before its end.
    for length in [10, 11, 13, 14, 15, 25] {
        refused(32, &[Cut(length)]);
    }
    for length in [26, 27, 29, 30, 31, 42, 53] {
        refused(32, &[Cut(length)]);
    }
    for length in [54, 55, 57, 58, 59, 70, 81] {
        refused(32, &[Cut(length)]);
    }
}

#[test]
fn bytes_after_the_last_table_are_33() {
    for byte in [0, 1, 255] {
        for bytes in [1, 2, 4, 11, 12, 13, 16, 174, 10_000] {
            refused(33, &[Append(bytes, byte)]);
        }
    }
    for pasted in [&BOOK[10..26], &BOOK[54..], &BOOK[..]] {
        refused(33, &[Insert(82, pasted.to_vec())]);
    }
}

#[test]
fn a_wrong_start_before_a_table_past_the_end_is_31() {
    for (table, wrong) in [(1, 9), (1, 65_535), (2, 0), (2, 27), (3, 53), (3, 82)] {
        let first = STARTS[table - 1];
        // At the same table and at later ones, down to the last byte.
        for length in first..82 {
            refused(31, &[start(table, wrong), Cut(length)]);
            refused(31, &[Cut(length), start(table, wrong)]);
        }
        for later in table..=3 {
            refused(31, &[start(table, wrong), count(later, 40)]);
        }
    }
    // Table 1 counts 3 grades and ends at 50: in a book of 50 bytes 2 starts elsewhere.
    refused(31, &[count(1, 3), Cut(50)]);
    refused(32, &[count(1, 3), Cut(49)]);
}

#[test]
fn a_table_past_the_end_before_a_wrong_start_is_32() {
    for (end, starts) in [(10..26, 2..=3), (26..54, 3..=3)] {
        for length in end {
            for table in starts.clone() {
                for wrong in [0, 9, 55, 65_535] {
                    refused(32, &[Cut(length), start(table, wrong)]);
                }
            }
        }
    }
    refused(32, &[count(1, 6), start(2, 25)]);
    refused(32, &[count(1, 40), start(3, 53)]);
    refused(32, &[count(2, 5), start(3, 55)]);
}

#[test]
fn a_wrong_start_and_bytes_after_the_last_table_are_31() {
    for bytes in [1, 12, 16] {
        for table in 1..=3 {
            for wrong in [0, 9, 55, 82, 65_535] {
                refused(31, &[start(table, wrong), Append(bytes, 0)]);
            }
        }
        refused(31, &[count(1, 2), Append(bytes, 0)]);
        refused(31, &[count(2, 1), Append(bytes, 0)]);
    }
    // The last table is said to be the one pasted behind it.
    refused(31, &[Insert(82, BOOK[54..].to_vec()), start(3, 82)]);
}

#[test]
fn bytes_behind_a_table_past_the_end() {
    // With 6, 5, 3 grades the tables would end at 86, 90, 94: the book lacks 4, 8, 12 bytes.
    for (table, grades, missing) in [(1, 6, 4), (2, 5, 8), (3, 3, 12)] {
        for bytes in 1..missing {
            refused(32, &[count(table, grades), Append(bytes, 1)]);
            refused(32, &[Append(bytes, 1), count(table, grades)]);
        }
        let number = if table == 3 { 33 } else { 31 };
        for bytes in [missing + 1, missing + 16] {
            refused(number, &[count(table, grades), Append(bytes, 1)]);
        }
    }
    refused(31, &[count(1, 6), Append(4, 1)]);
    refused(31, &[count(2, 5), Append(8, 1)]);
    // The third table has a further row: a default of nobody is 8 for its own rater alone, a rate
    // of 0 behind one of 50 is 34 by R-5, and a grade with nobody in it is no fault by R-4.
    let book = changed(&BOOK, &[count(3, 3), Append(12, 0), Put(86, vec![1])]);
    assert_eq!([1, 2, 3].map(|rater| load(&book, rater)), [0, 0, 8]);
    let book = changed(&BOOK, &[count(3, 3), Append(12, 0)]);
    assert_eq!([1, 2, 3].map(|rater| load(&book, rater)), [0, 0, 34]);
    refused(0, &[count(3, 3), Append(12, 0), Put(90, vec![50])]);
    // The last row is cut away and other bytes follow.
    refused(32, &[Cut(70), Append(11, 0)]);
    refused(33, &[Cut(70), Append(13, 0)]);
}

#[test]
fn all_three_faults() {
    refused(31, &[start(2, 25), count(3, 40), Append(1, 0)]);
    refused(31, &[start(3, 82), count(3, 40), Append(1, 0)]);
    refused(32, &[count(1, 40), start(2, 25), Append(1, 0)]);
    refused(32, &[count(2, 40), start(3, 53), Append(16, 0)]);
}

/// Table by table: start, header, 6, 7, rows.
#[test]
fn six_and_seven_stand_between_header_and_rows() {
    for table in 1..=3 {
        let (first, rows) = (STARTS[table - 1], STARTS[table - 1] + 4);
        for (number, fault) in [
            (6, count(table, 0)),
            (6, count(table, 41)),
            (7, kind(table, 2)),
        ] {
            refused(number, std::slice::from_ref(&fault));
            refused(31, &[start(table, 9), fault.clone()]);
            for length in first + 2..rows {
                refused(32, &[fault.clone(), Cut(length)]);
            }
            refused(number, &[fault.clone(), Cut(rows)]);
            refused(number, &[fault.clone(), Cut(rows + 1)]);
            refused(number, &[fault.clone(), Append(1, 0)]);
            refused(31, &[start(table, 9), fault.clone(), Append(1, 0)]);
            for later in table + 1..=3 {
                refused(number, &[fault.clone(), start(later, 9)]);
                refused(number, &[fault.clone(), count(later, 40)]);
                refused(number, &[fault.clone(), Cut(STARTS[later - 1] + 2)]);
                refused(31, &[start(table, 9), count(later, 0)]);
                refused(31, &[start(table, 9), kind(later, 2)]);
                refused(32, &[count(table, 40), count(later, 0)]);
                refused(32, &[count(table, 40), kind(later, 2)]);
            }
        }
        refused(7, &[count(table, 40), kind(table, 2)]);
        refused(7, &[count(table, 40), Put(first + 2, vec![1])]);
        refused(7, &[count(table, 40), Put(first + 3, vec![1])]);
        refused(6, &[count(table, 255), kind(table, 2)]);
    }
}

#[test]
fn two_three_and_four_stand_before() {
    for cut in [
        start(1, 9),
        start(3, 9),
        Cut(10),
        Cut(81),
        count(2, 40),
        Append(1, 0),
    ] {
        let book = changed(&BOOK, &[cut]);
        assert_eq!([0, 4, u32::MAX].map(|rater| load(&book, rater)), [4; 3]);
        let length = Put(2, vec![83, 1]);
        for (number, fault) in [(2, length), (3, Put(0, vec![0])), (3, Put(0, vec![17]))] {
            let book = changed(&book, &[fault]);
            assert_eq!([0, 1, 4].map(|rater| load(&book, rater)), [number; 3]);
        }
        let mut desk = Desk::fresh();
        assert_eq!(desk.load(0, 1, &book), Err(1));
        assert_eq!(desk.load(2, 1, &BOOK), Ok(()));
        assert_eq!(desk.load(2, 1, &book), Err(21));
    }
    for length in 4..10 {
        refused(3, &[Cut(length)]);
    }
}

/// With other numbers of raters the first table would stand at 6, 8 or 12.
#[test]
fn a_wrong_number_of_raters_is_31() {
    for raters in [1, 2, 4] {
        let book = changed(&BOOK, &[Put(0, vec![raters])]);
        for rater in 1..=raters {
            assert_eq!(load(&book, rater.into()), 31);
        }
    }
}

#[test]
fn rows_come_after_the_whole_layout() {
    // In the first row of each table: first column, defaults, announced rate.
    let columns = |table: usize| [0, 4, 8].map(|column| STARTS[table - 1] + 4 + column);
    for (table, grades) in [(1, 1), (3, 2)] {
        let [first, defaults, announced] = columns(table);
        let faults = [
            (8, vec![Put(defaults, vec![10])]),
            (9, vec![Put(first, vec![0; 12 * grades])]),
            (10, vec![Put(announced, vec![0x41, 0x42, 0x0f])]),
            (11, vec![Put(first, vec![0x41, 0x42, 0x0f])]),
        ];
        // Behind a rate of 51 that of the second row is a fall.
        let fall = (grades == 2).then(|| (34, vec![Put(announced, vec![51])]));
        for (number, fault) in faults.into_iter().chain(fall) {
            let book = changed(&BOOK, &fault);
            let mut expected = [0; 3];
            expected[table - 1] = number;
            assert_eq!([1, 2, 3].map(|rater| load(&book, rater)), expected);
            let with = |cut: Change| [fault.clone(), vec![cut]].concat();
            refused(31, &with(start(1, 9)));
            refused(31, &with(start(3, 53)));
            refused(32, &with(Cut(81)));
            refused(32, &with(count(3, 3)));
            refused(33, &with(count(3, 1)));
            refused(33, &with(Append(1, 0)));
        }
    }
}

#[test]
fn a_book_of_one_rater() {
    // The table stands at 6 and ends at 22.
    let book: Vec<u8> = [&[1, 0, 22, 0, 6, 0][..], &BOOK[10..26]].concat();
    assert_eq!(load(&book, 1), 0);
    let refused = |number, changes: &[Change]| {
        assert_eq!(load(&changed(&book, changes), 1), number, "{changes:?}");
    };
    for offset in [0, 5, 7, 18, 22, 255] {
        refused(31, &[Put(4, vec![offset])]);
        refused(31, &[Put(4, vec![offset]), Cut(21)]);
        refused(31, &[Put(4, vec![offset]), Append(1, 0)]);
    }
    for length in 6..22 {
        refused(32, &[Cut(length)]);
    }
    for grades in 2..=40 {
        refused(32, &[Put(6, vec![grades])]);
    }
    refused(33, &[Append(1, 0)]);
    refused(32, &[Put(6, vec![2]), Append(11, 0)]);
    refused(34, &[Put(6, vec![2]), Append(12, 0)]);
    refused(0, &[Put(6, vec![2]), Append(12, 0), Put(30, vec![10])]);
    refused(9, &[Put(6, vec![2]), Put(10, vec![0; 12]), Append(12, 0)]);
    refused(33, &[Put(6, vec![2]), Append(13, 0)]);
}

/// The tables of one grade stand at 36, 52, .., 276; the book ends at 292.
#[test]
fn a_book_of_sixteen_raters() {
    let mut book = vec![16, 0, 36, 1];
    for start in (36..292).step_by(16) {
        book.extend(u16::try_from(start).expect("a short book").to_le_bytes());
    }
    for _ in 0..16 {
        book.extend(&BOOK[10..26]);
    }
    let refused = |number, changes: &[Change]| {
        let book = changed(&book, changes);
        let found = [1, 2, 8, 15, 16].map(|rater| load(&book, rater));
        assert_eq!(found, [number; 5], "{changes:?}");
    };
    refused(0, &[]);
    refused(33, &[Append(1, 0)]);
    for index in 0..16 {
        let (start, low) = (36 + 16 * index, book[4 + 2 * index]);
        for wrong in [low.wrapping_sub(1), low.wrapping_add(1)] {
            refused(31, &[Put(4 + 2 * index, vec![wrong])]);
            refused(31, &[Put(4 + 2 * index, vec![wrong]), Cut(start + 3)]);
            refused(31, &[Put(4 + 2 * index, vec![wrong]), Append(1, 0)]);
        }
        for cut in [0, 3, 4, 15] {
            refused(32, &[Cut(start + cut)]);
        }
        refused(32, &[Put(start, vec![40])]);
        refused(if index < 15 { 31 } else { 32 }, &[Put(start, vec![2])]);
    }
}

type CutAt = fn(&mut Random, &mut Draft, usize);

/// What the generator does at a table leads to its number, whichever table it is.
#[test]
fn damage_at_each_table_leads_to_its_number() {
    let ways = [
        (31, cuts::start_elsewhere as CutAt),
        (31, cuts::misstate_offset),
        (32, cuts::run_past_end),
        (32, cuts::cut_header),
        (32, cuts::cut_rows),
        (32, cuts::count_past_end),
    ];
    for seed in 0..200 {
        let mut random = Random::of_seed(seed);
        let table = any_table(&mut random);
        let sound = Draft::around(&mut random, &table);
        for index in 0..sound.raters() {
            for (way, &(number, damage)) in ways.iter().enumerate() {
                let mut draft = sound.clone();
                damage(&mut random, &mut draft, index);
                let read = book::read(&draft.bytes, draft.rater);
                assert_eq!(read, Err(number), "seed {seed}, table {index}, way {way}");
            }
        }
    }
}
