//! Where a book is cut wrong: which table, which byte, in words; and only where load says so.

use desk::{Desk, Refusal, Table, WrongCut, sys};

/// Tables of 2, 1 and 3 grades: from byte 10 to 38, from there to 54, and from there to 94.
const TABLES: [(usize, usize); 3] = [(10, 38), (38, 54), (54, 94)];

fn whole() -> Vec<u8> {
    let grades = |count| Table::by_survivors().grades(std::iter::repeat_n((5, 2, 400_000), count));
    let book = Table::book(&[2, 1, 3].map(grades)).expect("valid tables");
    assert_eq!(book.len(), 94);
    book
}

fn two_bytes(number: usize) -> [u8; 2] {
    u16::try_from(number).expect("two bytes").to_le_bytes()
}

/// A book with other bytes from a byte on.
fn with(mut book: Vec<u8>, byte: usize, bytes: &[u8]) -> Vec<u8> {
    book[byte..byte + bytes.len()].copy_from_slice(bytes);
    book
}

/// A book of another length, which it states; what is new is zero bytes.
fn resized(mut book: Vec<u8>, length: usize) -> Vec<u8> {
    book.resize(length, 0);
    with(book, 2, &two_bytes(length))
}

/// A book whose table of this rater is said to start elsewhere.
fn moved(book: Vec<u8>, rater: usize, start: usize) -> Vec<u8> {
    with(book, 2 + 2 * rater, &two_bytes(start))
}

/// The number that load of rater 1 into an empty place answers.
fn loaded(book: &[u8]) -> u32 {
    sys::load(&mut Desk::empty(), 1, book, 1)
}

/// Where a book is cut wrong, which is nowhere unless load answers 31, 32 or 33.
fn find(book: &[u8]) -> Option<WrongCut> {
    let cut = WrongCut::find(book);
    let number = loaded(book);
    let expected = (31..=33).contains(&number).then_some(number);
    let found = cut.map(|cut| cut.refusal().number());
    assert_eq!(found, expected, "{book:?}");
    cut
}

fn found(book: &[u8], cut: WrongCut, words: &str) {
    assert_eq!(find(book), Some(cut));
    assert_eq!(cut.to_string(), words);
}

#[test]
fn a_table_that_starts_elsewhere() {
    let last = [
        "the offsets end",
        "the table of rater 1 ends",
        "the table of rater 2 ends",
    ];
    for (rater, ((expected, _), last)) in (1..).zip(TABLES.into_iter().zip(last)) {
        for start in [0, expected - 1, expected + 1, expected + 12, 94, 65_535] {
            let byte = 2 + 2 * rater;
            let cut = WrongCut::Start {
                rater: u32::try_from(rater).expect("few raters"),
                byte,
                start,
                expected,
            };
            let words = format!(
                "byte {byte}: the table of rater {rater} is said to start at byte {start}; \
                 expected byte {expected}, where {last}"
            );
            found(&moved(whole(), rater, start), cut, &words);
        }
    }
}

#[test]
fn a_table_that_runs_past_the_end() {
    for (rater, (start, table_end)) in (1..).zip(TABLES) {
        for length in start..table_end {
            let (part_ends, end) = match length - start {
                0..4 => ("header ends", start + 4),
                _ => ("rows end", table_end),
            };
            let cut = WrongCut::End {
                rater,
                start,
                end,
                length,
            };
            let words = format!(
                "byte {start}: the table of rater {rater} starts here and its {part_ends} at byte {end}; \
                 the book ends at byte {length}, bytes missing: {}",
                end - length
            );
            found(&resized(whole(), length), cut, &words);
        }
    }
}

#[test]
fn bytes_after_the_last_table() {
    for bytes in [1, 2, 12, 16, 65_441] {
        let cut = WrongCut::Leftover {
            rater: 3,
            end: 94,
            bytes,
        };
        let words = format!(
            "byte 94: the table of rater 3, the last, ends here; bytes that follow it: {bytes}, expected none"
        );
        found(&resized(whole(), 94 + bytes), cut, &words);
    }
    let one = Table::book(&[Table::by_obligors().grade(5, 2, 0)]).expect("a valid table");
    found(
        &resized(one, 25),
        WrongCut::Leftover {
            rater: 1,
            end: 22,
            bytes: 3,
        },
        "byte 22: the table of rater 1, the last, ends here; bytes that follow it: 3, expected none",
    );
}

/// The words for a wrong count of grades are those for what it leads to.
#[test]
fn a_wrong_count_of_grades() {
    let said = |byte, grades| find(&with(whole(), byte, &[grades])).map(|cut| cut.to_string());
    let words = |words: &str| Some(words.to_string());
    assert_eq!(
        said(10, 1),
        words(
            "byte 6: the table of rater 2 is said to start at byte 38; expected byte 26, where the table of rater 1 ends"
        )
    );
    assert_eq!(
        said(38, 2),
        words(
            "byte 8: the table of rater 3 is said to start at byte 54; expected byte 66, where the table of rater 2 ends"
        )
    );
    assert_eq!(
        said(38, 40),
        words(
            "byte 38: the table of rater 2 starts here and its rows end at byte 522; the book ends at byte 94, bytes missing: 428"
        )
    );
    assert_eq!(
        said(54, 4),
        words(
            "byte 54: the table of rater 3 starts here and its rows end at byte 106; the book ends at byte 94, bytes missing: 12"
        )
    );
    assert_eq!(
        said(54, 2),
        words(
            "byte 82: the table of rater 3, the last, ends here; bytes that follow it: 12, expected none"
        )
    );
}

/// What comes before in the order of load.
#[test]
fn of_two_faults_the_first() {
    let starts = |book: &[u8]| match find(book) {
        Some(WrongCut::Start { rater, .. }) => rater,
        other => panic!("{other:?}"),
    };
    let ends = |book: &[u8]| match find(book) {
        Some(WrongCut::End { rater, end, .. }) => (rater, end),
        other => panic!("{other:?}"),
    };
    let one = moved(whole(), 1, 11);
    let two = moved(whole(), 2, 37);
    let three = moved(whole(), 3, 0);
    // a start before whatever comes later
    assert_eq!(starts(&moved(one.clone(), 2, 37)), 1);
    assert_eq!(starts(&moved(two.clone(), 3, 0)), 2);
    assert_eq!(starts(&resized(one.clone(), 10)), 1);
    assert_eq!(starts(&resized(two.clone(), 38)), 2);
    assert_eq!(starts(&resized(three.clone(), 94 + 1)), 3);
    assert_eq!(starts(&with(one, 10, &[0])), 1);
    assert_eq!(starts(&with(two.clone(), 38, &[1, 2])), 2);
    // an end before the starts of later tables, and not before those of earlier ones
    assert_eq!(ends(&resized(two, 37)), (1, 38));
    assert_eq!(ends(&resized(three.clone(), 41)), (2, 42));
    assert_eq!(ends(&resized(three.clone(), 53)), (2, 54));
    assert_eq!(starts(&resized(three, 54)), 3);
    // a header before its grades, these and the kind before the rows
    assert_eq!(ends(&resized(with(whole(), 54, &[0]), 57)), (3, 58));
    assert_eq!(find(&resized(with(whole(), 54, &[0]), 58)), None);
    assert_eq!(find(&resized(with(whole(), 55, &[2]), 93)), None);
    assert_eq!(find(&resized(with(whole(), 57, &[1]), 95)), None);
    // grades of an earlier table before the start of a later one
    assert_eq!(find(&moved(with(whole(), 10, &[41]), 2, 37)), None);
}

#[test]
fn books_that_are_not_cut_wrong() {
    let refused = |book: &[u8], refusal: Refusal| {
        assert_eq!(loaded(book), refusal.number());
        assert_eq!(find(book), None);
    };
    assert_eq!((loaded(&whole()), find(&whole())), (0, None));
    refused(&[], Refusal::Length);
    refused(&with(whole(), 2, &[95]), Refusal::Length);
    refused(&with(whole(), 0, &[0]), Refusal::Raters);
    refused(&with(whole(), 0, &[17]), Refusal::Raters);
    refused(&resized(whole(), 9), Refusal::Raters);
    refused(&with(whole(), 38, &[0]), Refusal::Grades);
    refused(&with(whole(), 55, &[2]), Refusal::Kind);
    refused(&with(whole(), 56, &[1]), Refusal::Kind);
    let upside_down = with(whole(), 11, &[0, 0, 0, 1]);
    refused(&upside_down, Refusal::Defaults);
    let first_empty = with(whole(), 14, &[0; 8]);
    assert_eq!((loaded(&first_empty), find(&first_empty)), (0, None));
    refused(&with(first_empty, 26, &[0; 8]), Refusal::NoObligors);
    refused(&with(whole(), 22, &[255; 4]), Refusal::Announced);
    refused(&with(whole(), 14, &[255; 4]), Refusal::Obligors);
    refused(&with(whole(), 34, &[0; 4]), Refusal::FallingRate);
    // rows of a rater that is not loaded
    for (byte, bytes) in [(42, &[0; 8][..]), (78, &[0; 4])] {
        let later = with(whole(), byte, bytes);
        assert_eq!((loaded(&later), find(&later)), (0, None));
    }
}

#[test]
fn every_prefix() {
    for length in 0..94 {
        find(&whole()[..length]);
    }
    for length in 4..94 {
        let cut = find(&resized(whole(), length));
        assert_eq!(cut.is_some(), length >= 10, "{length}");
    }
}

struct Random(u64);

impl Random {
    /// A number below this one, by a linear congruence.
    fn below(&mut self, limit: usize) -> usize {
        self.0 = self.0.wrapping_mul(6_364_136_223_846_793_005);
        self.0 = self.0.wrapping_add(1_442_695_040_888_963_407);
        usize::try_from(self.0 >> 33).expect("31 bits") % limit
    }

    fn byte(&mut self) -> u8 {
        let usual = [0, 1, 2, 3, 10, 38, 54, 94];
        match self.below(10) {
            index @ 0..8 => usual[index],
            _ => u8::try_from(self.below(256)).expect("a byte"),
        }
    }
}

/// A book with up to four faults, mostly where its layout is said.
fn damaged(random: &mut Random) -> Vec<u8> {
    let mut book = whole();
    for _ in 0..=random.below(4) {
        let (place, byte) = (random.below(8), random.byte());
        let fields = [4, 6, 8, 10, 38, 54];
        book = match fields.get(place) {
            Some(&field) if field < book.len() => with(book, field, &[byte]),
            _ if place == 6 => resized(book, 4 + random.below(110)),
            _ => {
                let at = random.below(book.len());
                with(book, at, &[byte])
            }
        };
    }
    book
}

#[test]
fn damaged_books() {
    let mut random = Random(5);
    let mut seen = [0; 35];
    for _ in 0..100_000 {
        let book = damaged(&mut random);
        find(&book);
        seen[loaded(&book) as usize] += 1;
    }
    for number in [0, 2, 3, 6, 7, 31, 32, 33] {
        assert!(seen[number] > 500, "{number}: {}", seen[number]);
    }
    assert!(seen[34] > 100, "34, which is no cut: {}", seen[34]);
    for length in 0..500 {
        let book: Vec<u8> = (0..length).map(|_| random.byte()).collect();
        find(&book);
        find(&resized(book, length.max(4)));
    }
}

/// A book with the first cut mended as its words say.
fn mended(book: Vec<u8>, cut: WrongCut) -> Vec<u8> {
    match cut {
        WrongCut::Start { byte, expected, .. } => with(book, byte, &two_bytes(expected)),
        WrongCut::End { end, .. } | WrongCut::Leftover { end, .. } => resized(book, end),
        _ => panic!("no such cut: {cut:?}"),
    }
}

/// How far load gets: the rater, and its start, its header, its rows, and what follows.
fn reached(cut: WrongCut) -> (u32, usize) {
    match cut {
        WrongCut::Start { rater, .. } => (rater, 0),
        WrongCut::End {
            rater, start, end, ..
        } => (rater, end - start),
        WrongCut::Leftover { rater, .. } => (rater, usize::MAX),
        _ => panic!("no such cut: {cut:?}"),
    }
}

#[test]
fn what_it_says_mends_the_book() {
    let mut random = Random(6);
    let mut most = 0;
    for _ in 0..20_000 {
        let mut book = damaged(&mut random);
        let mut cuts: Vec<WrongCut> = Vec::new();
        while let Some(cut) = find(&book) {
            let further = cuts.last().is_none_or(|last| reached(*last) < reached(cut));
            assert!(further, "{cuts:?}, then {cut:?}");
            book = mended(book, cut);
            cuts.push(cut);
        }
        assert!(![31, 32, 33].contains(&loaded(&book)));
        most = most.max(cuts.len());
    }
    assert!(most > 2, "{most}");
}

/// Whatever numbers it is made of.
#[test]
fn any_cut_prints() {
    let numbers = [0, 1, 4, usize::MAX];
    for (one, other) in numbers
        .into_iter()
        .flat_map(|one| numbers.map(|other| (one, other)))
    {
        for rater in [0, 1, 2, u32::MAX] {
            let (start, end) = (one, other);
            let cuts = [
                WrongCut::Start {
                    rater,
                    byte: one,
                    start,
                    expected: other,
                },
                WrongCut::End {
                    rater,
                    start,
                    end,
                    length: one,
                },
                WrongCut::End {
                    rater,
                    start,
                    end: one,
                    length: other,
                },
                WrongCut::Leftover {
                    rater,
                    end,
                    bytes: one,
                },
            ];
            for cut in cuts {
                assert!(cut.to_string().starts_with("byte "));
            }
        }
    }
}
