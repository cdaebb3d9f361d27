//! Where a book is cut wrong. The library's load judges books; here one that it refused is only
//! searched for the place.

use crate::place::Place;
use crate::refusal::Refusal;
use crate::sys::{self, Desk};
use crate::table::{HEAD, OFFSET};
use crate::text::pad;
use std::fmt;

/// Where a book is cut wrong: the first table that is not in its place, as in books pasted together,
/// or what follows the last. Raters count from 1 and bytes from 0, as in `BOOK.md` (in
/// `share/doc/desk` where installed, `docs` in the sources).
///
/// ```
/// use desk::{Desk, Place, Refusal, Table, WrongCut};
///
/// let table = Table::by_obligors().grade(5, 2, 400_000);
/// let mut book = Table::book(&[table.clone(), table])?;
/// book[6] += 12; // the low byte of where the table of rater 2 starts
/// let refused = Desk::empty().load(Place::First, &book, 1).expect_err("it does not start there");
/// let cut = WrongCut::find(&book).expect("it is cut wrong");
/// assert_eq!((refused, cut.refusal()), (Refusal::TableStart, Refusal::TableStart));
/// assert_eq!(
///     cut.to_string(),
///     "byte 6: the table of rater 2 is said to start at byte 36; expected byte 24, where the table of rater 1 ends"
/// );
/// # Ok::<(), desk::Refusal>(())
/// ```
#[derive(Clone, Copy, Debug, PartialEq, Eq, Hash)]
#[non_exhaustive]
pub enum WrongCut {
    /// 31 ([`Refusal::TableStart`]): a table starts in the wrong place.
    Start {
        /// Whose table.
        rater: u32,
        /// Where its offset stands in the book.
        byte: usize,
        /// Where the offset says that the table starts.
        start: usize,
        /// Where it has to start: where the last one ended, the first where the offsets end.
        expected: usize,
    },
    /// 32 ([`Refusal::TableEnd`]): a table runs past the end.
    End {
        /// Whose table.
        rater: u32,
        /// Where it starts.
        start: usize,
        /// Where it would end; where its header would, if the book has not all 4 bytes of that.
        end: usize,
        /// Bytes of the book, fewer than that.
        length: usize,
    },
    /// 33 ([`Refusal::Leftover`]): bytes follow the last table.
    Leftover {
        /// The last.
        rater: u32,
        /// Where its table ends, and the first of those bytes stands.
        end: usize,
        /// How many follow.
        bytes: usize,
    },
}

impl WrongCut {
    /// Where a book is cut wrong, if that is why load refuses its raters: with 31, 32 or 33. A rater
    /// that the book does not have is refused before, with 4.
    ///
    /// ```
    /// use desk::{Table, WrongCut};
    ///
    /// let mut book = Table::book(&[Table::by_obligors().grade(5, 2, 400_000)])?;
    /// assert_eq!(WrongCut::find(&book), None);
    /// book[6] = 2; // grades of rater 1, and the rows of one are there
    /// assert_eq!(WrongCut::find(&book), Some(WrongCut::End { rater: 1, start: 6, end: 34, length: 22 }));
    /// book.pop();
    /// assert_eq!(WrongCut::find(&book), None, "the length that the book states is looked at before");
    /// # Ok::<(), desk::Refusal>(())
    /// ```
    #[must_use]
    pub fn find(book: &[u8]) -> Option<WrongCut> {
        // Load checks all of the layout whichever rater it loads, and rater 1 is in every book.
        let number = sys::load(&mut Desk::empty(), Place::First.into(), book, 1);
        first_cut(book).filter(|cut| cut.refusal().number() == number)
    }

    /// What load refuses the book with.
    ///
    /// ```
    /// use desk::{Refusal, WrongCut};
    ///
    /// let cut = WrongCut::Leftover { rater: 1, end: 22, bytes: 3 };
    /// assert_eq!(cut.refusal(), Refusal::Leftover);
    /// ```
    #[must_use]
    pub const fn refusal(self) -> Refusal {
        match self {
            WrongCut::Start { .. } => Refusal::TableStart,
            WrongCut::End { .. } => Refusal::TableEnd,
            WrongCut::Leftover { .. } => Refusal::Leftover,
        }
    }
}

/// Bytes of a table before its rows.
const TABLE_HEAD: usize = 4;
/// Bytes of a row.
const ROW: usize = 12;

/// Follows the tables, each from where the last one ended, in the order of load.
fn first_cut(book: &[u8]) -> Option<WrongCut> {
    let (raters, length) = (number_at(book, 0)?, book.len());
    let offsets = (HEAD..).step_by(OFFSET);
    let mut last_end = HEAD + OFFSET * usize::from(raters);
    for (rater, byte) in (1..=raters.into()).zip(offsets) {
        let (start, expected) = (number_at(book, byte)?.into(), last_end);
        if start != expected {
            return Some(WrongCut::Start {
                rater,
                byte,
                start,
                expected,
            });
        }
        let end = table_end(book, start);
        if end > length {
            return Some(WrongCut::End {
                rater,
                start,
                end,
                length,
            });
        }
        last_end = end;
    }
    (last_end < length).then(|| WrongCut::Leftover {
        rater: raters.into(),
        end: last_end,
        bytes: length - last_end,
    })
}

/// Two bytes of a book, the low one first, where it has them.
fn number_at(book: &[u8], byte: usize) -> Option<u16> {
    let bytes = book.get(byte..)?.first_chunk()?;
    Some(u16::from_le_bytes(*bytes))
}

/// Where the table ends that starts here; where its header does, if the book has not all of that.
fn table_end(book: &[u8], start: usize) -> usize {
    let rows = start + TABLE_HEAD;
    match book.get(start..rows) {
        Some(&[grades, ..]) => rows + ROW * usize::from(grades),
        _ => rows,
    }
}

/// What ends where the table of a rater has to start.
fn before(rater: u32) -> String {
    match rater {
        0 | 1 => "the offsets end".to_string(),
        _ => format!("the table of rater {} ends", rater - 1),
    }
}

/// In words, the byte to look at first: `byte 22: the table of rater 1, the last, ends here; bytes
/// that follow it: 3, expected none`.
impl fmt::Display for WrongCut {
    fn fmt(&self, out: &mut fmt::Formatter) -> fmt::Result {
        let words = match *self {
            WrongCut::Start {
                rater,
                byte,
                start,
                expected,
            } => {
                let said = format!("the table of rater {rater} is said to start at byte {start}");
                let before = before(rater);
                format!("byte {byte}: {said}; expected byte {expected}, where {before}")
            }
            WrongCut::End {
                rater,
                start,
                end,
                length,
            } => {
                let has_header = length >= start.saturating_add(TABLE_HEAD);
                let part_ends = if has_header {
                    "rows end"
                } else {
                    "header ends"
                };
                let starts = format!("byte {start}: the table of rater {rater} starts here");
                let missing = end.saturating_sub(length);
                format!(
                    "{starts} and its {part_ends} at byte {end}; the book ends at byte {length}, bytes missing: {missing}"
                )
            }
            WrongCut::Leftover { rater, end, bytes } => {
                let ends = format!("the table of rater {rater}, the last, ends here");
                format!("byte {end}: {ends}; bytes that follow it: {bytes}, expected none")
            }
        };
        pad(out, &words)
    }
}

#[cfg(test)]
mod tests {
    use super::first_cut;

    /// Bytes whose first table starts where it has to, and no other does.
    fn bytes(raters: u8, grades: u8) -> Vec<u8> {
        let offsets = [4 + 2 * raters, 0].repeat(raters.into());
        [vec![raters, 0, 0, 0], offsets, vec![grades; 100]].concat()
    }

    /// Also of bytes that load refuses for something else, should a library say otherwise.
    #[test]
    fn any_bytes_can_be_followed() {
        for raters in 0..=100 {
            for bytes in [0, 1, 41, 255].map(|grades| bytes(raters, grades)) {
                for length in 0..=bytes.len() {
                    let cut = first_cut(&bytes[..length]);
                    assert!(cut.is_none_or(|cut| cut.to_string().starts_with("byte ")));
                }
            }
        }
    }
}
