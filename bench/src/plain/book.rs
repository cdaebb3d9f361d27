//! The byte format: reading the table of one rater or of each, writing tables.
use super::{Refusal, Rows, Table, GRADES, MILLION, RATERS};

fn two(bytes: &[u8], at: usize) -> usize {
    u16::from_le_bytes([bytes[at], bytes[at + 1]]) as usize
}

fn four(row: &[u8; 12], at: usize) -> u32 {
    u32::from_le_bytes([row[at], row[at + 1], row[at + 2], row[at + 3]])
}

/// Reads the table of a rater into empty rows, which stay empty where the reading is refused.
pub fn read(book: &[u8], rater: u32, into: &mut Rows) -> Result<(), Refusal> {
    let raters = count_raters(book)?;
    let rater = rater as usize;
    if rater < 1 || rater > raters {
        return Err(4);
    }
    check_layout(book, raters)?;
    let start = two(book, 2 + 2 * rater);
    let read = read_rows(&book[start..], into);
    if read.is_err() {
        *into = Rows::EMPTY;
    }
    read
}

/// Reads the tables of all raters, one after the other, and hands over each with its index. Answers how many there are.
pub fn read_each(book: &[u8], mut hand_over: impl FnMut(usize, &Table)) -> Result<usize, Refusal> {
    let raters = count_raters(book)?;
    check_layout(book, raters)?;
    let mut rows = Rows::EMPTY;
    for (index, start) in book[4..4 + 2 * raters].chunks_exact(2).enumerate() {
        read_rows(&book[two(start, 0)..], &mut rows)?;
        hand_over(index, &rows.table()?);
    }
    Ok(raters)
}

fn count_raters(book: &[u8]) -> Result<usize, Refusal> {
    if book.len() < 4 || two(book, 2) != book.len() {
        return Err(2);
    }
    let raters = two(book, 0);
    if !(1..=RATERS).contains(&raters) || book.len() < 4 + 2 * raters {
        return Err(3);
    }
    Ok(raters)
}

/// The starts, heads and ends of all tables, and that nothing follows them.
fn check_layout(book: &[u8], raters: usize) -> Result<(), Refusal> {
    let mut rest = &book[4 + 2 * raters..];
    for start in book[4..4 + 2 * raters].chunks_exact(2) {
        if two(start, 0) != book.len() - rest.len() {
            return Err(31);
        }
        let Some((&[grades, kind, ref zeros @ ..], rows)) = rest.split_first_chunk::<4>() else {
            return Err(32);
        };
        if !(1..=GRADES as u8).contains(&grades) {
            return Err(6);
        }
        if kind > 1 || zeros != &[0; 2] {
            return Err(7);
        }
        rest = rows.get(12 * usize::from(grades)..).ok_or(32u32)?;
    }
    if rest.is_empty() {
        Ok(())
    } else {
        Err(33)
    }
}

fn read_rows(table: &[u8], into: &mut Rows) -> Result<(), Refusal> {
    let grades = table[0] as usize;
    let of_survivors = table[1] == 1;
    let rows = table[4..4 + 12 * grades].as_chunks::<12>().0;
    let columns = into.obligors.iter_mut().zip(&mut into.defaults).zip(&mut into.announced);
    let (mut total, mut before) = (0u64, 0);
    for (row, ((obligors, defaults), announced)) in rows.iter().zip(columns) {
        let (column, d, p) = (four(row, 0), four(row, 4), four(row, 8));
        let n = if of_survivors { column.saturating_add(d) } else { column };
        if n < d {
            return Err(8);
        }
        if p > MILLION {
            return Err(10);
        }
        if p < before {
            return Err(34);
        }
        before = p;
        total += u64::from(n);
        (*obligors, *defaults, *announced) = (n, d, p);
    }
    if total == 0 {
        return Err(9);
    }
    if total > MILLION.into() {
        return Err(11);
    }
    into.grades = grades;
    into.loaded = true;
    Ok(())
}

/// Writes tables as a book of kind 0, and answers its length.
pub fn write<const N: usize>(tables: &[Table; N], out: &mut [u8]) -> Result<usize, Refusal> {
    let size = 4 + 6 * N + tables.iter().map(|table| 12 * table.grades()).sum::<usize>();
    let out = out.get_mut(..size).ok_or(13u32)?;
    let (head, mut rest) = out.split_at_mut(4 + 2 * N);
    head[..2].copy_from_slice(&(N as u16).to_le_bytes());
    head[2..4].copy_from_slice(&(size as u16).to_le_bytes());
    for (table, offset) in tables.iter().zip(head[4..].chunks_exact_mut(2)) {
        offset.copy_from_slice(&((size - rest.len()) as u16).to_le_bytes());
        let (here, after) = rest.split_at_mut(4 + 12 * table.grades());
        write_table(table, here);
        rest = after;
    }
    Ok(size)
}

fn write_table(table: &Table, out: &mut [u8]) {
    let (head, rows) = out.split_at_mut(4);
    head.copy_from_slice(&(table.grades() as u32).to_le_bytes());
    let grades = table.counts().zip(table.announced);
    for (row, ((n, d), p)) in rows.as_chunks_mut::<12>().0.iter_mut().zip(grades) {
        row[..4].copy_from_slice(&n.to_le_bytes());
        row[4..8].copy_from_slice(&d.to_le_bytes());
        row[8..].copy_from_slice(&p.to_le_bytes());
    }
}
