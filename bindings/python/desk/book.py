"""Books: grade tables in the bytes that document 01 lays out (docs/BOOK.md), and where in them a fault stands.

The library decides what is refused. What is found here has the library's number, and says the byte as well.
"""
from __future__ import annotations

from typing import Iterable, Iterator, NamedTuple, Sequence
import struct

from .refusals import Refused
from .table import COUNTS, MAX_GRADES, Row, Table, faults, readable

MAX_RATERS = 16
HEAD = TABLE_HEAD = 4  # bytes
OFFSET = 2
ROW = struct.Struct('<III')


class TableInBook(NamedTuple):
    """A table as it stands in a book: the byte where its rows start, what its first column counts, the rows."""
    at: int
    counts: str
    rows: list[Row]


def encode(tables: Sequence[tuple[str, Sequence[Row]]]) -> bytes:
    """The book of these tables: what the first column counts, and the rows. They must be tables that load accepts."""
    offsets, bodies = b'', b''
    start = HEAD + OFFSET * len(tables)
    for counts, rows in tables:
        offsets += struct.pack('<H', start + len(bodies))
        bodies += struct.pack('<BBH', len(rows), COUNTS.index(counts), 0) + b''.join(ROW.pack(*row) for row in rows)
    return struct.pack('<HH', len(tables), start + len(bodies)) + offsets + bodies


def write_book(tables: Iterable[Table]) -> bytes:
    """The book of 1 to 16 tables, each with the first column that it was made from."""
    tables = list(tables)
    if not 1 <= len(tables) <= MAX_RATERS:
        raise Refused(3, f'{len(tables)} raters; a book holds 1 to {MAX_RATERS}')
    return encode([(table.counts, table.rows) for table in tables])


def as_bytes(book: bytes | bytearray | memoryview) -> bytes:
    try:
        return bytes(memoryview(book))
    except TypeError:
        raise TypeError(f'a book is bytes, as in open(name, "rb").read(), not {type(book).__name__}') from None


def read_book(book: bytes) -> list[Table]:
    """All tables of a book, or the first fault of its layout, then of its rows, rater by rater."""
    found = tables_in(as_bytes(book))
    for rater in range(1, len(found) + 1):
        for refusal in row_refusals(found, rater):
            raise refusal
    return [Table.of_rows(table.counts, table.rows) for table in found]


def tables_in(book: bytes) -> list[TableInBook]:
    """The tables of a book, whose rows are not checked; or the first of 2, 3, 31, 32, 6, 7, 33 in the order of load."""
    tables, end = [], HEAD + OFFSET * raters_in(book)
    for at in range(HEAD, end, OFFSET):
        start, = struct.unpack_from('<H', book, at)
        if start != end:
            last = f'the table of rater {len(tables)} ends' if tables else 'the offsets end'
            raise Refused(31, f'byte {at}: the table of rater {len(tables) + 1} is said to start at byte {start}; '
                              f'expected byte {end}, where {last}')
        tables.append(table_at(book, start, len(tables) + 1))
        end = start + TABLE_HEAD + ROW.size * len(tables[-1].rows)
    if end != len(book):
        raise Refused(33, f'byte {end}: the table of rater {len(tables)}, the last, ends here; '
                          f'bytes that follow it: {len(book) - end}, expected none')
    return tables


def raters_in(book: bytes) -> int:
    """R, or 2 or 3."""
    if len(book) < HEAD:
        raise Refused(2, f'byte {len(book)}: the book ends here; expected at least {HEAD} bytes')
    raters, length = struct.unpack_from('<HH', book)
    if length != len(book):
        raise Refused(2, f'byte 2: the book says that it has {length} bytes; it has {len(book)}')
    if not 1 <= raters <= MAX_RATERS:
        raise Refused(3, f'byte 0: {raters} raters; a book holds 1 to {MAX_RATERS}')
    if len(book) < HEAD + OFFSET * raters:
        raise Refused(3, f'byte {len(book)}: the book ends here, within the offsets of its {raters} raters')
    return raters


def table_at(book: bytes, start: int, rater: int) -> TableInBook:
    """The table at a byte, or 32 (header), 6, 7, 32 (rows)."""
    end_within(book, start, rater, 'header ends', start + TABLE_HEAD)
    grades, kind, zeros = struct.unpack_from('<BBH', book, start)
    if not 1 <= grades <= MAX_GRADES:
        raise Refused(6, f'byte {start}: rater {rater} has {grades} grades; a table has 1 to {MAX_GRADES}')
    if kind >= len(COUNTS):
        raise Refused(7, f'byte {start + 1}: rater {rater} has kind {kind}; expected 0 (obligors) or 1 (survivors)')
    if zeros:
        at = start + 2 if book[start + 2] else start + 3
        raise Refused(7, f'byte {at}: rater {rater} has {book[at]} here; expected a zero byte')
    rows = start + TABLE_HEAD
    end = rows + ROW.size * grades
    end_within(book, start, rater, 'rows end', end)
    return TableInBook(rows, COUNTS[kind], list(ROW.iter_unpack(book[rows:end])))


def end_within(book: bytes, start: int, rater: int, part_ends: str, end: int) -> None:
    """32, where a part of the table at a byte runs past the end of the book."""
    if end > len(book):
        raise Refused(32, f'byte {start}: the table of rater {rater} starts here and its {part_ends} at byte {end}; '
                          f'the book ends at byte {len(book)}, bytes missing: {end - len(book)}')


def row_refusals(tables: Sequence[TableInBook], rater: int) -> Iterator[Refused]:
    """Everything that load would refuse in a rater's rows, in its order: row by row 8, 10, 34, then 9, 11."""
    table = tables[rater - 1]
    names = (table.counts, 'defaults', 'announced')
    for fault in faults(table.counts, table.rows):
        grade, place = (0, 'all grades') if fault.grade is None else (fault.grade, f'grade {fault.grade + 1}, {names[fault.column]}')
        byte = table.at + ROW.size * grade + 4 * fault.column
        yield Refused(fault.number, f'byte {byte} (rater {rater}, {place}): {fault.why}')


def located(number: int, found: Iterable[Refused]) -> Refused:
    """The refusal of this number, with where the first of those that are found with it stands."""
    return next((refusal for refusal in found if refusal.number == number), Refused(number))


def load_refusals(book: bytes, rater: int) -> list[Refused]:
    """Why load refuses this rater of a book, the number that it answers first; nothing where it accepts."""
    book = as_bytes(book)
    try:
        raters = raters_in(book)
        if not 1 <= rater <= raters:
            raise Refused(4, f'rater {readable(rater)}; this book has {raters}')
        return list(row_refusals(tables_in(book), rater))
    except Refused as refusal:
        return [refusal]
