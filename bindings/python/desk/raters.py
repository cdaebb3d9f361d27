"""What is asked of all raters of a book at once: which of them no other one beats."""
from __future__ import annotations

from ctypes import Array, byref, c_size_t, c_ubyte, c_uint32
from typing import Iterator, Sequence

from . import library
from .book import MAX_RATERS, as_bytes, located, row_refusals, tables_in
from .desk import check_lent
from .refusals import Refused
from .table import Table


def shortlist(book: bytes, path: str | None = None) -> list[int]:
    """The raters of a book, counted from 1, for which no other rater of it is better, in book order. Better means at least as good, as
    Desk.compare has it, and not the reverse. Of raters that are equal, all are listed or none; every rater that is not listed is beaten by a
    listed one, and the comparison of the two has prices that show it. `path` names the shared library, as for a Desk.

    Refuses 2, 3; table by table 31, 32, 6, 7, 32; 33; rater by rater: of its rows, one by one, 8, 10, 34; 9, 11; then 23, 24, 25. `where` of
    what is raised says the byte and whose table it is, of the last three the raters.

    >>> from desk import Table, shortlist, write_book
    >>> coarse = Table(obligors=[3, 3], defaults=[1, 2], announced=[333_333, 666_667])
    >>> fine = Table(obligors=[2, 2, 2], defaults=[0, 1, 2], announced=[0, 500_000, 1_000_000])
    >>> same = Table(survivors=[2, 1, 0], defaults=[0, 1, 2], announced=[0, 500_000, 1_000_000])
    >>> shortlist(write_book([coarse, fine, same]))
    [2, 3]
    """
    numbers = (c_uint32 * MAX_RATERS)()
    return numbers[:shortlist_into(book, numbers, path)]


def shortlist_into(book: bytes, numbers: Array[c_uint32], path: str | None = None) -> int:
    """Writes the same into a ctypes array and returns how many are listed. Keeps further numbers. Refuses as shortlist, and then 13 where the
    array is shorter than the book has raters, however few are listed."""
    check_lent(numbers, c_uint32, '(c_uint32 * 16)()')
    book, listed = as_bytes(book), c_size_t()
    copied = (c_ubyte * len(book)).from_buffer_copy(book)
    loaded = library.load(path or library.default_path())
    refusal = loaded.desk_shortlist(copied, len(book), numbers, len(numbers), byref(listed))
    if refusal:
        raise located(refusal, shortlist_refusals(book))
    return listed.value


def shortlist_refusals(book: bytes) -> Iterator[Refused]:
    """Why a book has no shortlist, the number that is answered first; nothing where it has one."""
    try:
        found = tables_in(book)
    except Refused as refusal:
        yield refusal
        return
    of_rows = [refusal for rater in range(1, len(found) + 1) for refusal in row_refusals(found, rater)]
    yield from of_rows
    if of_rows:  # and no totals to look at
        return
    tables = [Table.of_rows(table.counts, table.rows) for table in found]
    for number in (23, 24, 25):
        raters = at_fault(number, tables)
        if raters:
            yield Refused(number, ', '.join(f'rater {rater}' for rater in raters))


def at_fault(number: int, tables: Sequence[Table]) -> list[int]:
    """The raters, counted from 1, that are why sound tables have no shortlist: of 23 those without defaults, of 24 those without survivors, of
    25 the first and all whose D or S is not its own."""
    numbered = list(enumerate(tables, 1))
    if number != 25:
        return [rater for rater, table in numbered if not (table.defaults if number == 23 else table.survivors)]
    others = [rater for rater, table in numbered if (table.defaults, table.survivors) != (tables[0].defaults, tables[0].survivors)]
    return [1, *others] if others else []
