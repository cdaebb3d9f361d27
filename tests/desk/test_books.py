"""Tests desk.book and the faults of desk.table: they have the library's number, on sound and on damaged books; and books are read back.

    python3 tests/desk/test_books.py     # from anywhere
"""
from __future__ import annotations

from collections import Counter
from typing import Iterator, List, Tuple
import os
import random
import re
import struct
import sys
import unittest

sys.dont_write_bytecode = True
from common import TOP, exchanged, in_order, read  # noqa: E402
import books  # noqa: E402
from desk import Desk, Refused, Table, read_book, write_book  # noqa: E402
from desk.book import load_refusals  # noqa: E402
from desk.table import COUNTS, faults  # noqa: E402

Rows = List[Tuple[int, int, int]]
Tables = List[Tuple[int, Rows]]  # kind and rows of each rater
LIMITS = (0, 1, 2, 999_999, 1_000_000, 1_000_001, 2 ** 31, 2 ** 32 - 1)
NO_RATERS = (17, 2 ** 32 - 1, 2 ** 32 + 1, -1)
BYTES = (0, 1, 2, 3, 16, 17, 40, 41, 128, 255)
SMALL: Tables = [(0, [(5, 1, 7)]), (1, [(0, 0, 7), (0, 1, 7), (0, 0, 1_000_000)])]  # empty grades, and one with a single obligor
IN_A_BOOK = {2, 3, 4, 6, 7, 8, 9, 10, 11, 31, 32, 33, 34}


def sound_rows(source: random.Random, kind: int) -> Rows:
    """Rows that load accepts, often with the most obligors, and with empty grades."""
    grades = source.choice((1, 1, 2, 3, 40))
    share, occupied = source.choice((1, 30, 1_000_000 // grades)), source.randrange(grades)
    rows = []
    for grade in range(grades):
        obligors = source.choice((share, source.randint(1, share), 0 if grade != occupied else share))
        defaults = source.choice((0, obligors, source.randint(0, obligors)))
        rows.append((obligors - defaults if kind else obligors, defaults, source.choice((0, 1_000_000, source.randint(0, 1_000_000)))))
    return in_order(rows)


def rows_at_limits(source: random.Random, kind: int) -> Rows:
    """Sound rows of which some numbers are at a limit or beyond, or two announced rates exchanged."""
    rows = sound_rows(source, kind)
    rows = [list(row) for row in (exchanged(source, rows) if source.random() < 0.2 else rows)]
    for _ in range(source.randint(0, 3)):
        source.choice(rows)[source.randrange(3)] = source.choice(LIMITS)
    if source.random() < 0.2:
        for row in rows if source.random() < 0.7 else source.sample(rows, 1):
            row[:2] = 0, 0
    return [tuple(row) for row in rows]


def random_book(source: random.Random) -> tuple[bytes, Tables]:
    tables = []
    for _ in range(source.choice((1, 1, 2, 3, 16))):
        kind = source.randrange(2)
        tables.append((kind, source.choice((sound_rows, rows_at_limits))(source, kind)))
    return books.encoded(tables), tables


def starts(tables: Tables) -> Iterator[int]:
    """The byte where each table starts, and the one behind the last."""
    at = 4 + 2 * len(tables)
    for _, rows in tables:
        yield at
        at += 4 + 12 * len(rows)
    yield at


def layout_bytes(tables: Tables) -> list[int]:
    """The bytes that the layout is checked by: head, offsets, and the head of each table."""
    *heads, _ = starts(tables)
    return [*range(4 + 2 * len(tables)), *(at + byte for at in heads for byte in range(4))]


def with_true_length(book: bytes) -> bytes:
    return book[:2] + struct.pack('<H', len(book) % 65536) + book[4:]


def damaged(source: random.Random, book: bytes, tables: Tables) -> bytes:
    """The book after a cut, a growth, or some bytes of its layout or rows changed."""
    way = source.randrange(6)
    if way == 0:
        cut = book[:source.randrange(len(book))]
        return cut if len(cut) < 4 or source.random() < 0.2 else with_true_length(cut)
    if way == 1:
        return with_true_length(book + bytes(source.choice((1, 2, 4, 12, 300))))
    changed = bytearray(book)
    for _ in range(source.randint(1, 2)):
        at = source.choice(layout_bytes(tables)) if way < 5 else source.randrange(len(book))
        changed[at] = source.choice((*BYTES, (changed[at] + 1) % 256, (changed[at] - 1) % 256))
    return bytes(changed)


class SameNumbers(unittest.TestCase):
    """What the module finds is what the library refuses."""

    def setUp(self) -> None:
        self.seen = Counter()

    def see(self, book: bytes, rater: int) -> None:
        found, desk, number = load_refusals(book, rater), Desk(), 0
        try:
            desk.load(1, book, rater)
        except Refused as refused:
            number = refused.number
            self.assertEqual(str(refused), str(found[0] if found else None), (book.hex(), rater))
        self.assertEqual(found[0].number if found else 0, number, (book.hex(), rater))
        self.seen[number] += 1
        if not number:
            self.assertEqual([tuple(grade) for grade in desk.table(1).grades], books.table(book, rater))

    def see_all_raters(self, book: bytes, raters: int) -> None:
        for rater in range(1, raters + 1):
            self.see(book, rater)

    def see_read_book(self, book: bytes) -> None:
        """All tables, or the first rater's refusal. That of the layout is the same for every rater."""
        first = load_refusals(book, 1) or [refusal for rater in range(2, book[0] + 1) for refusal in load_refusals(book, rater)]
        try:
            self.assertEqual(write_book(read_book(book)), book)
            self.assertEqual(first, [])
        except Refused as refused:
            self.assertEqual(str(refused), str(first[0]))

    def test_every_byte_that_matters(self) -> None:
        book, tables = books.encoded(SMALL), SMALL
        for at in range(len(book)):
            for byte in {*BYTES, book[at] ^ 1, (book[at] - 1) % 256}:
                changed = book[:at] + bytes([byte]) + book[at + 1:]
                self.see_all_raters(changed, len(tables))
        for length in range(len(book) + 14):
            lent = (book + bytes(14))[:length]
            self.see_all_raters(lent, len(tables))
            self.see_all_raters(with_true_length(lent) if length >= 4 else lent, len(tables))
        self.assertEqual(self.seen.keys(), IN_A_BOOK | {0}, self.seen)

    def test_two_faults_of_the_layout(self) -> None:
        """The first in the order of the checks is answered: of two bytes, and of a byte in a book that ends early or late."""
        source, book = random.Random(1), books.encoded(SMALL)
        for one in layout_bytes(SMALL):
            for other in layout_bytes(SMALL):
                changed = bytearray(book)
                changed[one], changed[other] = source.choice(BYTES), source.choice(BYTES)
                self.see(bytes(changed), source.choice((0, 1, 2, 3)))
            for length in range(max(one + 1, 4), len(book) + 3):
                changed = bytearray(with_true_length((book + bytes(2))[:length]))
                changed[one] = source.choice(BYTES)
                self.see(bytes(changed), source.choice((0, 1, 2, 3)))
        self.assertLessEqual(IN_A_BOOK - {8, 9, 10, 11, 34}, self.seen.keys())

    def test_random_books(self) -> None:
        source = random.Random(2)
        for _ in range(3000):
            book, tables = random_book(source)
            if source.random() < 0.6:
                book = damaged(source, book, tables)
            self.see(book, source.randint(1, len(tables)))
            self.see(book, source.randint(1, len(tables)) if source.random() < 0.8 else source.choice((0, len(tables) + 1, *NO_RATERS)))
            if len(book) > 0:
                self.see_read_book(book)
        self.assertEqual(self.seen.keys(), IN_A_BOOK | {0})
        self.assertTrue(all(times >= 50 for times in self.seen.values()), self.seen)

    def test_rows_alone(self) -> None:
        """A Table is refused as the load of its rows is, and the first fault of the rows has that number."""
        source, seen = random.Random(3), Counter()
        for _ in range(1500):
            kind = source.randrange(2)
            rows = rows_at_limits(source, kind)
            found, number = list(faults(COUNTS[kind], rows)), 0
            try:
                Table.of_rows(COUNTS[kind], rows)
            except Refused as refused:
                number = refused.number
                self.assertIn(found[0].why, str(refused))
            self.assertEqual(number, found[0].number if found else 0)
            self.see(books.encoded([(kind, rows)]), 1)
            seen[number] += 1
        self.assertEqual(seen, self.seen)
        self.assertTrue(all(seen[number] >= 50 for number in (0, 8, 9, 10, 11, 34)), seen)


class WhereItStands(unittest.TestCase):
    def test_every_fault_is_found_at_its_byte(self) -> None:
        rows = [(5, 6, 1_000_001), (0, 0, 0), (1_000_000, 0, 0), (0, 1, 0), (1, 0, 0)]
        empty = [(0, 0, 1_000_001), (0, 0, 0), (0, 0, 1_000_002)]
        for first_rater in (SMALL[:1], []):
            book = books.encoded([*first_rater, (0, rows), (1, empty)])
            *_, at, second, _ = (start + 4 for start in starts([*first_rater, (0, rows), (1, empty)]))
            rater = len(first_rater) + 1
            self.assertEqual(self.numbers(book, rater), [(8, at + 4), (10, at + 8), (8, at + 40), (11, at + 24)])
            self.assertIn(f'rater {rater}, grade 1, defaults', load_refusals(book, rater)[0].where)
            self.assertIn(f'rater {rater}, grade 3, obligors', load_refusals(book, rater)[3].where)
            self.assertEqual(self.numbers(book, rater + 1), [(10, second + 8), (10, second + 32), (9, second)])
            self.assertIn(f'(rater {rater + 1}, all grades): nobody is in any grade', load_refusals(book, rater + 1)[2].where)

    def numbers(self, book: bytes, rater: int) -> list[tuple[int, int]]:
        """The number and the byte of each fault."""
        return [(each.number, int(re.search(r'byte (\d+) ', each.where)[1])) for each in load_refusals(book, rater)]

    def test_columns_by_name(self) -> None:
        refusal, = load_refusals(books.encoded([(1, [(1_000_000, 1, 0)])]), 1)
        self.assertIn('grade 1, survivors', refusal.where)

    def test_defaults_of_nobody_are_8_alone(self) -> None:
        """Who is told that survivors may be meant is not told beside it that nobody is there."""
        self.assertEqual(self.numbers(books.encoded([(0, [(0, 0, 0), (0, 1, 0)])]), 1), [(8, 26)])


class RoundTrips(unittest.TestCase):
    def test_at_random(self) -> None:
        source = random.Random(4)
        for _ in range(300):
            tables = [(kind, sound_rows(source, kind)) for kind in (source.randrange(2) for _ in range(source.choice((1, 2, 16))))]
            made = [Table.of_rows(COUNTS[kind], rows) for kind, rows in tables]
            book = write_book(iter(made))
            self.assertEqual(book, books.encoded(tables))
            for kind in (bytes, bytearray, memoryview):
                self.assertEqual([(table.counts, list(table.rows)) for table in read_book(kind(book))],
                                 [(COUNTS[kind], rows) for kind, rows in tables])
            desk = Desk()
            for place, table in enumerate(made[:2], 1):
                desk.load(place, book, place)
                self.assertEqual(desk.table(place), table)
            self.assertEqual(read_book(desk.write()), made[:2])

    def test_the_example_books(self) -> None:
        examples = [name for name in os.listdir(os.path.join(TOP, 'examples')) if name.endswith('.book')]
        for name in examples:
            book, desk = read('examples', name), Desk()
            for rater in range(1, book[0] + 1):
                found = load_refusals(book, rater)
                if found:
                    with self.assertRaises(Refused) as raised:
                        desk.load(1, book, rater)
                    self.assertEqual(raised.exception.number, found[0].number)
                else:
                    desk.load(1, book, rater)
                    desk.clear(1)
        self.assertIn('k.book', examples)

    def test_number_of_raters(self) -> None:
        table = Table(obligors=[1], defaults=[0], announced=[0])
        for count in (0, 17):
            with self.assertRaises(Refused) as raised:
                write_book([table] * count)
            self.assertEqual((raised.exception.number, raised.exception.where), (3, f'{count} raters; a book holds 1 to 16'))
        most = Table(obligors=[1] * 40, defaults=[0] * 40, announced=[0] * 40)
        self.assertEqual(read_book(write_book([most] * 16)), [most] * 16)


if __name__ == '__main__':
    unittest.main()
