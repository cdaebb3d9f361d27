"""Gives 20,000 random and damaged books and CSV files to the command. It answers, refuses or says what is wrong; it is never at fault.

What it refuses in a book is what the library answers to the load, or to the shortlist, of the same bytes.

    python3 tests/desk/test_command_damaged.py      # from anywhere
"""
from __future__ import annotations

from collections import Counter
import os
import random
import re
import struct
import sys
import unittest
import unittest.mock

sys.dont_write_bytecode = True
sys.path.insert(0, os.path.dirname(os.path.abspath(__file__)))
from running import LIBRARY, Case, Ran, ask, book_of, content_of, csv_text, example, examples  # noqa: E402
from common import exchanged, in_order  # noqa: E402
from csv_dress import Dress, damaged  # noqa: E402
from desk import Desk, Refused, shortlist  # noqa: E402
from desk.command import main  # noqa: E402
from desk.command.csv_file import is_text  # noqa: E402

OTHERS = (0, 1, 2, 16, 17, 40, 41, 255)  # bytes that are put for others
LARGE = (0, 1, 999_999, 1_000_000, 1_000_001, 2 ** 31, 2 ** 32 - 1)  # and numbers of 4 bytes


def rows_of(source: random.Random) -> list[tuple]:
    """Rows that either kind accepts: the first column is at least the defaults, no rate falls. Grades may be empty, save the last."""
    sizes = [source.randint(source.choice((0, 1)), source.choice((2, 300, 12_000))) for _ in range(source.choice((0, 1, 1, 2, 4, 39)))]
    sizes.append(source.randint(1, source.choice((2, 300, 12_000))))
    return in_order([(n, source.randint(0, n), source.randint(0, 1_000_000)) for n in sizes])


def tables_of(source: random.Random) -> list[tuple]:
    return [(source.choice(('obligors', 'survivors')), rows_of(source)) for _ in range(source.choice((1, 1, 2, 2, 3, 16)))]


def load_refusal(book: bytes, rater: int) -> int | None:
    """The library's own answer."""
    try:
        Desk(LIBRARY).load(1, book, rater)
    except Refused as refused:
        return refused.number
    return None


class Damaged(Case):
    def setUp(self) -> None:
        super().setUp()
        parser = main.command_line()  # once for all, since making it takes longer than most answers
        patched = unittest.mock.patch.object(main, 'command_line', lambda: parser)
        patched.start()
        self.addCleanup(patched.stop)

    def asked(self, *words: str) -> Ran:
        ran = ask(*words)
        self.assertIn(ran.status, (0, 1, 2))
        self.assertEqual(ran.status != 0, bool([line for line in ran.err.splitlines() if not line.startswith('desk: note: ')]), ran)
        return ran

    def first_number(self, ran: Ran) -> int | None:
        found = re.match(r'desk: refused (\d+): ', ran.err)
        return int(found[1]) if found else None


class Books(Damaged):
    def damaged_book(self, source: random.Random) -> bytes:
        """A sound book with up to three faults, or none; in some, announced rates of each table are exchanged."""
        tables = tables_of(source)
        if source.random() < 0.1:
            tables = [(counts, exchanged(source, rows)) for counts, rows in tables]
        book = bytearray(book_of(tables))
        for _ in range(source.choice((0, 1, 1, 2, 3))):
            how = source.randrange(7)
            if how == 0:
                book = book[:source.randint(0, len(book))] + bytes(source.choice((0, 0, 1, 20)))
            elif how == 1 and len(book) > 16:
                book[-12:-4] = bytes(8)  # nobody in the last grade
            elif how == 2 and len(book) > 16:
                struct.pack_into('<I', book, source.randrange(len(book) - 4), source.choice(LARGE))
            elif how == 3 and len(book) > 16:
                struct.pack_into('<I', book, len(book) - source.choice((4, 8, 12)), source.choice(LARGE))
            elif book:
                book[source.randrange(min(len(book), source.choice((5, 12, 60, 9999))))] = source.choice(OTHERS)
        if len(book) > 4 and source.random() < 0.7:
            struct.pack_into('<H', book, 2, len(book))
        return bytes(book)

    def of_one(self, book: bytes, path: str, rater: int) -> None:
        """`show` of a rater: it is shown if load takes it, and else refused with load's number."""
        ran, refusal = self.asked('show', path, str(rater)), load_refusal(book, rater)
        if refusal is None:
            self.assertIn(self.first_number(ran), (None, 23, 24))
            self.assertTrue(ran.out)
        else:
            self.assertEqual((ran.status, ran.out, self.first_number(ran)), (1, '', refusal), book)

    def of_two(self, book: bytes, path: str, raters: tuple[int, int]) -> None:
        """`compare` of two, on shares every other time: the first that load refuses, then what compare refuses."""
        shares = len(book) % 8 < 4
        ran = self.asked('compare', path, *map(str, raters), *['--shares'] * shares)
        refusal = next(filter(None, (load_refusal(book, rater) for rater in raters)), None)
        if refusal is None:
            self.assertIn(self.first_number(ran), (None, 23, 24, 35 if shares else 25), book)
        else:
            self.assertEqual((ran.status, ran.out, self.first_number(ran)), (1, '', refusal), book)

    def of_list(self, book: bytes, path: str) -> None:
        """`shortlist`: the library's own answer to the whole book."""
        ran = self.asked('shortlist', path)
        try:
            listed, refusal = shortlist(book, LIBRARY), None
        except Refused as refused:
            listed, refusal = [], refused.number
        self.assertEqual((ran.status, self.first_number(ran)), (1, refusal) if refusal else (0, None), book)
        told = re.match(r'.*; on the shortlist: (.*)', ran.out)
        self.assertEqual(re.findall(r'(\d+) \(', told[1]) if told else [], [str(number) for number in listed])

    def of_all(self, book: bytes, path: str, raters: int) -> None:
        """`unpack`: the first of all raters that load refuses. What is unpacked is packed to the same book."""
        out = self.path('out.csv')
        ran = self.asked('unpack', path, '-o', out)
        refusal = next(filter(None, (load_refusal(book, rater) for rater in range(1, raters + 1))), None)
        self.assertEqual((ran.status, self.first_number(ran)), (1, refusal) if refusal else (0, None), book)
        if refusal is None:
            self.assertEqual(self.asked('pack', out, '-o', self.path('again.book')).status, 0)
            self.assertEqual(self.got('again.book'), book)
            os.remove(out)
        self.assertFalse(os.path.exists(out))

    def test_books(self) -> None:
        source, seen = random.Random(1), Counter()
        for _ in range(9000):
            book = self.damaged_book(source)
            path = self.put('a.book', book)
            raters = book[0] if len(book) > 1 and 1 <= book[0] <= 16 and not book[1] else 1
            rater, other = source.randint(1, raters), source.randint(1, raters)
            if book and is_text(book):  # no zero byte is left in it, so that it is taken for CSV
                self.assertEqual(self.asked('show', path).status, 1)
                continue
            seen[load_refusal(book, rater)] += 1
            how = source.randrange(6)
            if how == 0:
                self.of_one(book, path, rater)
            elif how == 1:
                self.of_two(book, path, (rater, other))
            elif how == 2:
                self.of_all(book, path, raters)
            elif how == 3:
                self.of_list(book, path)
            else:
                others = ('show', path), ('compare', path), ('pack', path, '-o', self.path('none')), ('show', path, '99')
                self.asked(*source.choice(others))
        self.assertEqual(sorted(number for number in seen if number), [2, 3, 6, 7, 8, 9, 10, 11, 31, 32, 33, 34])
        self.assertTrue(all(times > 30 for times in seen.values()), seen)
        self.assertFalse(os.path.exists(self.path('none')))


class Texts(Damaged):
    def given(self, content: bytes, source: random.Random) -> int:
        """Gives a file to one command, in one of the ways of each. What is packed loads and comes back; what is refused leaves no file."""
        path = self.put('a.csv', content)
        words = source.choice((('show', path), ('show', path, '1'), ('show', path, 'In-house'), ('compare', path), ('compare', path, path),
                               ('compare', path, '1', '2', '--prices', '3:1'), ('compare', path, '--shares', '--prices', '3:1'),
                               ('shortlist', path), ('unpack', path), ('pack',), ('pack',)))
        if words != ('pack',):
            return self.asked(*words).status
        book = self.path('out.book')
        status = self.asked('pack', path, '-o', book).status
        if status == 0:
            self.see_book(content_of(book))
            os.remove(book)
        self.assertFalse(os.path.exists(book))
        return status

    def see_book(self, book: bytes) -> None:
        for rater in range(1, book[0] + 1):
            self.assertIsNone(load_refusal(book, rater))
        text = self.asked('unpack', self.put('b.book', book)).out
        self.assertEqual(self.asked('pack', self.put('b.csv', text), '-o', self.path('c.book')).status, 0)
        self.assertEqual(self.got('c.book'), book)

    def see_many(self, source: random.Random, contents: list[bytes]) -> None:
        seen = Counter(self.given(content, source) for content in contents)
        self.assertTrue(all(seen[status] > len(contents) // 50 for status in (0, 1, 2)), seen)

    def test_examples_with_faults(self) -> None:
        source = random.Random(2)
        shipped = [content_of(example(name)) for name in examples('.csv')]
        self.see_many(source, [damaged(source, source.choice(shipped)) for _ in range(3500)])

    def test_random_tables_with_faults(self) -> None:
        source = random.Random(3)
        self.see_many(source, [damaged(source, csv_text(tables_of(source)).encode()) for _ in range(3500)])

    def test_files_as_people_have_them_with_and_without_faults(self) -> None:
        source = random.Random(4)
        dressed = [Dress(source, small=True).content() for _ in range(3500)]
        self.see_many(source, [damaged(source, content) if source.random() < 0.5 else content for content in dressed])

    def test_random_bytes(self) -> None:
        source = random.Random(5)
        for _ in range(500):
            some = source.choice((range(256), b'01,;"\n%.\t ', b'\xff\xfe\0\n1,', b'\0\1\2\3\6'))
            path = self.put('a', bytes(source.choices(some, k=source.randint(0, 60))))
            for words in (('show', path), ('unpack', path), ('compare', path, path), ('shortlist', path)):
                self.asked(*words)


if __name__ == '__main__':
    unittest.main()
