"""Tests `desk pack` and `desk unpack`: the examples byte for byte, random tables there and back, every refusal of a book with its byte.

    python3 tests/desk/test_command_convert.py      # from anywhere
"""
from __future__ import annotations

import os
import random
import re
import sys
import unittest

sys.dont_write_bytecode = True
sys.path.insert(0, os.path.dirname(os.path.abspath(__file__)))
from running import book_of, content_of, csv_text, example, examples  # noqa: E402
from common import in_order  # noqa: E402
from converting import BOOK_K, OBLIGORS, Converting  # noqa: E402
from expected import rater_data  # noqa: E402
from scales import AGENCY, FITCH_CCC, HARBOUR, INHOUSE, VALLEY, Scale, rater_of  # noqa: E402
import printed  # noqa: E402


def with_bytes(content: bytes, **changes: int) -> bytes:
    """A copy with single bytes changed: b6=1 puts 1 at byte 6."""
    changed = bytearray(content)
    for at, byte in changes.items():
        changed[int(at[1:])] = byte
    return bytes(changed)


class Examples(Converting):
    NAMED = ('agency.csv', 'fitch_ccc.csv', 'harbour.csv', 'inhouse.csv', 'swapped.csv', 'valley.csv')  # with names of grades, and no book
    FAULTY = ('refusals.book',)  # with tables that load refuses

    def test_every_book_whose_raters_all_load_has_its_csv(self) -> None:
        self.assertEqual([name[:-len('.csv')] for name in examples('.csv') if name not in self.NAMED],
                         [name[:-len('.book')] for name in examples('.book') if name not in self.FAULTY])

    def test_csv_packs_to_the_book_and_the_book_unpacks_to_the_csv(self) -> None:
        """But for the names of raters, which no book holds."""
        named = set()
        for name in set(examples('.csv')) - set(self.NAMED):
            text, book = content_of(example(name)), content_of(example(name.replace('.csv', '.book')))
            self.assertEqual(self.packed(text), book)
            without_names, names = re.subn(b'(?m)^name,.*\n', b'', text)
            self.assertEqual(self.unpacked(book).encode(), without_names)
            named |= {name} if names else set()
        self.assertEqual(named, {'committee.csv'})

    def test_named_ones_pack_to_raters_of_portfolio_and_lenders(self) -> None:
        for scales in ((INHOUSE, AGENCY), (HARBOUR, VALLEY)):
            self.assertEqual(self.packed(*(content_of(scale.file) for scale in scales)), book_of([(scale.counts, scale.rows) for scale in scales]))

    def test_a_part_of_agencies_packs_to_its_rows(self) -> None:
        self.assertEqual(self.packed(content_of(FITCH_CCC.file)), book_of([(FITCH_CCC.counts, FITCH_CCC.rows)]))

    def test_faulty_ones_name_every_fault(self) -> None:
        lines = self.not_taken('unpack', content_of(example('refusals.book')), 9)
        self.assertEqual([line.split()[2] for line in lines], ['9:', '8:', '10:', '11:', '34:'])
        for rater, line in enumerate(lines, 5):
            self.assertIn(f'(rater {rater}, ', line)

    def test_book_k(self) -> None:
        self.assertEqual(content_of(example('k.book')), BOOK_K)
        self.assertEqual(self.unpacked(BOOK_K), OBLIGORS + '10,2,100000\n10,1,150000\n20,4,200000\n')

    def test_what_is_said_of_a_book_that_was_packed(self) -> None:
        output = self.path('both.book')
        text = self.answered('pack', INHOUSE.file, example('h.csv'), '-o', output)
        size, *raters = text.out.splitlines()
        self.assertEqual((size, text.err), (f'{output}: {len(content_of(output))} bytes', ''))
        second, third = (rater_of(example('h.book'), number)._replace(file=example('h.csv')) for number in (1, 2))
        for number, (line, scale) in enumerate(zip(raters, (INHOUSE, second, third)), 1):
            opening = f'rater {number}: '
            self.assertEqual((line[:len(opening)], printed.summary(line[len(opening):])), (opening, rater_data(scale)))
        self.assertEqual(len(raters), 3)
        self.assertEqual(self.answered('unpack', output, '-o', self.path('both.csv')).out, f'{self.path("both.csv")}: 3 tables\n')
        self.assertEqual(self.answered('unpack', example('k.book'), '-o', self.path('k.csv')).out, f'{self.path("k.csv")}: 1 table\n')


class Books(Converting):
    """What load refuses in a book, in its order."""
    TWO = book_of([('obligors', [(5, 2, 0), (1, 1, 9)]), ('survivors', [(2, 0, 0)])])  # rater 1 at byte 8, rater 2 at byte 36, 52 bytes

    def test_2_length(self) -> None:
        self.not_taken('unpack', b'', 2, 'byte 0: the book ends here')
        self.not_taken('unpack', b'\x01\x00\x03', 2, 'byte 3: the book ends here')
        self.not_taken('unpack', BOOK_K[:-1], 2, 'byte 2: the book says that it has 46 bytes; it has 45')
        self.not_taken('unpack', BOOK_K + b'\0', 2, 'byte 2')
        self.not_taken('unpack', with_bytes(BOOK_K, b0=0, b2=45), 2)

    def test_3_raters(self) -> None:
        self.not_taken('unpack', with_bytes(BOOK_K, b0=0), 3, 'byte 0: 0 raters')
        self.not_taken('unpack', with_bytes(BOOK_K, b0=17), 3, 'byte 0: 17 raters')
        self.not_taken('unpack', with_bytes(BOOK_K, b1=1), 3, 'byte 0: 257 raters')
        self.not_taken('unpack', b'\1\0\4\0', 3, 'byte 4: the book ends here')
        self.not_taken('unpack', b'\2\0\7\0\6\0\0', 3, 'byte 7: the book ends here, within the offsets')

    def test_31_starts_32_ends_33_leftover(self) -> None:
        self.not_taken('unpack', with_bytes(self.TWO, b4=9), 31, 'byte 4: the table of rater 1 is said to start at byte 9; expected byte 8')
        self.not_taken('unpack', with_bytes(self.TWO, b6=37), 31, 'byte 6: the table of rater 2 is said to start at byte 37; expected byte 36')
        missing = 'byte {}: the table of rater {} starts here and its {} at byte {}; the book ends at byte {}, bytes missing: {}'
        self.not_taken('unpack', b'\1\0\6\0\6\0', 32, missing.format(6, 1, 'header ends', 10, 6, 4))
        self.not_taken('unpack', b'\1\0\11\0\6\0\1\0\0', 32, missing.format(6, 1, 'header ends', 10, 9, 1))
        self.not_taken('unpack', with_bytes(self.TWO, b36=2), 32, missing.format(36, 2, 'rows end', 64, 52, 12))
        self.not_taken('unpack', with_bytes(BOOK_K, b6=2), 33, 'byte 34: the table of rater 1, the last, ends here; bytes that follow it: 12')

    def test_6_grades(self) -> None:
        self.not_taken('unpack', with_bytes(self.TWO, b8=0), 6, 'byte 8: rater 1 has 0 grades')
        self.not_taken('unpack', with_bytes(self.TWO, b36=41), 6, 'byte 36: rater 2 has 41 grades')
        self.not_taken('unpack', b'\1\0\12\0\6\0\0\0\0\0', 6, 'byte 6: rater 1 has 0 grades')

    def test_7_kind_and_zero_bytes(self) -> None:
        self.not_taken('unpack', with_bytes(self.TWO, b9=2), 7, 'byte 9: rater 1 has kind 2')
        self.not_taken('unpack', with_bytes(self.TWO, b38=1), 7, 'byte 38: rater 2 has 1 here; expected a zero byte')
        self.not_taken('unpack', with_bytes(self.TWO, b39=5), 7, 'byte 39: rater 2 has 5 here')

    def test_rows_of_every_rater(self) -> None:
        def refused(row: tuple, number: int, place: str, counts: str = 'obligors', first: tuple = (5, 2, 0)) -> None:
            good = ('obligors', [(5, 2, 0)])
            self.not_taken('unpack', book_of([good, good, (counts, [first, row])]), number, place)
        refused((5, 6, 0), 8, 'byte 62 (rater 3, grade 2, defaults)')
        for counts in ('obligors', 'survivors'):
            refused((0, 0, 0), 9, 'byte 46 (rater 3, all grades): nobody is in any grade', counts, (0, 0, 0))
        refused((5, 0, 1000001), 10, 'byte 66 (rater 3, grade 2, announced)')
        refused((999996, 0, 0), 11, 'byte 58 (rater 3, grade 2, obligors)')
        refused((999993, 1, 0), 11, 'byte 58 (rater 3, grade 2, survivors)', 'survivors')
        refused((2**32 - 1, 2**32 - 1, 0), 11, 'byte 58', 'survivors')

    def test_the_order_is_that_of_load(self) -> None:
        self.not_taken('unpack', with_bytes(self.TWO, b8=0, b9=2, b6=0), 6)
        self.not_taken('unpack', with_bytes(self.TWO, b8=40, b9=2), 7)
        self.not_taken('unpack', with_bytes(self.TWO, b4=9, b8=0), 31, 'byte 4')
        self.not_taken('unpack', with_bytes(self.TWO, b9=2, b6=0), 7)
        self.not_taken('unpack', with_bytes(self.TWO, b16=200, b37=2), 7)
        self.not_taken('unpack', book_of([('obligors', [(0, 1, 1000001)])]), 8)
        self.not_taken('unpack', book_of([('obligors', [(0, 0, 1000001)])]), 10)
        self.not_taken('unpack', book_of([('obligors', [(0, 0, 0), (0, 1, 0)])]), 8)
        self.not_taken('unpack', book_of([('obligors', [(0, 0, 0)]), ('obligors', [(1, 2, 0)])]), 9)
        self.not_taken('unpack', book_of([('obligors', [(2000000, 0, 0), (1, 0, 1000001)])]), 10)
        self.not_taken('unpack', book_of([('obligors', [(2000000, 0, 0)]), ('obligors', [(1, 2, 0)])]), 11)
        self.not_taken('unpack', book_of([('obligors', [(1, 0, 5), (1, 0, 4), (1, 2, 1000001)])]), 34, 'byte 30 (rater 1, grade 2, announced)')
        self.not_taken('unpack', book_of([('obligors', [(2000000, 0, 5), (0, 0, 4)])]), 34)


class AtRandom(Converting):
    def rows(self, source: random.Random) -> list[tuple]:
        """Rows that either kind accepts: the first column is at least the defaults, all add up to at most 1,000,000, and no rate falls. Some
        are empty."""
        grades = source.choice((1, 2, 5, 40))
        largest, occupied, least = source.choice((1, 9, 300, 500_000 // grades)), source.randrange(grades), source.choice((0, 1))
        firsts = [source.randint(1 if grade == occupied else least, largest) for grade in range(grades)]
        return in_order([(first, source.randint(0, first), source.choice((0, 1_000_000, source.randint(0, 1_000_000)))) for first in firsts])

    def test_round_trips(self) -> None:
        source = random.Random(1)
        for _ in range(100):
            tables = [(source.choice(('obligors', 'survivors')), self.rows(source)) for _ in range(source.choice((1, 1, 2, 3, 16)))]
            content, text = book_of(tables), csv_text(tables)
            self.assertEqual(self.packed(text), content)
            self.assertEqual(self.unpacked(content), text)
            self.assertEqual(self.packed('\ufeff' + csv_text(tables, ';', '\r\n')), content)
            self.assertEqual(self.packed(*(csv_text([table]) for table in tables)), content)
            self.see_json(content, tables)

    def see_json(self, content: bytes, tables: list) -> None:
        found = self.answered('unpack', self.put('in.book', content), '--json').data()
        self.assertEqual([(table['counts'], [tuple(row.values()) for row in table['rows']]) for table in found['tables']], tables)
        packed = self.answered('pack', self.put('in.csv', csv_text(tables)), '-o', self.path('out.book'), '--json').data()
        names = ['in'] if len(tables) == 1 else [f'rater {number}' for number in range(1, len(tables) + 1)]
        scales = [Scale(name, self.path('in.csv'), number, *table) for number, (name, table) in enumerate(zip(names, tables), 1)]
        self.assertEqual((packed['book'], packed['bytes'], packed['raters']),
                         (self.path('out.book'), len(content), [rater_data(scale) for scale in scales]))


if __name__ == '__main__':
    unittest.main()
