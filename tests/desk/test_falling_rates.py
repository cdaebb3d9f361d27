"""Tests announced rates that fall from a row to the next (document 02, R-5), of the module and of the command: refused with 34, in load's
order, and told with the row, by byte or by line and column, and with both rates.

    python3 tests/desk/test_falling_rates.py     # from anywhere
"""
from __future__ import annotations

from itertools import product
from typing import Sequence
import os
import random
import re
import sys
import unittest

sys.dont_write_bytecode = True
sys.path.insert(0, os.path.dirname(os.path.abspath(__file__)))
from running import Case, ask, book_of, content_of, csv_text, example, run  # noqa: E402
from common import Row, exchanged, in_order  # noqa: E402
from converting import OBLIGORS, Converting  # noqa: E402
from definitions import row_faults  # noqa: E402
from scales import INHOUSE  # noqa: E402
from desk import Desk, Refused, Table  # noqa: E402
from desk.book import load_refusals  # noqa: E402
from desk.table import faults  # noqa: E402

MEANING = 'announced rate below that of the row before'
COUNTS = ('obligors', 'survivors')


def with_rates(*announced: int) -> list[Row]:
    """Grades with a survivor each and these announced rates."""
    return [(1, 0, rate) for rate in announced]


def said(rate: int, before: int, grade: int) -> str:
    """What is said of a rate and of the higher one before it, which is that of a grade."""
    return f'the announced rate {rate} ppm is below {before} ppm, that of grade {grade} before it'


def loads(book: bytes, rater: int = 1) -> int | None:
    """The library's own answer."""
    try:
        Desk().load(1, book, rater)
    except Refused as refused:
        return refused.number
    return None


class Rule(unittest.TestCase):
    """What is refused, and which of several faults comes first: by definition, by the library and by the module."""

    def see(self, counts: str, rows: Sequence[Row]) -> list[tuple[int, int | None]]:
        """The faults of these rows by definition, seen to be those of the module; the first is seen to be what the library refuses."""
        expected = row_faults(counts, rows)
        found = [(fault.number, None if fault.number == 11 else fault.grade) for fault in faults(counts, rows)]
        self.assertEqual(found, expected, rows)
        self.assertEqual(loads(book_of([(counts, rows)])), expected[0][0] if expected else None, rows)
        return expected

    def numbers(self, rows: Sequence[Row]) -> list[int]:
        return [number for number, _ in self.see('obligors', rows)]

    def test_every_small_table(self) -> None:
        firsts, rates = ((0, 0), (1, 0), (1, 2), (1_000_000, 0)), (0, 1, 1_000_000, 1_000_001)
        rows = [(*counts, rate) for counts in firsts for rate in rates]
        for grades in (1, 2):
            for table in product(rows, repeat=grades):
                for counts in COUNTS:
                    self.see(counts, table)
        for table in random.Random(1).sample(list(product(rows, repeat=3)), 1500):
            self.see('obligors', table)

    def test_equal_neighbours_pass_and_a_fall_by_one_does_not(self) -> None:
        for rates in ((0,), (1_000_000,), (5, 5), (0, 0, 0), (1_000_000,) * 40, (5, 6, 6, 7), (0, 1_000_000)):
            self.assertEqual(self.numbers(with_rates(*rates)), [])
        for rates in ((5, 4), (1_000_000, 999_999), (1, 0), (5, 5, 4), (4, 5, 4), (5, 4, 5), (5, 4, 4)):
            self.assertEqual(self.numbers(with_rates(*rates)), [34])

    def test_with_the_row_just_before(self) -> None:
        """Not with the first, the highest or the one before that: behind a fall the rates may rise again from where they are."""
        for rates, rows in (((5, 3, 4), [1]), ((5, 9, 8, 7, 8), [2, 3]), ((9, 1, 2, 3, 4), [1]), ((3, 5, 4), [2]), ((1, 5, 4, 2), [2, 3])):
            self.assertEqual(self.see('survivors', with_rates(*rates)), [(34, row) for row in rows])

    def test_in_every_row_but_the_first(self) -> None:
        for grades in (2, 3, 40):
            for row in range(1, grades):
                rates = [100] * row + [99] + [100] * (grades - row - 1)
                self.assertEqual(self.see('obligors', with_rates(*rates)), [(34, row)])

    def test_empty_grades_are_tested_too(self) -> None:
        """At them, and behind them; what stands on their other side is not looked at."""
        one, other = (10, 1, 500), (10, 2, 900)
        for rows, row in (([one, (0, 0, 499), other], 1), ([one, (0, 0, 901), other], 2), ([(0, 0, 501), one, other], 1),
                          ([one, other, (0, 0, 899)], 2), ([one, (0, 0, 600), (0, 0, 599), other], 2), ([(0, 0, 2), (0, 0, 1), one], 1),
                          ([other, (0, 0, 100), one], 1)):
            for counts in COUNTS:
                self.assertEqual(self.see(counts, rows), [(34, row)], rows)
        self.assertEqual(self.numbers([(0, 0, 500), one, (0, 0, 500), (0, 0, 900), other, (0, 0, 900)]), [])

    def test_after_8_of_its_row(self) -> None:
        self.assertEqual(self.numbers([(5, 1, 7), (5, 6, 6)]), [8, 34])
        self.assertEqual(self.see('obligors', [(5, 1, 7), (5, 6, 6), (5, 7, 5)]), [(8, 1), (34, 1), (8, 2), (34, 2)])

    def test_before_the_checks_of_later_rows(self) -> None:
        for later in ((5, 6, 6), (5, 1, 1_000_001), (5, 6, 1_000_001)):
            self.assertEqual(self.numbers([(5, 1, 7), (5, 1, 6), later])[0], 34)

    def test_after_the_checks_of_earlier_rows(self) -> None:
        self.assertEqual(self.numbers([(5, 6, 7), (5, 1, 6)]), [8, 34])
        self.assertEqual(self.numbers([(5, 1, 1_000_001), (5, 1, 8), (5, 1, 7)]), [10, 34])

    def test_before_9_and_11(self) -> None:
        self.assertEqual(self.numbers([(0, 0, 7), (0, 0, 6)]), [34, 9])
        self.assertEqual(self.numbers([(1_000_001, 0, 7), (1, 0, 6)]), [34, 11])
        self.assertEqual(self.numbers([(1_000_000, 0, 7), (1, 0, 6)]), [34, 11])

    def test_behind_a_rate_that_is_refused_itself_no_fall_is_told(self) -> None:
        self.assertEqual(self.see('obligors', with_rates(5, 1_000_001, 6)), [(10, 1)])
        self.assertEqual(self.see('obligors', with_rates(2_000_000, 1_000_001, 1_000_000, 9)), [(10, 0), (10, 1), (34, 3)])

    def test_rates_exchanged_at_random(self) -> None:
        source, times = random.Random(2), 0
        for _ in range(600):
            rows = in_order([(source.choice((0, 1, 30)), 0, source.choice((source.randint(0, 9), source.randint(0, 1_000_000))))
                             for _ in range(source.choice((2, 5, 39)))] + [(1, 1, 0)])
            self.assertEqual(self.see('survivors', rows), [])
            for _ in range(source.choice((1, 1, 3))):
                rows = exchanged(source, rows)
            times += bool(self.see(source.choice(COUNTS), rows))
        self.assertGreater(times, 300)


class InPython(unittest.TestCase):
    def refusal(self, *announced: object) -> Refused:
        zeros = [0] * len(announced)
        with self.assertRaises(Refused) as raised:
            Table(survivors=[1] * len(announced), defaults=zeros, announced=announced)
        return raised.exception

    def test_a_table_names_the_grade_and_both_rates(self) -> None:
        found = self.refusal(500, 12_000, 4000, 35_000)
        self.assertEqual((found.number, found.meaning, found.where), (34, MEANING, f'grade 3: {said(4000, 12_000, 2)}'))
        self.assertEqual(str(found), f'refused 34: {MEANING}; grade 3: {said(4000, 12_000, 2)}')
        self.assertEqual(self.refusal(7.0, 6.0).where, f'grade 2: {said(6, 7, 1)}')
        self.assertTrue(self.refusal(5, 4, 9, 3).where.startswith(f'grade 2: {said(4, 5, 1)}'), 'the first of two')

    def test_a_book_names_the_byte_and_the_rater(self) -> None:
        """Of the announced rate that is the lower one, whichever table it stands in."""
        sound, falling = ('survivors', with_rates(1, 2, 3)), ('obligors', with_rates(1, 9, 2, 3, 1))
        for tables in ([falling], [sound, falling], [sound, sound, falling, sound]):
            rater, book = tables.index(falling) + 1, book_of(tables)
            rows = 4 + 2 * len(tables) + 40 * (rater - 1) + 4
            places = [f'byte {rows + 12 * grade + 8} (rater {rater}, grade {grade + 1}, announced): ' for grade in (2, 4)]
            found = load_refusals(book, rater)
            self.assertEqual([(each.number, each.where) for each in found],
                             [(34, places[0] + said(2, 9, 2)), (34, places[1] + said(1, 3, 4))])
            with self.assertRaises(Refused) as raised:
                Desk().load(2, book, rater)
            self.assertEqual((raised.exception.number, raised.exception.where), (34, found[0].where))
            for byte, rate in zip((rows + 12 * 2 + 8, rows + 12 * 4 + 8), (2, 1)):
                self.assertEqual(int.from_bytes(book[byte:byte + 4], 'little'), rate)

    def test_other_raters_of_a_book_load(self) -> None:
        book = book_of([('obligors', with_rates(1, 2)), ('obligors', with_rates(2, 1)), ('obligors', with_rates(0, 0))])
        self.assertEqual([loads(book, rater) for rater in (1, 2, 3)], [None, 34, None])


class InCsv(Converting):
    """With the line and the column, as they stand in the file."""

    def places(self, text: str) -> list[tuple[str, str]]:
        """The line and column, and the words, of each fall that is refused."""
        lines = self.not_taken('pack', text, 34)
        opening = f'desk: refused 34: {MEANING}; {self.path("in")}, '
        self.assertTrue(all(line.startswith(opening) for line in lines), lines)
        return [tuple(line[len(opening):].split(': ', 1)) for line in lines]

    def test_of_the_lower_rate(self) -> None:
        self.assertEqual(self.places(OBLIGORS + '10,1,500\n10,1,12000\n10,1,4000\n'),
                         [('line 4, column 3 (announced)', said(4000, 12_000, 2))])

    def test_in_the_second_and_in_the_last_line(self) -> None:
        self.assertEqual(self.places(OBLIGORS + '1,0,7\n1,0,6\n1,0,8\n1,0,7\n'),
                         [('line 3, column 3 (announced)', said(6, 7, 1)), ('line 5, column 3 (announced)', said(7, 8, 3))])

    def test_columns_in_any_order_and_lines_above_the_header(self) -> None:
        text = 'sep=;\n\nname;In-house\nANNOUNCED;grade;survivors;note;defaults\n5;A;1;;0\n5;B;0;nobody;0\n4;C;1;;0\n'
        self.assertEqual(self.places(text), [('line 7, column 1 (announced)', said(4, 5, 2))])

    def test_behind_empty_grades(self) -> None:
        self.assertEqual(self.places(OBLIGORS + '1,0,7\n0,0,9\n0,0,8\n1,0,7\n'),
                         [('line 4, column 3 (announced)', said(8, 9, 2)), ('line 5, column 3 (announced)', said(7, 8, 3))])

    def test_in_several_tables(self) -> None:
        fall = '1,0,7\n1,0,6\n'
        self.assertEqual(self.places(f'{OBLIGORS}1,0,9\n\n{OBLIGORS}{fall}\n{OBLIGORS}{fall}'),
                         [('line 6, column 3 (announced)', said(6, 7, 1)), ('line 10, column 3 (announced)', said(6, 7, 1))])

    def test_a_table_starts_anew(self) -> None:
        """Neither in a file nor in a book is the first row of a table compared with the last of the one before."""
        tables = [('obligors', with_rates(8, 9)), ('survivors', with_rates(0, 1))]
        self.assertEqual(self.packed(csv_text(tables)), book_of(tables))
        self.assertEqual(self.packed(*(csv_text([table]) for table in tables)), book_of(tables))
        self.assertEqual(self.unpacked(book_of(tables)), csv_text(tables))

    def test_rates_in_percent_are_told_in_ppm(self) -> None:
        self.assertEqual(self.places(OBLIGORS + '10,1,1.2%\n10,1,0.4%\n'), [('line 3, column 3 (announced)', said(4000, 12_000, 1))])
        self.assertEqual(self.packed(OBLIGORS + '10,1,1.2%\n10,1,1.20%\n'), book_of([('obligors', [(10, 1, 12_000)] * 2)]))

    def test_beside_other_faults(self) -> None:
        lines = self.not_taken('pack', OBLIGORS + '5,1,7\n5,6,6\n5,1,1000001\n5,1,5\n5,1,4\n', 8)
        self.assertEqual([(int(line.split()[2][:-1]), int(re.search(r'line (\d+)', line)[1])) for line in lines],
                         [(8, 3), (34, 3), (10, 4), (34, 6)])

    def test_a_long_file(self) -> None:
        lines = self.not_taken('pack', OBLIGORS + ''.join(f'1,0,{rate}\n' for rate in range(9000, 0, -1)), 6)
        self.assertEqual(len(lines), 9000)


class Causes(unittest.TestCase):
    """Where a fall looks like something else than a wrong rate, that is asked."""

    def whys(self, *rows: Row, counts: str = 'obligors') -> list[str]:
        return [fault.why for fault in faults(counts, rows) if fault.number == 34]

    def test_a_line_of_totals(self) -> None:
        asks = '. Grade 3 has as many obligors and defaults as all others together: is it a total?'
        for total in ((100, 4, 40_000), (100, 4, 0)):
            rows = (60, 1, 20_000), (40, 3, 80_000), total
            self.assertEqual(self.whys(*rows), [said(total[2], 80_000, 2) + asks])
            self.assertEqual(self.whys(*((n - d, d, rate) for n, d, rate in rows), counts='survivors'), [said(total[2], 80_000, 2) + asks])
        self.assertEqual(self.whys((0, 3, 10), (5, 1, 20), (5, 4, 6), counts='survivors'), [said(6, 20, 2) + asks])

    def test_no_line_of_totals(self) -> None:
        """Another sum, one grade before it, one occupied grade before it, and a total that is not the last row."""
        for rows in ([(60, 1, 20_000), (40, 3, 80_000), (101, 4, 1)], [(60, 1, 20_000), (40, 3, 80_000), (100, 5, 1)],
                     [(60, 1, 20_000), (60, 1, 1)], [(0, 0, 10), (60, 1, 20_000), (60, 1, 1)],
                     [(60, 1, 20_000), (40, 3, 80_000), (100, 4, 1), (1, 0, 5)]):
            self.assertNotIn('?', self.whys(*rows)[0])

    def test_a_total_that_does_not_fall_is_not_told_here(self) -> None:
        self.assertEqual(self.whys((60, 1, 20_000), (40, 3, 10_000), (100, 4, 30_000)), [said(10_000, 20_000, 1)])

    def test_a_scale_that_is_upside_down(self) -> None:
        asks = '. No rate rises: is the first row the best grade?'
        self.assertEqual(self.whys(*with_rates(9, 8, 8, 2)), [said(8, 9, 1) + asks, said(2, 8, 3)])
        for rates in ((9, 8), (9, 9, 8), (9, 8, 9), (8, 9, 1), (1, 9, 8, 7), (9, 8, 7, 8)):
            self.assertNotIn('?', self.whys(*with_rates(*rates))[0])


class Commands(Case):
    """Every command that reads tables."""

    def test_nothing_is_answered_or_written(self) -> None:
        tables = [('obligors', [(10, 1, 200_000), (10, 2, 100_000)])]
        book, text, out = self.put('a.book', book_of(tables)), self.put('a.csv', csv_text(tables)), self.path('out')
        byte, cell = f'{book}: byte 30 (rater 1, grade 2, announced)', f'{text}, line 3, column 3 (announced)'
        for place, *words in ((byte, 'show', book), (cell, 'show', text, '1'), (byte, 'compare', book, text), (cell, 'compare', text, book),
                              (byte, 'unpack', book), (byte, 'unpack', book, '-o', out), (cell, 'pack', text, '-o', out)):
            ran, data = ask(*words), ask(*words, '--json').data()
            self.assertEqual((ran.status, ran.out), (1, ''), words)
            self.assertEqual(ran.err.splitlines()[0], f'desk: refused 34: {MEANING}; {place}: {said(100_000, 200_000, 1)}')
            first, file = data['refusals'][0], book if place == byte else text
            self.assertEqual((first['number'], first['meaning'], f'{first["where"]}: {first["why"]}'),
                             (34, MEANING, f'{place}: {said(100_000, 200_000, 1)}'))
            self.assertEqual((file in first['where'], data['questions']), (True, []))
            self.assertFalse(os.path.exists(out))

    def test_of_the_raters_concerned_alone(self) -> None:
        """All that a command reads: of a rater that it was not asked about it says nothing."""
        tables = [('obligors', [(10, 1, 100_000), (10, 2, 200_000)]), ('obligors', [(10, 1, 200_000), (10, 2, 100_000)])]
        for path in (self.put('a.book', book_of(tables)), self.put('a.csv', csv_text(tables))):
            self.assertEqual(self.answered('show', path, '1').err, '')
            self.assertEqual(self.answered('compare', path, path, '1', '1').err, '')
            self.assertEqual(len(self.refused(34, 'show', path, '2')), 1)
            self.assertEqual(len(self.refused(34, 'compare', path)), 1)
            self.assertEqual([line['rater'] is None for line in ask('show', path, '--json').data()['raters']], [False, True])

    def test_every_fall_is_told(self) -> None:
        rates = (5, 4, 3, 9, 9, 8, 10, 0)
        found = self.refused(34, 'show', self.put('a.book', book_of([('survivors', with_rates(*rates))])))
        self.assertEqual([re.search(r'grade (\d+), announced', line)[1] for line in found], ['2', '3', '6', '8'])


class Examples(Case):
    def test_two_swapped_rates_of_the_in_house_scale(self) -> None:
        """B1 and B2 announce each other's rates; all else is as in inhouse.csv."""
        lines = content_of(example('swapped.csv')).decode().splitlines()
        cells = [line.split(',') for line in lines[2:]]
        self.assertEqual([(label, int(n), int(d)) for label, n, d, _ in cells],
                         [(label, n, d) for label, (n, d, _) in zip(INHOUSE.labels, INHOUSE.rows)])
        rates, right = [int(rate) for *_, rate in cells], [rate for _, _, rate in INHOUSE.rows]
        self.assertEqual((rates[:2], rates[2:4], rates[4:]), (right[:2], right[3:1:-1], right[4:]))
        found, = self.refused(34, 'show', example('swapped.csv'))
        self.assertTrue(found.endswith(f'swapped.csv, line 6, column 4 (announced): {said(12_000, 35_000, 3)}'), found)

    def test_rater_9_of_the_refused_ones(self) -> None:
        path = example('refusals.book')
        found, = self.refused(34, 'show', path, '9')
        self.assertTrue(found.endswith(f'{path}: byte 246 (rater 9, grade 2, announced): {said(200_000, 500_000, 1)}'), found)
        self.assertEqual(loads(content_of(path), 9), 34)
        self.assertEqual(run('show', path, '9'), ask('show', path, '9'))


if __name__ == '__main__':
    unittest.main()
