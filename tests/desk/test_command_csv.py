"""Tests how `desk pack` takes CSV files: tables in one or several, what is refused with its line and column, and in which order.

How the text of a file is understood is shown by test_csv_file.py.

    python3 tests/desk/test_command_csv.py      # from anywhere
"""
from __future__ import annotations

import os
import sys
import unittest

sys.dont_write_bytecode = True
sys.path.insert(0, os.path.dirname(os.path.abspath(__file__)))
from running import book_of, csv_text  # noqa: E402
from converting import BOOK_K, OBLIGORS, SURVIVORS, Converting  # noqa: E402


class Layout(Converting):
    """How tables stand in CSV files."""

    def test_raters_in_one_file_or_in_several_or_both(self) -> None:
        first, second, third = OBLIGORS + '5,2,1\n', SURVIVORS + '5,2,1\n', OBLIGORS + '6,0,7\n'
        expected = book_of([('obligors', [(5, 2, 1)]), ('survivors', [(5, 2, 1)]), ('obligors', [(6, 0, 7)])])
        self.assertEqual(self.packed(f'{first}\n{second}\n{third}'), expected)
        self.assertEqual(self.packed(first, second, third), expected)
        self.assertEqual(self.packed(first, f'{second}\n{third}'), expected)
        self.assertEqual(self.unpacked(expected), f'{first}\n{second}\n{third}')

    def test_a_later_table_needs_a_header(self) -> None:
        self.not_taken('pack', OBLIGORS + '1,0,0\n\n2,0,0\n', None, 'line 4', 'A blank line ends a table', 'still looks right')

    def test_nothing_in_it(self) -> None:
        for text in ('\n\n', '\ufeff', ',,\r\n'):
            self.not_taken('pack', text, 3, 'no table is in it')
        self.not_taken('pack', '', 2)

    def test_not_text(self) -> None:
        self.not_taken('pack', OBLIGORS.encode() + b'1,0,0\n1\xa0000,0,0\n', None, 'line 3', 'not UTF-8')

    def test_the_other_kind_of_file(self) -> None:
        self.not_taken('pack', BOOK_K, None, 'this is a book already, not CSV')
        self.not_taken('unpack', OBLIGORS + '1,0,0\n', None, 'this is CSV already, not a book')


class Header(Converting):
    def test_a_header_that_says_neither_or_both(self) -> None:
        for header in ('n,defaults,announced', 'obligor,defaults,announced', 'firms,defaults,announced', '10,defaults,announced',
                       'obligors,survivors,defaults,announced', 'obligors/survivors,defaults,announced',
                       'Obligors,defaults,announced,SURVIVORS'):
            with self.subTest(header):
                self.not_taken('pack', f'{header}\n10,2,30\n', None, 'line 1', 'survivors taken for obligors changes the default rates',
                               'can make the losing scale win', 'every figure still looks right')

    def test_why_it_matters(self) -> None:
        """At prices 3 and 2 the first rater costs 5 and the second 6. Survivors taken for obligors say 3 and 2."""
        first, second = '4,1,200000\n1,1,500000\n', '2,0,0\n3,2,400000\n'
        for header, costs in ((SURVIVORS, [5, 6]), (OBLIGORS, [3, 2])):
            path = self.put('a.csv', f'{header}{first}\n{header}{second}')
            found, = self.answered('compare', path, '--prices', '3:2', '--json').data()['prices']
            self.assertEqual([found[key]['cost'] for key in ('first', 'second')], costs)

    def test_a_later_header_is_read_like_the_first(self) -> None:
        self.not_taken('pack', OBLIGORS + '1,0,0\n\nfirms,defaults,announced\n1,0,0\n', None, 'line 4', 'still looks right')


class Cells(Converting):
    def test_all_of_them_are_told(self) -> None:
        lines = self.not_taken('pack', OBLIGORS + 'a,0,0\n1,b,0\n1,0,c\n', None)
        self.assertEqual([(line.split(', line ')[1].split(':')[0]) for line in lines],
                         ['2, column 1 (obligors)', '3, column 2 (defaults)', '4, column 3 (announced)'])


class Numbers(Converting):
    """What load would refuse, found in the CSV."""

    def test_3_raters(self) -> None:
        table = OBLIGORS + '1,0,0\n'
        self.assertEqual(self.packed(*[table] * 16), book_of([('obligors', [(1, 0, 0)])] * 16))
        self.not_taken('pack', '\n'.join([table] * 17), 3, 'line 49: rater 17 starts here')
        files = [self.put(f'{number}.csv', table) for number in range(17)]
        self.assertIn(f'{files[16]}, line 1: rater 17 starts here', self.refused(3, 'pack', *files, '-o', self.path('17.book'))[0])
        self.assertFalse(os.path.exists(self.path('17.book')))

    def test_6_grades(self) -> None:
        self.assertEqual(self.packed(SURVIVORS + '1,0,0\n' * 40), book_of([('survivors', [(1, 0, 0)] * 40)]))
        self.not_taken('pack', SURVIVORS + '1,0,0\n' * 41, 6, 'line 42')
        self.not_taken('pack', OBLIGORS, 6, 'line 1')
        self.not_taken('pack', OBLIGORS + '1,0,0\n\n' + SURVIVORS + '\n' + OBLIGORS + '1,0,0\n', 6, 'line 4')

    def test_8_defaults_above_obligors(self) -> None:
        self.assertEqual(self.packed(OBLIGORS + '3,3,0\n'), book_of([('obligors', [(3, 3, 0)])]))
        self.not_taken('pack', OBLIGORS + '3,3,0\n3,4,0\n', 8, 'line 3, column 2 (defaults): 4 defaults are above 3 obligors', 'survivors')
        self.assertEqual(self.packed(SURVIVORS + '3,4,0\n'), book_of([('survivors', [(3, 4, 0)])]))

    def test_9_all_grades_empty(self) -> None:
        for header, counts in ((OBLIGORS, 'obligors'), (SURVIVORS, 'survivors')):
            for rows in ('0,0,0\n', '0,0,0\n' * 40):
                line, = self.not_taken('pack', header + rows, 9)
                self.assertTrue(line.endswith('in, line 1: nobody is in any grade; at least one has to have an obligor'), line)
                self.not_taken('pack', f'{header}1,0,0\n\n{header}{rows}', 9, 'line 4: nobody')
            for rows in ([(1, 0, 0), (0, 0, 0)], [(0, 0, 0), (1, 0, 0)], [(0, 0, 0)] * 39 + [(1, 1, 0)]):
                self.assertEqual(self.packed(csv_text([(counts, rows)])), book_of([(counts, rows)]))
        self.assertEqual(self.packed(SURVIVORS + '0,1,0\n'), book_of([('survivors', [(0, 1, 0)])]))

    def test_10_announced(self) -> None:
        self.assertEqual(self.packed(OBLIGORS + '1,0,1000000\n'), book_of([('obligors', [(1, 0, 1000000)])]))
        self.not_taken('pack', OBLIGORS + '1,0,0\n1,0,1000001\n', 10, 'line 3, column 3 (announced): the announced rate 1000001')
        self.not_taken('pack', OBLIGORS + '1,0,999999999999999999\n', 10, 'line 2, column 3 (announced)')

    def test_11_total(self) -> None:
        self.assertEqual(self.packed(OBLIGORS + '999999,0,0\n1,0,0\n'), book_of([('obligors', [(999999, 0, 0), (1, 0, 0)])]))
        self.assertEqual(self.packed(SURVIVORS + '999998,1,0\n0,1,0\n'), book_of([('survivors', [(999998, 1, 0), (0, 1, 0)])]))
        self.not_taken('pack', OBLIGORS + '1,0,0\n999999,0,0\n1,0,0\n', 11, 'line 4, column 1 (obligors): the table has 1000001')
        self.not_taken('pack', SURVIVORS + '0,1,0\n1,1000000,0\n', 11, 'line 3, column 1 (survivors): the table has 1000002')
        self.not_taken('pack', SURVIVORS + '4294967295,1,0\n', 11, 'has 4294967296 obligors')
        self.not_taken('pack', OBLIGORS + '999999999999999999,0,0\n', 11, 'line 2, column 1')

    def test_34_a_fall(self) -> None:
        self.assertEqual(self.packed(OBLIGORS + '1,0,5\n0,0,5\n1,0,6\n'), book_of([('obligors', [(1, 0, 5), (0, 0, 5), (1, 0, 6)])]))
        self.not_taken('pack', OBLIGORS + '1,0,5\n1,0,7\n1,0,6\n', 34,
                       'line 4, column 3 (announced): the announced rate 6 ppm is below 7 ppm, that of grade 2 before it')

    def test_columns_are_those_of_the_file(self) -> None:
        self.not_taken('pack', 'grade,announced,obligors,defaults\nA,5,3,4\n', 8, 'line 2, column 4 (defaults)')
        self.not_taken('pack', 'grade,announced,obligors,defaults\nA,5,3,1\nB,4,3,1\n', 34, 'line 3, column 2 (announced)')

    def test_the_order_is_that_of_load(self) -> None:
        self.not_taken('pack', OBLIGORS + '0,1,1000001\n', 8)
        self.not_taken('pack', OBLIGORS + '0,0,1000001\n', 10)
        self.not_taken('pack', OBLIGORS + '0,0,0\n0,1,0\n', 8)
        self.not_taken('pack', OBLIGORS + '0,0,0\n\n' + OBLIGORS + '1,2,0\n', 9)
        self.not_taken('pack', OBLIGORS + '2000000,0,0\n0,0,0\n', 11)
        self.not_taken('pack', OBLIGORS + '1,0,1000001\n1,2,0\n', 10)
        self.not_taken('pack', OBLIGORS + '1,0,5\n1,2,4\n', 8)
        self.not_taken('pack', OBLIGORS + '1,0,5\n1,0,4\n1,2,1000001\n', 34)
        self.not_taken('pack', OBLIGORS + '0,0,5\n0,0,4\n', 34)
        self.not_taken('pack', OBLIGORS + '2000000,0,5\n0,0,4\n', 34)
        self.not_taken('pack', OBLIGORS + '2000000,0,0\n\n' + OBLIGORS + '1,2,0\n', 11)
        self.not_taken('pack', (OBLIGORS + '\n') * 17, 3)

    def test_faults_of_all_files(self) -> None:
        """Files that cannot be read come first, then the raters that are too many, then the tables' own."""
        files = [self.put('a.csv', OBLIGORS + '1,2,0\n'), self.put('b.csv', OBLIGORS + 'x,0,0\n'),
                 self.put('c.csv', (OBLIGORS + '1,0,0\n\n') * 16), self.put('d.book', BOOK_K)]
        lines = self.refused(None, 'pack', *files, '-o', self.path('out.book'))
        found = [next(name for name in ('a.csv', 'b.csv', 'c.csv', 'd.book') if self.path(name) in line) for line in lines]
        self.assertEqual(found, ['b.csv', 'd.book', 'c.csv', 'a.csv'])
        self.assertFalse(os.path.exists(self.path('out.book')))

    def test_the_largest_book(self) -> None:
        rows = [(25000 - grade, grade, 25000 * grade) for grade in range(1, 41)]
        content = book_of([(('obligors', 'survivors')[rater % 2], rows) for rater in range(16)])
        self.assertEqual(len(content), 7780)
        self.assertEqual(self.packed(self.unpacked(content)), content)


if __name__ == '__main__':
    unittest.main()
