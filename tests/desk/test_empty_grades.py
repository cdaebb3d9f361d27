"""Tests grades that nobody is in (document 02, R-4), of the module and of the command: they load, add nothing to any answer and repeat the
numbers of another grade, which are shown only where they are asked for.

    python3 tests/desk/test_empty_grades.py     # from anywhere
"""
from __future__ import annotations

from fractions import Fraction
from typing import Iterator
import os
import random
import sys
import unittest

sys.dont_write_bytecode = True
sys.path.insert(0, os.path.dirname(os.path.abspath(__file__)))
from running import Case, ask, book_of, content_of, csv_text, example  # noqa: E402
from converting import OBLIGORS, SURVIVORS, Converting  # noqa: E402
from definitions import cheapest, pooled, repeats  # noqa: E402
from scales import FITCH_CCC, by, rater_of  # noqa: E402
from test_ranges import pair  # noqa: E402
import printed  # noqa: E402
from desk import Desk, Table, price_ranges, read_book, write_book  # noqa: E402
from desk.costs import CountCosts  # noqa: E402

EMPTY = (0, 0, 0)
OF_A_BLOCK = ('block_defaults', 'block_obligors', 'band', 'repeats')


def occupied_rows(source: random.Random, grades: int) -> list[tuple]:
    """Grades with obligors, whose announced rates never fall."""
    sizes = [source.randint(1, source.choice((3, 40, 20_000))) for _ in range(grades)]
    rates = sorted(source.randint(0, 1_000_000) for _ in sizes)
    return [(n, source.choice((0, n, source.randint(0, n), source.randint(0, n))), rate) for n, rate in zip(sizes, rates)]


def with_empty(source: random.Random, rows: list[tuple], most: int = 40) -> list[tuple]:
    """The same with empty grades between them, before the first and behind the last, with the announced rate of a neighbour."""
    found = list(rows)
    for _ in range(source.randint(1, most - len(rows))):
        at = source.choice((0, len(found), source.randint(0, len(found))))
        found.insert(at, (0, 0, found[min(at, len(found) - 1)][2]))
    return found


def tables(times: int, seed: int) -> Iterator[tuple[list[tuple], list[tuple]]]:
    """Tables without empty grades, each with the same that has some."""
    source = random.Random(seed)
    for _ in range(times):
        rows = occupied_rows(source, source.choice((1, 2, 3, 6, 12)))
        yield rows, with_empty(source, rows, source.choice((len(rows) + 1, 16, 40)))


def table_of(rows: list[tuple], counts: str = 'obligors') -> Table:
    return Table.of_rows(counts, by(counts, rows), 'a')


def loaded(*all_rows: list[tuple]) -> Desk:
    desk = Desk()
    for place, rows in enumerate(all_rows, 1):
        desk.load(place, table_of(rows, ('obligors', 'survivors')[place % 2]))
    return desk


class Pooling(unittest.TestCase):
    def test_what_is_repeated(self) -> None:
        for _, rows in tables(200, 1):
            found, table = loaded(rows).pool(1), table_of(rows)
            self.assertEqual([tuple(block) for block in found], [tuple(block) for block in pooled(rows)], rows)
            self.assertEqual(list(table.repeats), repeats(rows))
            for number, repeated in enumerate(table.repeats):
                self.assertEqual(repeated is None, rows[number][0] > 0)
                self.assertEqual(found[number], found[number if repeated is None else repeated - 1])

    def test_the_occupied_grades_are_pooled_as_if_alone(self) -> None:
        for alone, rows in tables(200, 2):
            found = loaded(alone, rows)
            self.assertEqual(found.pool(1), [block for block, row in zip(found.pool(2), rows) if row[0]])
            self.assertEqual(CountCosts(found, 1).break_even(), CountCosts(found, 2).break_even())

    def test_the_worked_way(self) -> None:
        """The next better occupied grade, not the nearest and not the next worse; of the first grades the best occupied one."""
        rows = [EMPTY, EMPTY, (10, 1, 0), EMPTY, EMPTY, (10, 4, 0), (10, 2, 0), EMPTY]
        self.assertEqual(table_of(rows).repeats, (3, 3, None, 3, 3, None, None, 7))
        self.assertEqual([block[:2] for block in loaded(rows).pool(1)], [(1, 10)] * 5 + [(6, 20)] * 3)


class SameAnswers(unittest.TestCase):
    """A table with empty grades, and the same without them."""

    def test_figures(self) -> None:
        for alone, rows in tables(150, 3):
            desk = loaded(alone, rows)
            self.assertEqual(desk.brier(1).written, desk.brier(2).written)
            self.assertEqual(desk.spread(1), desk.spread(2))
            if 0 < sum(d for _, d, _ in alone) < sum(n for n, _, _ in alone):
                one, other = desk.measures(1), desk.measures(2)
                self.assertEqual([each.written for each in one[2:6]], [each.written for each in other[2:6]])
                self.assertEqual(one.cutoff, sum(n > 0 for n, _, _ in rows[len(rows) - other.cutoff:]))
                self.assertEqual(desk.compare().kind.name, 'EQUAL')
                self.assertEqual({each.cheaper for each in price_ranges(desk)}, {'both'})

    def test_price_ranges(self) -> None:
        source = random.Random(4)
        for _ in range(150):
            first, second = ([(n, d, 0) for n, d in scale] for scale in pair(source, (source.randint(1, 30), source.randint(1, 300)), 8))
            alone, desk = loaded(first, second), loaded(with_empty(source, first), with_empty(source, second, 20))
            self.assertEqual(price_ranges(desk), price_ranges(alone))
            self.assertEqual(desk.compare().kind, alone.compare().kind)

    def test_cutoffs_number_all_grades(self) -> None:
        source = random.Random(5)
        for alone, rows in tables(150, 5):
            desk = loaded(alone, rows)
            for prices in ((1, 1), (source.randint(0, 50), source.randint(0, 5)), (1_000_000, 999_999)):
                found = desk.cheapest(2, *prices)
                self.assertEqual(tuple(found), cheapest(rows, *prices))
                self.assertEqual(found.cost, desk.cheapest(1, *prices).cost)
                self.assertTrue(found.cutoff == 0 or rows[len(rows) - found.cutoff][0], 'the best grade turned away is empty')

    def test_books(self) -> None:
        for _, rows in tables(60, 6):
            made = [table_of(rows), table_of(rows, 'survivors')]
            self.assertEqual(read_book(write_book(made)), made)
            self.assertEqual(loaded(rows).write(), write_book(made[:1]))


class Showing(Case):
    def grades(self, path: str, *words: str) -> list[tuple]:
        """What is said of each grade's block, as JSON."""
        data = self.answered('show', path, *words, '--json').data()
        return [tuple(grade[key] for key in OF_A_BLOCK) for grade in data['grades']]

    def test_only_where_it_is_asked_for(self) -> None:
        path = self.put('a.csv', OBLIGORS + '0,0,5000\n100,1,9000\n0,0,9500\n200,9,45000\n0,0,60000\n0,0,70000\n')
        one, other, none = (1, 100, 7), (9, 200, 9), (None,) * 4
        self.assertEqual(self.grades(path), [none, (*one, None), none, (*other, None), none, none])
        self.assertEqual(self.grades(path, '--repeated'), [(*one, 2), (*one, None), (*one, 2), (*other, None), (*other, 4), (*other, 4)])
        unasked, asked = (printed.in_full(self.answered('show', path, *words).out) for words in ([], ['--repeated']))
        self.assertEqual(unasked['grades'][2], ['3', '0', '0', '0', '-', '-', '0.9500%', '-'])
        self.assertEqual(asked['grades'][2], ['3', '0', '0', '0', '-', '1.0000%', '0.9500%', '7'])
        self.assertEqual(len(unasked['about_empty']), 1)
        self.assertIn('--repeated', unasked['about_empty'][0])
        self.assertEqual(asked['about_empty'], [
            'Grade 1 is empty: pool repeats for it the numbers of grade 2, the best occupied one, since none is better.',
            'Grade 3 is empty: pool repeats for it the numbers of grade 2, the next better occupied one.',
            'Grades 5 and 6 are empty: pool repeats for them the numbers of grade 4, the next better occupied one.'])
        for key in ('rater', 'measures', 'spread'):
            self.assertEqual(unasked[key], asked[key])

    def test_nothing_of_it_where_no_grade_is_empty(self) -> None:
        for words in ([example('k.book')], [example('inhouse.csv')], [example('agencies.book'), '2']):
            text = self.answered('show', *words)
            self.assertEqual(text, ask('show', *words, '--repeated'))
            self.assertNotIn('empty', text.out)
            for each in self.grades(*words):
                self.assertIsNone(each[-1])
                self.assertNotIn(None, each[:-1])

    def test_of_all_raters_it_is_wrong_usage(self) -> None:
        path = example('agencies.book')
        for options in (['--repeated'], ['--repeated', '--json']):
            said = self.wrong('show', path, *options)
            self.assertIn('1 (rater 1), 2 (rater 2), 3 (rater 3)', said)
            self.assertIn(f'desk show {path} 1 --repeated', said)

    def test_how_many_are_empty(self) -> None:
        counted = [(21, 2), (21, 0), (21, 1)]
        path = example('agencies.book')
        data = self.answered('show', path, '--json').data()
        self.assertEqual([(line['rater']['grades'], line['rater']['empty_grades']) for line in data['raters']], counted)
        self.assertEqual([line['blocks'] for line in data['raters']], [11, 7, 11])  # as document 001 lists them
        self.assertEqual([cells[2] for cells in printed.at_a_glance(self.answered('show', path).out)['raters']],
                         ['21 (2 empty)', '21', '21 (1 empty)'])
        for number, (grades, empty) in enumerate(counted, 1):
            found = printed.in_full(self.answered('show', path, str(number)).out)['rater']
            self.assertEqual((found['grades'], found['empty_grades']), (grades, empty))

    def test_blocks_are_those_of_the_occupied_grades(self) -> None:
        for alone, rows in tables(40, 7):
            path = self.put('a.book', book_of([('obligors', alone), ('obligors', rows)]))
            one, other = (line['blocks'] for line in ask('show', path, '--json').data()['raters'])
            self.assertEqual(one, other)


class Comparing(Case):
    def test_a_cutoff_is_named_by_an_occupied_grade(self) -> None:
        """B and C are empty. A cutoff that turns D away is 2, not 3 or 4; one that turns all away counts them."""
        path = self.put('a.csv', 'grade,obligors,defaults,announced\n'
                                 'A,10,1,100000\nB,0,0,150000\nC,0,0,200000\nD,6,3,500000\nE,0,0,900000\n')
        other = self.put('b.csv', OBLIGORS + '16,4,250000\n')
        text = self.answered('compare', path, other, '--prices', '2:1', '--prices', '20:1').out
        found = printed.compared(text)
        self.assertEqual([each['first'] for each in found['costs'][-2:]], [{'cutoff': 2, 'cost': 5, 'label': 'D'},
                                                                           {'cutoff': 5, 'cost': 12, 'label': 'A'}])
        self.assertEqual((found['first']['grades'], found['first']['empty_grades'], found['second']['empty_grades']), (5, 3, 0))
        self.assertIn('a is better than b', text)

    def test_with_and_without(self) -> None:
        source = random.Random(8)
        for _ in range(30):
            rows = [(n, d, 0) for n, d in pair(source, (9, 40), 6)[0]]
            path = self.put('a.book', book_of([('obligors', rows), ('survivors', by('survivors', with_empty(source, rows)))]))
            data = self.answered('compare', path, '--prices', '3:1', '--json').data()
            self.assertEqual(data['verdict'], 'equal')
            self.assertEqual(data['prices'][0]['first']['cost'], data['prices'][0]['second']['cost'])


class BothWays(Converting):
    def test_zeros_are_packed_and_unpacked(self) -> None:
        for header, counts in ((OBLIGORS, 'obligors'), (SURVIVORS, 'survivors')):
            text = header + '0,0,100\n0,0,200\n5,0,300\n0,0,400\n7,2,500\n0,0,600\n'
            book = book_of([(counts, [(0, 0, 100), (0, 0, 200), (5, 0, 300), (0, 0, 400), (7, 2, 500), (0, 0, 600)])])
            self.assertEqual(self.packed(text), book)
            self.assertEqual(self.unpacked(book), text)

    def test_at_random(self) -> None:
        for _, rows in tables(40, 9):
            for counts in ('obligors', 'survivors'):
                tables_of_it = [(counts, by(counts, rows))]
                self.assertEqual(self.packed(csv_text(tables_of_it)), book_of(tables_of_it))
                self.assertEqual(self.unpacked(book_of(tables_of_it)), csv_text(tables_of_it))

    def test_a_table_of_zeros_alone_is_9(self) -> None:
        for counts in ('obligors', 'survivors'):
            for grades in (1, 2, 40):
                empty = [(counts, [EMPTY] * grades)]
                for content, command in ((csv_text(empty), 'pack'), (book_of(empty), 'unpack')):
                    self.assertEqual(len(self.not_taken(command, content, 9, 'nobody is in any grade')), 1)
                path = self.put('a.book', book_of(empty))
                for words in (('show', path), ('show', path, '1', '--repeated'), ('compare', path, path)):
                    self.refused(9, *words)

    def test_said_of_a_book_that_was_packed(self) -> None:
        said = self.answered('pack', FITCH_CCC.file, '-o', self.path('out.book')).out
        self.assertIn('5 grades (1 empty), 480 obligors', said)


class Questions(Case):
    def kinds(self, rows: list[tuple]) -> list[str]:
        return [each['about'] for each in ask('show', self.put('a.book', book_of([('obligors', rows)])), '--json').data()['questions']]

    def test_empty_grades_bring_up_none(self) -> None:
        """Nor do they silence one: what is asked is what is asked of the table without them."""
        for alone, rows in tables(150, 10):
            self.assertEqual(self.kinds(rows), self.kinds(alone), rows)

    def test_total(self) -> None:
        """Two grades of one size are no total, whatever empty ones stand beside them; three that add up to the last are."""
        half, empty = (60, 3, 50_000), (0, 0, 50_000)
        for rows in ([half, empty, half], [empty, half, half], [empty, half, empty, empty, half], [half, half, empty]):
            self.assertEqual(self.kinds(rows), [], rows)
        parts = [(20, 1, 50_000), (40, 2, 50_000)]
        for rows in ([*parts, half], [*parts, empty, half], [empty, parts[0], empty, parts[1], half]):
            self.assertEqual(self.kinds(rows), ['total'], rows)
        self.assertEqual(self.kinds([*parts, half, empty]), [])  # a line of totals is the last

    def test_unit(self) -> None:
        """Nobody weighs nothing: a rate of 100% that is announced of an empty grade says nothing about the unit, nor does one of 0."""
        self.assertEqual(self.kinds([(1000, 10, 10_000), (0, 0, 1_000_000)]), [])
        self.assertEqual(self.kinds([(0, 0, 0), (1000, 10, 10_000)]), [])
        self.assertEqual(self.kinds([(0, 0, 1), (1000, 10, 1)]), ['unit'])


class Examples(Case):
    def test_agencies_pool_to_the_source(self) -> None:
        """Document 001 announces its a* of empty grades too. Its shares are rounded, and so the defaults to whole firms."""
        path, found = example('agencies.book'), []
        for rater in (1, 2, 3):
            rows = rater_of(path, rater).grades
            for (n, _, announced), block in zip(rows, loaded(rows).pool(1)):
                self.assertLess(abs(block.rate - Fraction(announced, 1_000_000)), Fraction(1, 1000), (rater, n, announced))
                found += [rater] * (n == 0)
        self.assertEqual(found, [1, 1, 3])

    def test_fitch_from_ccc_down(self) -> None:
        """The published numbers of the source's table 7.1: 149, 3, 97 and 231 ratings; 38.3, 0, 55.7 and 66.2 per cent of them defaulted."""
        self.assertEqual(FITCH_CCC.rows[0][:2], (0, 0))
        self.assertEqual([(n, round(Fraction(1000 * d, n))) for n, d, _ in FITCH_CCC.rows[1:]],
                         [(149, 383), (3, 0), (97, 557), (231, 662)])
        lines = content_of(FITCH_CCC.file).decode().splitlines()
        self.assertEqual(lines[2:], [f'{label},{n},{d},{rate}' for label, (n, d, rate) in zip(FITCH_CCC.labels, FITCH_CCC.rows)])
        said = self.answered('show', FITCH_CCC.file, '--repeated').out
        self.assertIn('Grade 1 is empty: pool repeats for it the numbers of grade 2, the best occupied one, since none is better.', said)


if __name__ == '__main__':
    unittest.main()
