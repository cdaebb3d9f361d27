"""Tests `desk show`: every figure that it prints is computed again from the tables, by document 01's definitions.

    python3 tests/desk/test_command_show.py      # from anywhere
"""
from __future__ import annotations

from collections import Counter
from fractions import Fraction
import os
import random
import re
import sys
import unittest

sys.dont_write_bytecode = True
sys.path.insert(0, os.path.dirname(os.path.abspath(__file__)))
from running import EXAMPLES, Case, ask, book_of, content_of, csv_text, example, examples, run  # noqa: E402
from common import in_order  # noqa: E402
from books import described  # noqa: E402
from definitions import decimal, measures_refusal, spread  # noqa: E402
from expected import about_empty, about_measures, about_sign, grades_data, line_data, measures_data, rater_data  # noqa: E402
from scales import AGENCY, FITCH_CCC, HARBOUR, INHOUSE, VALLEY, Scale, by, kinds_in, rater_of  # noqa: E402
import printed  # noqa: E402

GRADES_HEADING = ['grade', 'obligors', 'survivors', 'defaults', 'observed', 'pooled', 'announced', 'band']
GLANCE_HEADING = ['rater', 'name', 'grades', 'obligors', 'survivors', 'defaults', 'rate', 'blocks', 'Gini', 'ROC area', 'CAP area',
                  'Pietra', 'Brier']
MEANINGS = {23: 'no defaults', 24: 'no survivors'}


def percent(numerator: int | None, denominator: int | None) -> str:
    return f'{decimal(Fraction(100 * numerator, denominator), 4)}%' if denominator else '-'


def grade_cells(grade: dict) -> list[str]:
    """The cells of a grade as text, of the same grade as data."""
    rates = [percent(grade['defaults'], grade['obligors']), percent(grade['block_defaults'], grade['block_obligors']),
             percent(grade['announced_ppm'], 1_000_000)]
    counts = [str(grade[key]) for key in ('obligors', 'survivors', 'defaults')]
    return [str(grade['grade']), *filter(None, [grade['label']]), *counts, *rates, '-' if grade['band'] is None else str(grade['band'])]


def glance_cells(line: dict, refusal: int | None) -> list[str]:
    """The cells of a rater among others, of the same rater as data, and of the number with which it or its measures are refused."""
    start, rater = [str(line['number']), line['name']], line['rater']
    if rater is None:
        return start + [f'refused {refusal}']
    counts = [str(rater[key]) for key in ('grades', 'obligors', 'survivors', 'defaults')]
    counts[0] += f' ({rater["empty_grades"]} empty)' if rater['empty_grades'] else ''
    curves = [line['measures'][name] for name in ('gini', 'roc', 'cap', 'pietra')]
    return [*start, *counts, percent(rater['defaults'], rater['obligors']), str(line['blocks']),
            *(curve['decimal'] if curve else f'refused {refusal}' for curve in curves), line['measures']['brier']['decimal']]


class Showing(Case):
    def shown(self, scale: Scale, *words: str) -> dict:
        """What is answered of one rater, seen to be what the definitions say, as JSON and as text, with and without what is repeated."""
        self.shown_so(scale, True, *words, '--repeated')
        return self.shown_so(scale, False, *words)

    def shown_so(self, scale: Scale, repeated: bool, *words: str) -> dict:
        refusal = measures_refusal(scale.grades)
        as_data, as_text = (ask('show', scale.file, *words, *more) for more in (['--json'], []))
        self.assertEqual((as_data.status, as_text.status), (1 if refusal else 0,) * 2, as_text.err)
        data, text = as_data.data(), printed.in_full(as_text.out)
        grades = grades_data(scale, repeated)
        self.assertEqual(data, {'command': 'show', 'rater': rater_data(scale), 'grades': grades, 'measures': measures_data(scale.grades),
                                'spread': data['spread'], 'refusals': data['refusals'], 'questions': data['questions']})
        self.assertEqual([each['number'] for each in data['refusals']], [refusal] if refusal else [])
        self.assertEqual(text, {'rater': data['rater'], 'heading': GRADES_HEADING, 'grades': [grade_cells(grade) for grade in grades],
                                'about_empty': about_empty(scale.grades, repeated), 'measures': data['measures'],
                                'about': about_measures(data['measures']), 'spread': data['spread']})
        self.see_spread(scale, data['spread'])
        if refusal:
            self.assertIn(f'refused {refusal}: {MEANINGS[refusal]}; the measures of {scale.name}', as_text.err)
            self.assertEqual(as_text.out.count(f'refused {refusal}'), 5)
        return data

    def see_spread(self, scale: Scale, found: dict) -> None:
        """Both floats are as near as document 01 wants them."""
        total, residual = spread(scale.grades)
        self.assertLessEqual(abs(Fraction(found['total']) - total), Fraction(1, 2 ** 36))
        self.assertLessEqual(abs(Fraction(found['residual']) - residual), Fraction(1, 2 ** 29))


class Examples(Showing):
    def test_every_rater_of_every_book_that_loads(self) -> None:
        seen = 0
        for name in examples('.book'):
            path = example(name)
            raters = len(kinds_in(content_of(path)))
            for number in range(1, raters + 1):
                if name == 'refusals.book' and number > 4:
                    continue
                scale = rater_of(path, number)
                self.shown(scale._replace(name=name[:-len('.book')]) if raters == 1 else scale, str(number))
                seen += 1
        self.assertGreater(seen, 10)

    def test_names_of_grades(self) -> None:
        for scale in (INHOUSE, AGENCY, FITCH_CCC, HARBOUR, VALLEY):
            self.shown(scale)
            self.shown(scale, '1')
            self.shown(scale, scale.name)

    def test_table_e_has_the_bands_of_document_01(self) -> None:
        data = self.shown(rater_of(example('five.book'), 1)._replace(name='five'))
        self.assertEqual([grade['band'] for grade in data['grades']], [10, 12, 13, 14, 14])
        self.assertEqual(data['measures']['gini']['decimal'], '0.820000')

    def test_a_scale_that_is_upside_down(self) -> None:
        rows = [(2, 2, 0), (2, 0, 0)]
        found = self.shown(Scale('a', self.put('a.book', book_of([('obligors', rows)])), 1, 'obligors', rows))['measures']
        self.assertEqual((found['pietra']['decimal'], found['pietra_cutoff']), ('-1.000000', 1))

    def test_columns_stand_below_each_other(self) -> None:
        for path in (INHOUSE.file, example('portfolio.book')):
            table = printed.sections(self.answered('show', path).out)[1]
            lines = table[:-2] if path == INHOUSE.file else table
            for end in [found.end() for found in re.finditer('[a-zA-Z]+(?: [a-z]+)?', lines[0])][2:]:
                self.assertTrue(all(line[end - 1] != ' ' and line[end:end + 1] in ('', ' ') for line in lines), lines)

    def test_as_a_process(self) -> None:
        for words in ([example('k.book')], [example('refusals.book')], [example('refusals.book'), '2', '--json']):
            self.assertEqual(run('show', *words), ask('show', *words))

    def test_no_question_about_a_shipped_example(self) -> None:
        for name in examples('.book') + examples('.csv'):
            self.assertNotIn('note:', ask('show', example(name)).err)


class AllRaters(Showing):
    def glanced(self, path: str, scales: list[Scale], refusals: list[int | None]) -> None:
        """All raters of a file, with the number that load or measures refuse each with. A scale without rows is refused."""
        as_data, as_text = ask('show', path, '--json'), ask('show', path)
        self.assertEqual((as_data.status, as_text.status), (1 if any(refusals) else 0,) * 2)
        data, text, lines = as_data.data(), printed.at_a_glance(as_text.out), [line_data(scale) for scale in scales]
        self.assertEqual(data, {'command': 'show', 'file': path, 'raters': lines, 'refusals': data['refusals'],
                                'questions': data['questions']})
        self.assertEqual([each['number'] for each in data['refusals']], list(filter(None, refusals)))
        self.assertEqual(text, {'file': path, 'count': len(scales), 'heading': GLANCE_HEADING,
                                'raters': [glance_cells(line, refusal) for line, refusal in zip(lines, refusals)],
                                'about': about_sign(*(line['measures'] for line in lines))})

    def test_all_of_portfolio(self) -> None:
        path = example('portfolio.book')
        self.glanced(path, [rater_of(path, number) for number in range(1, 5)], [None] * 4)

    def test_all_agencies(self) -> None:
        path = example('agencies.book')
        self.glanced(path, [rater_of(path, number) for number in range(1, 4)], [None] * 3)

    def test_refused_ones_among_them(self) -> None:
        path = example('refusals.book')
        rows = [rows for _, rows in described(os.path.join(EXAMPLES, 'books.txt'))['refusals.book'].tables]
        refusals = [None, 23, 24, None, 9, 8, 10, 11, 34]
        scales = [Scale(f'rater {number}', path, number, 'obligors', [] if number > 4 else each) for number, each in enumerate(rows, 1)]
        self.glanced(path, scales, refusals)

    def test_a_rater_that_is_refused_is_not_shown(self) -> None:
        for number, refusal, place in ((5, 9, 'all grades'), (6, 8, 'grade 2, '), (7, 10, 'grade 2, '), (8, 11, 'grade 2, '),
                                       (9, 34, 'grade 2, announced')):
            line, = self.refused(refusal, 'show', example('refusals.book'), str(number))
            self.assertRegex(line, rf'byte \d+ \(rater {number}, {place}')

    def test_one_that_is_upside_down_among_them(self) -> None:
        tables = [('obligors', rows) for rows in ([(2, 0, 0), (2, 2, 0)], [(2, 2, 0), (2, 0, 0)], [(2, 0, 0)])]
        path = self.put('a.book', book_of(tables))
        scales = [Scale(f'rater {number}', path, number, *each) for number, each in enumerate(tables, 1)]
        self.glanced(path, scales, [None, None, 23])
        self.assertIn('A negative Pietra', ask('show', path).out)

    def test_names_in_a_file_of_several(self) -> None:
        tables = [('obligors', [(3, 1, 5)]), ('survivors', [(3, 1, 5), (1, 2, 6)])]
        path = self.put('a.csv', 'name,In-house\n' + csv_text(tables))
        named = enumerate(zip(('In-house', 'rater 2'), tables), 1)
        self.glanced(path, [Scale(name, path, number, *each) for number, (name, each) in named], [None, None])

    def test_which_rater(self) -> None:
        path = example('portfolio.book')
        self.assertIn('1 (rater 1), 2 (rater 2), 3 (rater 3), 4 (rater 4)', self.wrong('show', path, 'S&P'))
        for word in ('', 'rater 1', 'portfolio'):  # as it is shown, not as the file names it
            self.assertIn('1 (rater 1)', self.wrong('show', path, word))
        for word in ('0', '5', '00'):
            self.assertIn('this file has 4', self.refused(4, 'show', path, word)[0])


class AtRandom(Showing):
    def rows(self, source: random.Random) -> tuple[str, list]:
        """A table that loads, of either kind; some have no defaults or no survivors, empty grades, or are as large as can be."""
        grades = source.choice((1, 2, 3, 7, 7, 15, 40))
        largest = source.choice((1, 3, 50, 1_000_000 // grades))
        few, share, occupied = source.choice((0, 1, 1, 1, 2)), source.choice((0, 0, 0.2, 0.8)), source.randrange(grades)
        rows = []
        for grade in range(grades):
            obligors = 0 if source.random() < share and grade != occupied else source.randint(1, largest)
            defaults = 0 if few == 0 else obligors if few == 2 else source.randint(0, obligors)
            rows.append((obligors, defaults, source.choice((0, 1_000_000, source.randint(0, 1_000_000)))))
        counts = source.choice(('obligors', 'survivors'))
        return counts, by(counts, in_order(rows))

    def test_three_hundred_tables(self) -> None:
        source, refusals, empty = random.Random(2), Counter(), Counter()
        for _ in range(300):
            counts, rows = self.rows(source)
            path = self.put('a.book', book_of([(counts, rows)]))
            scale = Scale('a', path, 1, counts, rows)
            self.shown(scale)
            refusals[measures_refusal(scale.grades)] += 1
            occupied = [n > 0 for n, _, _ in scale.grades]
            empty.update(top=not occupied[0], bottom=not occupied[-1], some=not all(occupied), none=all(occupied))
        self.assertTrue(all(refusals[number] >= 20 for number in (None, 23, 24)), refusals)
        self.assertTrue(min(empty.values()) >= 30, empty)

    def test_rates_midway_between_two_decimals(self) -> None:
        """Of 128 obligors each is 0.78125%, of which four places are shown."""
        rows = [(128, defaults, 0) for defaults in range(1, 41)]
        self.shown(Scale('a', self.put('a.book', book_of([('obligors', rows)])), 1, 'obligors', rows))

    def test_rates_at_the_limit_of_each_band(self) -> None:
        """1,000,000 obligors, so that each limit of 100 times 2^b ppm is met, and passed by one default."""
        for b in range(14):
            for more in (0, 1):
                rows = [(1_000_000, 100 * 2 ** b + more, 0)]
                data = self.shown(Scale('a', self.put('a.book', book_of([('obligors', rows)])), 1, 'obligors', rows))
                self.assertEqual(data['grades'][0]['band'], b + more)


if __name__ == '__main__':
    unittest.main()
