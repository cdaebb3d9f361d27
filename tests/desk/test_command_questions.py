"""Tests what the command asks back: each kind exactly when it should, around its limits, and never with an effect on the answer.

    python3 tests/desk/test_command_questions.py      # from anywhere
"""
from __future__ import annotations

from typing import Iterator
import os
import sys
import unittest
import unittest.mock

sys.dont_write_bytecode = True
sys.path.insert(0, os.path.dirname(os.path.abspath(__file__)))
from running import Case, ask, book_of, example, examples  # noqa: E402
from converting import OBLIGORS  # noqa: E402
from desk.command import questions  # noqa: E402


class Asking(Case):
    def asked(self, *words: str) -> list[tuple[str, str]]:
        """What is asked back, by kind. The text says the same on standard error, and the answer is the one without any question."""
        as_data, as_text = ask(*words, '--json'), ask(*words)
        found = [(each['about'], each['text']) for each in as_data.data()['questions']]
        notes = [line for line in as_text.err.splitlines() if line.startswith('desk: note: ')]
        self.assertEqual(notes, [f'desk: note: {text}' for _, text in found])
        with self.silenced():
            unasked, unasked_data = ask(*words), ask(*words, '--json').data()
        self.assertEqual((as_text.status, as_text.out), (unasked.status, unasked.out))
        self.assertEqual({**as_data.data(), 'questions': unasked_data['questions']}, unasked_data)
        return found

    def silenced(self) -> unittest.mock._patch:
        def none(*_: object) -> Iterator:
            return iter(())
        return unittest.mock.patch.multiple(questions, of_table=none, of_pair=none, of_measures=none)

    def kinds(self, *words: str) -> list[str]:
        return [kind for kind, _ in self.asked(*words)]

    def book(self, *tables: tuple) -> str:
        return self.put('a.book', book_of(list(tables)))

    def of_table(self, *rows: tuple) -> list[tuple[str, str]]:
        """What is asked of one table by obligors."""
        return self.asked('show', self.book(('obligors', rows)))


class FirstColumn(Asking):
    """Two tables with other totals, one of which has as many obligors as the other has survivors."""

    def about(self, first: tuple, second: tuple) -> list[str]:
        found = self.asked('compare', self.book(first, second))
        self.assertLessEqual({kind for kind, _ in found}, {'first_column'})
        return [text for _, text in found]

    def test_survivors_under_the_name_of_obligors(self) -> None:
        """Ten obligors, three of them defaulted; the first table leaves these out and does not say so."""
        right = ('obligors', [(6, 1, 166667), (4, 2, 500000)])
        wrong = ('obligors', [(5, 1, 166667), (2, 2, 500000)])
        said = ' has as many obligors as {} has survivors (7): does its first column count survivors?'
        self.assertEqual(self.about(wrong, right), ['rater 1' + said.format('rater 2')])
        self.assertEqual(self.about(right, wrong), ['rater 2' + said.format('rater 1')])

    def test_obligors_under_the_name_of_survivors(self) -> None:
        right = ('survivors', [(5, 1, 166667), (2, 2, 500000)])
        wrong = ('survivors', [(6, 1, 166667), (4, 2, 500000)])
        said = ' has as many obligors as {0} has survivors (10): does the first column of {0} count obligors?'
        self.assertEqual(self.about(right, wrong), ['rater 1' + said.format('rater 2')])
        self.assertEqual(self.about(wrong, right), ['rater 2' + said.format('rater 1')])

    def test_either_may_be_wrong(self) -> None:
        by_obligors, by_survivors = ('obligors', [(10, 3, 300000)]), ('survivors', [(10, 3, 300000)])
        self.assertEqual(self.about(by_obligors, by_survivors), [
            'rater 1 has as many obligors as rater 2 has survivors (10): does the first column of rater 1 count survivors, or that of '
            'rater 2 obligors?'])
        self.assertEqual(len(self.about(by_survivors, by_obligors)), 1)

    def test_neither_can_be_wrong_so(self) -> None:
        """Survivors that are counted as such, and obligors as such."""
        self.assertEqual(self.about(('survivors', [(7, 3, 300000)]), ('obligors', [(13, 3, 300000)])), [])

    def test_totals_that_agree_or_are_off_by_one(self) -> None:
        self.assertEqual(self.about(('obligors', [(10, 3, 300000)]), ('survivors', [(7, 3, 300000)])), [])
        for obligors in (6, 8):
            self.assertEqual(self.about(('obligors', [(obligors, 3, 300000)]), ('obligors', [(10, 3, 300000)])), [])

    def test_a_table_without_defaults_says_nothing(self) -> None:
        self.assertEqual(self.about(('obligors', [(10, 3, 300000)]), ('obligors', [(10, 0, 300000)])), [])


class Unit(Asking):
    """With 1,000,000 obligors and 1 ppm the observed rate is as many times the announced one as there are defaults."""

    def factor(self, defaults: int, announced: int) -> list[str]:
        found = self.of_table((1_000_000, defaults, announced))
        self.assertLessEqual({kind for kind, _ in found}, {'unit'})
        return [text for _, text in found]

    def test_by_powers_of_ten(self) -> None:
        """A power of ten reaches from its root of ten below to that above: 10^1.5 is 31.6."""
        limits = ((31, 32, None, '1/100 of', 'basis points (1 is 100 ppm)'),
                  (316, 317, 'basis points', '1/1000 of', 'per mille (1 is 1,000 ppm)'),
                  (3162, 3163, 'per mille', '1/10000 of', 'percent (1 is 10,000 ppm)'),
                  (31_622, 31_623, 'percent', '1/100000 of', 'are they in ppm?'),
                  (316_227, 316_228, 'are they in ppm?', '1/1000000 of', 'shares of 1 (1 is 1,000,000 ppm)'))
        for below, above, before, share, unit in limits:
            self.assertEqual([before in text for text in self.factor(below, 1)], [True] if before else [])
            text, = self.factor(above, 1)
            self.assertIn(share, text)
            self.assertIn(unit, text)

    def test_rates_that_are_too_high(self) -> None:
        self.assertEqual(self.factor(1, 31), [])
        for announced, times in ((32, 100), (316, 100), (317, 1000), (1_000_000, 1_000_000)):
            text, = self.factor(1, announced)
            self.assertIn(f'about {times} times the observed ones: are they in ppm?', text)

    def test_nothing_to_judge_by(self) -> None:
        self.assertEqual(self.factor(0, 1_000_000), [])
        self.assertEqual(self.factor(1_000_000, 0), [])
        self.assertEqual(self.factor(500_000, 500_000), [])

    def test_obligors_weigh(self) -> None:
        """One large grade with a rate that fits outweighs a small one whose rate does not."""
        self.assertEqual(self.of_table((999_000, 998, 1000), (1000, 1, 900_000)), [])
        self.assertEqual([kind for kind, _ in self.of_table((1000, 1, 10), (999_000, 1000, 10))], ['unit'])

    def test_percent_for_ppm(self) -> None:
        path = self.put('a.csv', OBLIGORS + '100,1,1\n100,3,3\n100,11,10\n')
        (kind, text), = self.asked('show', path)
        self.assertEqual(kind, 'unit')
        self.assertIn('the announced rates of a are about 1/10000 of the observed ones: they look like percent', text)


class Total(Asking):
    def test_a_line_of_totals(self) -> None:
        rows = [(60, 1, 20000), (40, 3, 80000), (100, 4, 90000)]
        (kind, text), = self.of_table(*rows)
        self.assertEqual(kind, 'total')
        self.assertIn('the last grade of a has as many obligors and defaults as all others together: is it a total?', text)

    def test_a_grade_like_any_other(self) -> None:
        for rows in ([(60, 1, 20000), (40, 3, 80000), (101, 4, 90000)], [(60, 1, 20000), (40, 3, 80000), (100, 5, 90000)],
                     [(60, 3, 50000), (60, 3, 50000)], [(100, 4, 40000), (60, 1, 40000), (40, 3, 80000)], [(5, 1, 200000)]):
            self.assertEqual(self.of_table(*rows), [])


class Direction(Asking):
    def test_by_the_sign_of_gini(self) -> None:
        for rows, expected in ([((2, 2, 500000), (2, 0, 500000)), ['direction']], [((2, 1, 500000), (2, 1, 500000)), []],
                               [((2, 0, 500000), (2, 2, 500000)), []], [((501, 251, 500000), (499, 249, 500000)), ['direction']]):
            self.assertEqual([kind for kind, _ in self.of_table(*rows)], expected)
        (_, text), = self.of_table((2, 2, 500000), (2, 0, 500000))
        self.assertIn('the scale of a looks upside down: its Gini is negative, -1.000000 (-4/4)', text)

    def test_no_gini(self) -> None:
        self.assertEqual(self.of_table((2, 0, 0)), [])


class Reading(Asking):
    def test_percent_is_said(self) -> None:
        percent = self.put('a.csv', OBLIGORS + '100,1,1%\n100,3,2.5%\n')
        (kind, text), = self.asked('show', percent)
        self.assertEqual(kind, 'reading')
        self.assertIn('percent', text)
        self.assertIn(percent, text)
        as_percent = ask('show', percent).out
        self.assertEqual(self.kinds('show', self.put('a.csv', OBLIGORS + '100,1,10000\n100,3,25000\n')), [])
        self.assertEqual(ask('show', percent).out, as_percent)

    def test_of_both_files(self) -> None:
        files = [self.put(name, OBLIGORS + '100,1,1%\n100,3,2.5%\n') for name in ('a.csv', 'b.csv')]
        self.assertEqual(self.kinds('compare', *files), ['reading', 'reading'])


class Everywhere(Asking):
    WITH_TOTAL = OBLIGORS + '60,1,20000\n40,3,80000\n100,4,80000\n'

    def test_every_command_that_reads_tables_asks(self) -> None:
        path = self.put('a.csv', self.WITH_TOTAL)
        self.assertEqual(self.kinds('show', path), ['total'])
        self.assertEqual(self.kinds('compare', path, path), ['total', 'total'])
        self.assertEqual(self.kinds('shortlist', path, path), ['total', 'total'])
        self.assertEqual(self.kinds('pack', path, '-o', self.path('a.book')), ['total'])
        self.assertEqual(self.kinds('unpack', self.path('a.book')), ['total'])
        self.assertEqual(self.kinds('show', self.put('b.csv', self.WITH_TOTAL + '\n' + self.WITH_TOTAL)), ['total', 'total'])

    def test_of_the_raters_concerned_alone(self) -> None:
        path = self.put('b.csv', OBLIGORS + '10,1,100000\n10,2,200000\n\n' + self.WITH_TOTAL)
        self.assertEqual(self.kinds('show', path, '1'), [])
        self.assertEqual(self.kinds('show', path, '2'), ['total'])

    def test_a_refusal_is_asked_about_too(self) -> None:
        found = ask('compare', self.book(('obligors', [(5, 1, 200000)]), ('obligors', [(6, 1, 166667)])))
        self.assertEqual(found.status, 1)
        self.assertIn('note: rater 1 has as many obligors as rater 2 has survivors (5)', found.err)

    def test_no_false_alarm_on_the_shipped_examples(self) -> None:
        for name in examples('.book') + examples('.csv'):
            self.assertEqual(self.kinds('show', example(name)), [], name)
        for name, raters in (('portfolio.book', 4), ('refusals.book', 4), ('g.book', 2), ('h.book', 2)):
            for a in range(1, raters + 1):
                for b in range(1, raters + 1):
                    self.assertEqual(self.kinds('compare', example(name), str(a), str(b)), [], (name, a, b))


if __name__ == '__main__':
    unittest.main()
