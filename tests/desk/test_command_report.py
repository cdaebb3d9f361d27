"""Tests `desk report`: what it prints is what the printing program prints, of a stand-in and, where it is built, of the program itself.

    python3 tests/desk/test_command_report.py      # from anywhere
"""
from __future__ import annotations

from typing import Any
import os
import random
import sys
import unittest
import unittest.mock

sys.dont_write_bytecode = True
sys.path.insert(0, os.path.dirname(os.path.abspath(__file__)))
from running import TOP, Case, Ran, ask, book_of, content_of, example, examples  # noqa: E402
from books import table  # noqa: E402
from definitions import Grades, measures, measures_refusal, pooled  # noqa: E402
from scales import by  # noqa: E402
from desk.command import main  # noqa: E402
from desk.command.report import report  # noqa: E402
from desk.refusals import MEANINGS  # noqa: E402

PROGRAM = os.path.join(TOP, 'target', 'desk', 'report')
STAND_IN = '#!/bin/sh\ncat >"$0.in"\ncat "$0.out"\nexit {}\n'


def lines_of(grades: Grades) -> str:
    """What the program has to print of a table that loads."""
    lines = [f'{number} {block.defaults} {block.obligors} {block.band}' for number, block in enumerate(pooled(grades), 1)]
    refusal = measures_refusal(grades)
    return '\n'.join(lines + [f'gini refused {refusal}' if refusal else 'gini {} {}'.format(*measures(grades)['gini'])])


class StandIn(Case):
    def program(self, prints: str, status: int = 0) -> str:
        self.put('report.out', prints)
        path = self.put('report', STAND_IN.format(status))
        os.chmod(path, 0o755)
        return path

    def reported(self, prints: str, *options: str) -> Ran:
        """The command with a stand-in that prints this."""
        with unittest.mock.patch.object(main, 'printing_program', lambda: self.program(prints)):
            return ask('report', self.put('a.book', b'any bytes\0'), *options)

    def test_it_is_given_the_book_and_its_lines_are_printed(self) -> None:
        for prints in ('1 3 20 11\n2 4 20 11\ngini 10 231\n', '1 0 1 0\ngini refused 23\n', 'refused 9\n', '1 1 1 14\ngini -4 4\n'):
            self.assertEqual(self.reported(prints).out, prints)
            self.assertEqual(self.got('report.in'), b'any bytes\0')

    def test_as_data(self) -> None:
        def grade(*numbers: int) -> dict[str, int]:
            return dict(zip(('grade', 'block_defaults', 'block_obligors', 'band'), numbers))
        expected: dict[str, Any] = {'1 3 20 11\n2 4 20 11\ngini -10 231\n': ([grade(1, 3, 20, 11), grade(2, 4, 20, 11)], (-10, 231), None),
                                    '1 0 1 0\ngini refused 23\n': ([grade(1, 0, 1, 0)], None, 23), 'refused 9\n': ([], None, 9)}
        for prints, (grades, gini, refusal) in expected.items():
            ran = self.reported(prints, '--json')
            data = ran.data()
            self.assertEqual((data['grades'], data['gini']), (grades, gini and dict(zip(('numerator', 'denominator'), gini))))
            self.assertEqual((ran.status, [each['number'] for each in data['refusals']]), (1, [refusal]) if refusal else (0, []))

    def test_a_refusal_is_said(self) -> None:
        for prints, said in (('refused 9\n', f'refused 9: {MEANINGS[9]}; {self.path("a.book")}'),
                             ('1 0 1 0\ngini refused 23\n', f'refused 23: {MEANINGS[23]}; the Gini of {self.path("a.book")}')):
            self.assertEqual(self.reported(prints), (1, prints, f'desk: {said}\n'))

    def test_a_refused_load_is_said_with_its_byte(self) -> None:
        for name, number, byte in (('start', 31, 'byte 6: '), ('end', 32, 'byte 36: '), ('leftover', 33, 'byte 64: ')):
            path = example(f'cut_wrong/{name}.book')
            with unittest.mock.patch.object(main, 'printing_program', lambda: self.program(f'refused {number}\n')):
                ran = ask('report', path)
            self.assertEqual((ran.status, ran.out), (1, f'refused {number}\n'))
            self.assertIn(f'desk: refused {number}: {MEANINGS[number]}; {path}: {byte}', ran.err)
        path = self.put('a.book', book_of([('obligors', [(5, 1, 7), (0, 0, 6)])]))
        with unittest.mock.patch.object(main, 'printing_program', lambda: self.program('refused 34\n')):
            ran = ask('report', path)
        self.assertEqual((ran.status, ran.out), (1, 'refused 34\n'))
        self.assertIn(f'desk: refused 34: {MEANINGS[34]}; {path}: byte 30 (rater 1, grade 2, announced): ', ran.err)

    def test_a_program_that_fails_or_is_not_there(self) -> None:
        with unittest.mock.patch.object(main, 'printing_program', lambda: self.program('', 3)):
            self.assertIn('ended with status 3', self.wrong('report', example('k.book')))
        with unittest.mock.patch.object(main, 'printing_program', lambda: self.path('none')):
            self.assertIn(self.path('none'), self.wrong('report', example('k.book')))

    def test_a_file_that_is_not_there(self) -> None:
        with unittest.mock.patch.object(main, 'printing_program', lambda: self.program('')):
            self.assertIn(self.path('none.book'), self.wrong('report', self.path('none.book')))


@unittest.skipUnless(os.path.isfile(PROGRAM), './desk build has not been run')
class Program(Case):
    """The program itself, held to the definitions."""

    def test_examples(self) -> None:
        for name in examples('.book'):
            self.assertEqual(report(example(name), PROGRAM).text, lines_of(table(content_of(example(name)), 1)))

    def test_what_pool_repeats_is_printed(self) -> None:
        rows = [(0, 0, 0), (5, 1, 0), (0, 0, 0), (5, 2, 0), (0, 0, 0)]
        self.assertEqual(report(self.put('a.book', book_of([('obligors', rows)])), PROGRAM).text,
                         '1 1 5 11\n2 1 5 11\n3 1 5 11\n4 2 5 12\n5 2 5 12\ngini 5 21')

    def test_tables_at_random(self) -> None:
        source = random.Random(1)
        for number in range(60):
            most = source.choice((1, 5, 20_000))
            sizes = [source.randint(source.choice((0, 1)), most) for _ in range(source.choice((0, 2, 7, 39)))]
            sizes.insert(source.randint(0, len(sizes)), source.randint(1, most))  # at least one grade is occupied
            grades = [(n, source.choice((0, n, source.randint(0, n))) if number % 3 else 0, 0) for n in sizes]
            counts = source.choice(('obligors', 'survivors'))
            outcome = report(self.put('a.book', book_of([(counts, by(counts, grades))])), PROGRAM)
            self.assertEqual(outcome.text, lines_of(grades))
            self.assertEqual([each.number for each in outcome.refusals], list(filter(None, [measures_refusal(grades)])))

    def test_books_that_are_refused(self) -> None:
        book = content_of(example('k.book'))
        for content, number in ((b'', 2), (book[:-1], 2), (b'\0' + book[1:], 3), (book[:4] + b'\7' + book[5:], 31),
                                (book[:6] + b'\0' + book[7:], 6), (book[:7] + b'\2' + book[8:], 7), (bytes(8192), 2), (bytes(8193), 2),
                                (bytes(1 << 21), 2), (book[:2] + b'\x2d' + book[3:-1], 32), (book[:2] + b'\x2f' + book[3:] + b'\0', 33),
                                (book_of([('obligors', [(0, 0, 0)] * 3)]), 9), (book_of([('survivors', [(0, 0, 0)] * 3)]), 9),
                                (book_of([('obligors', [(5, 1, 7), (0, 0, 6)])]), 34)):
            outcome = report(self.put('a.book', content), PROGRAM)
            self.assertEqual((outcome.text, outcome.data['grades'], outcome.data['gini']), (f'refused {number}', [], None))
            self.assertEqual([each.number for each in outcome.refusals], [number])


if __name__ == '__main__':
    unittest.main()
