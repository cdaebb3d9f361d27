"""Every refusal number from the command line, with the words of docs/REFUSALS.md.

No input brings about 1, 13, 21 and 22, since the command picks places and buffers itself: `desk refusals` has their words.

    python3 tests/desk/test_command_refusals.py      # from anywhere
"""
from __future__ import annotations

import os
import re
import sys
import unittest

sys.dont_write_bytecode = True
sys.path.insert(0, os.path.dirname(os.path.abspath(__file__)))
from common import read  # noqa: E402
from running import Case, ask, book_of, csv_text, example  # noqa: E402
from converting import BOOK_K, Converting, OBLIGORS  # noqa: E402

REFUSALS = read('docs', 'REFUSALS.md').decode()
WORDS = {int(number): words for number, words in re.findall(r'^\| (\d+) \| (.*) \|$', REFUSALS, re.M)}
UNREACHABLE = (1, 13, 21, 22)
FROM_A_BOOK = {2: BOOK_K[:-1], 3: b'\x11' + BOOK_K[1:], 6: BOOK_K[:6] + b'\x29' + BOOK_K[7:], 7: BOOK_K[:7] + b'\x02' + BOOK_K[8:],
               31: BOOK_K[:4] + b'\x07' + BOOK_K[5:], 32: BOOK_K[:2] + b'\x2d' + BOOK_K[3:-1], 33: BOOK_K[:2] + b'\x2f' + BOOK_K[3:] + b'\0'}
# What to look for in the examples that are cut wrong: number, and rater and byte.
CUT_WRONG = {
    'start': (31, 'byte 6: the table of rater 2 is said to start at byte 8; expected byte 36, where the table of rater 1 ends'),
    'end': (32, 'byte 36: the table of rater 2 starts here and its rows end at byte 64; the book ends at byte 56, bytes missing: 8'),
    'leftover': (33, 'byte 64: the table of rater 2, the last, ends here; bytes that follow it: 16, expected none')}
ROWS = {8: [(5, 1, 0), (1, 2, 0)], 9: [(0, 0, 0), (0, 0, 0)], 10: [(5, 1, 0), (1, 0, 1_000_001)], 11: [(5, 1, 0), (1_000_001, 0, 0)],
        34: [(5, 1, 7), (1, 0, 6)]}
FROM_CSV = {3: '\n', 6: OBLIGORS}
TOGETHER = {23: ([(2, 0, 0)], [(2, 1, 0)]), 24: ([(2, 1, 0)], [(2, 2, 0)]), 25: ([(2, 1, 0)], [(3, 1, 0)])}
FROM_A_SHEET = {36: 'enters,2', 37: 'leaves,1', 38: 'enters,1'}
ON_SHARES = {23: TOGETHER[23], 24: TOGETHER[24], 35: ([(2, 1, 0)], [(100_001, 1, 0)])}


class Numbers(Converting):
    def seen(self, number: int, *words: str) -> None:
        """That a command line is refused with this number first, in its words, as text and as JSON."""
        line = self.refused(number, *words)[0]
        self.assertTrue(line.startswith(f'desk: refused {number}: {WORDS[number]}; '), line)
        first = ask(*words, '--json').data()['refusals'][0]
        self.assertEqual((first['number'], first['meaning']), (number, WORDS[number]))
        self.assertTrue(line.endswith(': '.join(filter(None, (first['where'], first['why'])))), line)

    def test_of_a_book(self) -> None:
        for number, content in FROM_A_BOOK.items():
            path = self.put('a.book', content)
            for words in (('show', path), ('show', path, '1'), ('compare', path), ('compare', path, path), ('shortlist', path), ('unpack', path)):
                self.seen(number, *words)

    def test_where_a_book_is_cut_wrong(self) -> None:
        for name, (number, where) in CUT_WRONG.items():
            path = example(f'cut_wrong/{name}.book')
            for words in (('show', path), ('show', path, '2'), ('compare', path), ('compare', example('h.book'), path, '1', '1'),
                          ('shortlist', path), ('unpack', path)):
                self.seen(number, *words)
                self.assertEqual(self.refused(number, *words), [f'desk: refused {number}: {WORDS[number]}; {path}: {where}'])
            self.assertRegex(REFUSALS, rf'(?m)^\| `{name}.book` \| {number} \| .* \| {re.escape(where)} \|$')

    def test_of_a_rater(self) -> None:
        for word in ('0', '2', '17'):
            self.seen(4, 'show', example('k.book'), word)
            self.seen(4, 'compare', example('k.book'), example('k.csv'), word, '1')

    def test_of_rows(self) -> None:
        for number, rows in ROWS.items():
            tables = [('obligors', rows)]
            book, text = self.put('a.book', book_of(tables)), self.put('a.csv', csv_text(tables))
            for words in (('show', book), ('compare', book, book), ('shortlist', book), ('unpack', book), ('show', text), ('compare', text, book),
                          ('shortlist', text), ('pack', text, '-o', self.path('out'))):
                self.seen(number, *words)

    def test_of_csv(self) -> None:
        for number, content in FROM_CSV.items():
            path = self.put('a.csv', content)
            for words in (('show', path), ('compare', path, path), ('shortlist', path), ('pack', path, '-o', self.path('out'))):
                self.seen(number, *words)
        many = self.put('many.csv', csv_text([('obligors', [(1, 0, 0)])] * 17))
        self.seen(3, 'pack', many, '-o', self.path('out'))
        self.seen(3, 'shortlist', many)

    def test_of_prices(self) -> None:
        self.seen(12, 'compare', example('h.book'), '--prices', '1000001:1')

    def test_of_two_tables(self) -> None:
        for number, rows in TOGETHER.items():
            path = self.put('a.book', book_of([('obligors', each) for each in rows]))
            self.seen(number, 'compare', path)
            self.seen(number, 'compare', path, '2', '1')
            self.seen(number, 'shortlist', path)
        for number, rows in ON_SHARES.items():
            path = self.put('a.book', book_of([('obligors', each) for each in rows]))
            self.seen(number, 'compare', path, '--shares')
            self.seen(number, 'compare', '--shares', path, '2', '1')

    def test_of_changes(self) -> None:
        full = self.put('full.book', book_of([('obligors', [(1_000_000, 1_000_000, 0)])]))
        for number, change in FROM_A_SHEET.items():
            sheet = self.put('sheet.csv', f'event,grade\n{change}\n')
            for words in (('update', full, sheet), ('update', full, '1', sheet, '-o', self.path('out.csv')),
                          ('compare', full, '--after', sheet, full), ('compare', full, full, '1', '1', '--after', sheet, '--shares')):
                self.seen(number, *words)

    def test_of_measures(self) -> None:
        for number, rows in ((23, [(2, 0, 0)]), (24, [(2, 2, 0)])):
            path = self.put('a.book', book_of([('obligors', rows)]))
            self.assertIn(f'desk: refused {number}: {WORDS[number]}; the measures of a\n', ask('show', path).err)

    def test_every_number_is_tried(self) -> None:
        self.assertEqual(sorted({*FROM_A_BOOK, *ROWS, *FROM_CSV, *TOGETHER, *ON_SHARES, *FROM_A_SHEET, 4, 12, *UNREACHABLE}), sorted(WORDS))


class Words(Case):
    def test_of_every_number(self) -> None:
        for number in WORDS:
            self.assertEqual(self.answered('refusals', str(number)).out.split(maxsplit=1), [str(number), f'{WORDS[number]}\n'])
            data = self.answered('refusals', f'{number:03}', '--json').data()
            self.assertEqual(data['meanings'], [{'number': number, 'meaning': WORDS[number]}])
        self.assertEqual([int(line.split()[0]) for line in self.answered('refusals').out.splitlines()], sorted(WORDS))

    def test_of_what_is_no_number(self) -> None:
        for word in ('0', '14', '20', '26', '1.0', 'x', '', '\u0663', '9' * 30):
            self.assertIn('is no refusal number', self.wrong('refusals', word))

    def test_of_the_number_before_R2(self) -> None:
        for word in ('5', '05'):
            self.assertIn('5 is never given since version 3: 31, 32 and 33', self.wrong('refusals', word))


if __name__ == '__main__':
    unittest.main()
