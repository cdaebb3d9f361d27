"""Tests the shortlist of a whole book, R-7 of document 02: the raters for which no other rater of the book is better. Worked lists, every
refusal in its order with the raters at fault, buffers of any length, and all that `desk shortlist` prints, held to costs by definition.

    python3 tests/desk/test_shortlist.py     # from anywhere
"""
from __future__ import annotations

from collections import Counter
from ctypes import c_ubyte, c_uint32
from itertools import permutations
from math import gcd
from typing import Sequence
import os
import random
import re
import sys
import unittest

sys.dont_write_bytecode = True
sys.path.insert(0, os.path.dirname(os.path.abspath(__file__)))
from common import Scale, in_order, loaded, table_of  # noqa: E402
from definitions import totals  # noqa: E402
from expected import about_sign, is_better, shortlist_by_definition, shortlist_data  # noqa: E402
from running import Case, ask, book_of, csv_text, example, examples, run  # noqa: E402
from scales import AGENCY, INHOUSE, by, rater_of  # noqa: E402
from test_books import damaged, random_book  # noqa: E402
from test_command_show import GLANCE_HEADING, glance_cells  # noqa: E402
from test_ranges import any_scale, coarser, moved  # noqa: E402
from watched import Guarded, WatchedDesk  # noqa: E402
import printed  # noqa: E402
import scales  # noqa: E402
import desk as module  # noqa: E402
from desk import Desk, Refused, Table, read_book, shortlist, shortlist_into, write_book  # noqa: E402
from desk.raters import shortlist_refusals  # noqa: E402

# Six obligors, three of whom defaulted. Each of the first four is better than those behind it; the next two cross, and the last is equal to
# the fine one.
PERFECT: Scale = [(3, 0), (3, 3)]
FINE: Scale = [(2, 0), (2, 1), (2, 2)]
COARSE: Scale = [(3, 1), (3, 2)]
NO_SCALE: Scale = [(6, 3)]
WORST_APART: Scale = [(5, 2), (1, 1)]
BEST_APART: Scale = [(2, 0), (4, 3)]
FINE_TOO: Scale = [(2, 0), (0, 0), (1, 1), (1, 0), (2, 2)]
WORKED = (([NO_SCALE], [1]), ([FINE, FINE_TOO, FINE], [1, 2, 3]), ([COARSE, PERFECT, NO_SCALE, FINE], [2]), ([WORST_APART, BEST_APART], [1, 2]),
          ([COARSE, FINE_TOO, WORST_APART, FINE, BEST_APART], [2, 4]), ([FINE, PERFECT, FINE_TOO], [2]),
          ([WORST_APART, NO_SCALE, BEST_APART, COARSE], [1, 3]), ([FINE] * 16, list(range(1, 17))), ([NO_SCALE] * 15 + [FINE], [16]))
NO_DEFAULTS: Scale = [(6, 0)]
NO_SURVIVORS: Scale = [(3, 3)]
MORE_DEFAULTS: Scale = [(3, 1), (4, 3)]
MORE_SURVIVORS: Scale = [(7, 3)]
# Of each number the rows that bring it about; those of 8 and 10 have faults that come later, too.
ROWS = {8: [(0, 0, 0), (2, 3, 1_000_001)], 10: [(0, 0, 1_000_001), (0, 0, 6)], 34: [(0, 0, 7), (0, 0, 6)], 9: [(0, 0, 0)], 11: [(1_000_001, 0, 0)]}


def book_of_scales(scales_: Sequence[Scale]) -> bytes:
    return write_book([table_of(scale) for scale in scales_])


def corner(total: int, missed: int, away: int) -> Scale:
    """Two grades over as many defaults as survivors: cutoff 1 misses so many defaults and turns away so many survivors."""
    best = total - away + missed, missed
    return [best, (2 * total - best[0], total - missed)]


def any_scales(source: random.Random, raters: int, most: int) -> list[Scale]:
    """Scales over the same obligors, many of them made of one another: the same, coarser, or after a survivor moved."""
    of_book = source.randint(1, most), source.randint(1, most)
    found = [any_scale(source, of_book, source.randint(1, 6))]
    for _ in range(raters - 1):
        before = source.choice(found)
        found.append(source.choice((lambda: any_scale(source, of_book, source.randint(1, 6)), lambda: before, lambda: coarser(source, before),
                                    lambda: moved(source, before)))())
    source.shuffle(found)
    return found


class Lists(unittest.TestCase):
    def see(self, scales_: Sequence[Scale]) -> list[int]:
        """The list, which is that of the definition, in whatever buffer; a buffer that is too short is refused."""
        book, expected, desk = book_of_scales(scales_), shortlist_by_definition(scales_), WatchedDesk()
        self.assertEqual(shortlist(book), expected, scales_)
        for length in (len(scales_), len(scales_) + 1, 16, 40):
            numbers = Guarded(c_uint32 * length, b'\x55' * 4 * length)
            self.assertEqual(desk.shortlist_into(book, numbers.object), len(expected))
            self.assertEqual(numbers.object[:len(expected)], expected)
            self.assertEqual(numbers.content()[4 * len(expected):], b'\x55' * 4 * (length - len(expected)))
        for length in range(len(scales_)):
            numbers = Guarded(c_uint32 * length, b'\x55' * 4 * length)
            with self.assertRaises(Refused) as raised:
                desk.shortlist_into(book, numbers.object)
            self.assertEqual((raised.exception.number, raised.exception.where, numbers.content()), (13, None, b'\x55' * 4 * length))
        return expected

    def test_worked(self) -> None:
        for scales_, expected in WORKED:
            self.assertEqual(self.see(scales_), expected)

    def test_in_any_order(self) -> None:
        for scales_ in permutations((COARSE, FINE, WORST_APART, FINE_TOO)):
            self.assertEqual(self.see(scales_), sorted(scales_.index(each) + 1 for each in (FINE, FINE_TOO)))

    def test_sixteen(self) -> None:
        """Each better than the one before; each crossing all others, since their corners are on one curve."""
        self.assertEqual(self.see([corner(40, 17 - rater, 17 - rater) for rater in range(1, 17)]), [16])
        self.assertEqual(self.see([corner(289, rater ** 2, (17 - rater) ** 2) for rater in range(1, 17)]), list(range(1, 17)))
        longest = Table(obligors=[25_000] * 40, defaults=range(40), announced=[0] * 40)
        self.assertEqual(shortlist(write_book([longest] * 16)), list(range(1, 17)))

    def test_at_random(self) -> None:
        """Of equal raters all are listed or none, and a listed rater is better than each one that is not."""
        source, seen = random.Random(1), Counter()
        for _ in range(120):
            found = any_scales(source, source.choice((1, 2, 3, 5, 8)), source.choice((4, 60, 2_000)))
            listed = self.see(found)
            self.assertTrue(listed)
            for rater, scale in enumerate(found, 1):
                equal = [other for other, each in enumerate(found, 1) if not is_better(each, scale) and not is_better(scale, each)
                         and loaded(Desk(), each, scale).compare().kind.name == 'EQUAL']
                self.assertIn(sum(other in listed for other in equal), (0, len(equal)))
                if rater not in listed:
                    self.assertTrue([other for other in listed if is_better(found[other - 1], scale)])
                    seen['beaten'] += 1
                    seen['equal and beaten'] += len(equal) > 1
                seen['equal and listed'] += rater in listed and len(equal) > 1
                seen['crossing'] += rater in listed and len(equal) < len(listed)
        self.assertTrue(len(seen) == 4 and min(seen.values()) >= 20, seen)

    def test_the_example_of_a_committee(self) -> None:
        with open(example('committee.book'), 'rb') as file:
            book = file.read()
        self.assertEqual(shortlist(book), [2, 4, 5])
        self.assertEqual(shortlist_by_definition([[(n, d) for n, d, _ in table.grades] for table in read_book(book)]), [2, 4, 5])


class Arguments(unittest.TestCase):
    def test_it_is_exported(self) -> None:
        self.assertLessEqual({'shortlist', 'shortlist_into'}, set(module.__all__))

    def test_what_is_no_book(self) -> None:
        for no in (5, 'examples/committee.book', [1, 0, 4, 0], None, [table_of(FINE)]):
            with self.assertRaisesRegex(TypeError, 'a book is bytes'):
                shortlist(no)
        book = book_of_scales([FINE])
        for kind in (bytes, bytearray, memoryview):
            self.assertEqual(shortlist(kind(book)), [1])

    def test_memory_of_another_kind_is_not_lent(self) -> None:
        for memory in ((c_ubyte * 64)(), [0] * 16, bytearray(64), None):
            with self.assertRaisesRegex(TypeError, 'c_uint32'):
                shortlist_into(book_of_scales([FINE]), memory)

    def test_a_library_may_be_named(self) -> None:
        with self.assertRaisesRegex(module.LibraryMissing, 'nowhere.so'):
            shortlist(book_of_scales([FINE]), 'nowhere.so')
        self.assertEqual(shortlist(book_of_scales([FINE]), module.library.default_path()), [1])


class Refusals(unittest.TestCase):
    def refused(self, number: int, book: bytes, where: str) -> None:
        """In every buffer, with nothing written; the desk that watches is loaded, and plays no part."""
        desk = loaded(WatchedDesk(), FINE, COARSE)
        for length in (0, 1, 16, 20):
            numbers = Guarded(c_uint32 * length, b'\x55' * 4 * length)
            with self.assertRaises(Refused) as raised:
                desk.shortlist_into(book, numbers.object)
            self.assertEqual((raised.exception.number, raised.exception.where), (number, where))
            self.assertEqual(numbers.content(), b'\x55' * 4 * length)

    def test_totals(self) -> None:
        """23 over all raters, then 24 over all, then 25 between any two."""
        for number, scales_, where in ((23, [FINE, NO_DEFAULTS, COARSE], 'rater 2'), (23, [NO_SURVIVORS, MORE_DEFAULTS, NO_DEFAULTS], 'rater 3'),
                                       (23, [NO_DEFAULTS, NO_SURVIVORS, NO_DEFAULTS], 'rater 1, rater 3'), (23, [NO_DEFAULTS], 'rater 1'),
                                       (24, [FINE, COARSE, NO_SURVIVORS], 'rater 3'), (24, [NO_SURVIVORS, MORE_SURVIVORS, FINE], 'rater 1'),
                                       (24, [NO_SURVIVORS], 'rater 1'), (25, [FINE, COARSE, MORE_DEFAULTS], 'rater 1, rater 3'),
                                       (25, [MORE_SURVIVORS, FINE, COARSE], 'rater 1, rater 2, rater 3'),
                                       (25, [FINE, MORE_SURVIVORS, COARSE, MORE_DEFAULTS], 'rater 1, rater 2, rater 4')):
            self.refused(number, book_of_scales(scales_), where)

    def test_rows_rater_by_rater(self) -> None:
        """Before any total, and those of a rater before those of the next."""
        sound = [(n, d, 0) for n, d in NO_DEFAULTS]
        for number, rows in ROWS.items():
            for before in (1, 2, 15):
                book = book_of([('obligors', sound)] * before + [('obligors', rows)])
                with self.assertRaises(Refused) as raised:
                    shortlist(book)
                self.assertEqual(raised.exception.number, number)
                self.assertRegex(raised.exception.where, rf'^byte \d+ \(rater {before + 1}, ')
                self.refused(number, book, raised.exception.where)
            for later in ROWS.values():
                with self.assertRaises(Refused) as raised:
                    shortlist(book_of([('obligors', each) for each in (sound, rows, later)]))
                self.assertEqual(raised.exception.number, number)

    def test_every_reason_in_order(self) -> None:
        """Those of the layout alone, else those of rows alone, else those of totals."""
        def numbers(book: bytes) -> list[int]:
            return [refusal.number for refusal in shortlist_refusals(book)]
        rows = [('obligors', each) for each in (ROWS[11], ROWS[8], [(6, 0, 0)])]
        self.assertEqual((numbers(book_of(rows)), numbers(book_of(rows)[:-1])), ([11, 8, 10], [2]))
        self.assertEqual(numbers(book_of_scales([FINE, NO_SURVIVORS, NO_DEFAULTS])), [23, 24, 25])
        self.assertEqual((numbers(book_of_scales([FINE, MORE_DEFAULTS])), numbers(book_of_scales([FINE, COARSE]))), ([25], []))

    def test_the_layout_before_all_rows(self) -> None:
        sound = book_of([('obligors', ROWS[8]), ('obligors', ROWS[9])])  # tables at bytes 8 and 36, 52 bytes
        for at, byte, number in ((2, 51, 2), (0, 0, 3), (0, 17, 3), (6, 35, 31), (36, 0, 6), (37, 2, 7), (39, 1, 7), (36, 2, 32)):
            with self.assertRaises(Refused) as raised:
                shortlist(sound[:at] + bytes([byte]) + sound[at + 1:])
            self.assertEqual(raised.exception.number, number)
        with self.assertRaises(Refused) as raised:
            shortlist(b'')
        self.assertEqual((raised.exception.number, raised.exception.where), (2, 'byte 0: the book ends here; expected at least 4 bytes'))

    def test_what_is_found_is_what_the_library_refuses(self) -> None:
        """On sound and damaged books, many of them over the same obligors."""
        source, seen = random.Random(2), Counter()
        for _ in range(2500):
            book, tables = random_book(source)
            if source.random() < 0.3:
                tables = [(0, [(n, d, 0) for n, d in scale]) for scale in any_scales(source, source.randint(1, 4), 9)]
                book = book_of([('obligors', rows) for _, rows in tables])
            if source.random() < 0.6:
                book = damaged(source, book, tables)
            found = next(shortlist_refusals(book), None)
            try:
                shortlist(book)
                self.assertIsNone(found, book.hex())
            except Refused as refused:
                self.assertEqual(str(refused), str(found), book.hex())
            seen[found and found.number] += 1
        self.assertEqual(seen.keys(), {None, 2, 3, 6, 7, 8, 9, 10, 11, 23, 24, 25, 31, 32, 33, 34})
        self.assertGreaterEqual(min(seen.values()), 8, seen)


class Command(Case):
    """Every figure that `desk shortlist` prints, computed again by definition."""

    def shortlisted(self, raters: Sequence[scales.Scale], *files: str) -> dict:
        """What is answered as JSON, seen to be what the definitions say and what is printed as text."""
        data, text = self.answered('shortlist', *files, '--json').data(), printed.shortlisted(self.answered('shortlist', *files).out)
        prices = [(each['costs']['u'], each['costs']['v']) for each in data['beaten']]
        expected = shortlist_data(raters, prices)
        self.assertEqual(data, {**expected, 'refusals': [], 'questions': data['questions']})
        for each in data['beaten']:
            self.assertEqual((each['costs']['cheaper'], gcd(each['costs']['u'], each['costs']['v'])), ('first', 1))
        self.see_text(raters, text, data, files)
        return data

    def see_text(self, raters: Sequence[scales.Scale], text: dict, data: dict, files: Sequence[str]) -> None:
        labels = [f'{number} ({rater.name})' for number, rater in enumerate(raters, 1)]
        self.assertEqual((text['files'], text['count']), (', '.join(files), len(raters)))
        self.assertEqual(text['listed'], [labels[number - 1] for number in data['listed']])
        self.assertEqual(text['heading'], [*GLANCE_HEADING[:2], 'listed', *GLANCE_HEADING[2:]])
        lines = [glance_cells(line, None) for line in data['raters']]
        self.assertEqual(text['raters'], [[*line[:2], 'yes' if number in data['listed'] else 'no', *line[2:]]
                                          for number, line in enumerate(lines, 1)])
        self.assertEqual(text['about'], about_sign(*(line['measures'] for line in data['raters'])))
        for each, found in zip(data['beaten'], text['beaten']):
            for key, number in (('first', each['by']), ('second', each['rater'])):
                rater, away = raters[number - 1], each['costs'][key]['cutoff']
                each['costs'][key]['label'] = rater.labels[len(rater.rows) - away] if rater.labels and away else None
            costs = {key: value for key, value in each['costs'].items() if key != 'cheaper'}
            self.assertEqual(found, {'rater': labels[each['rater'] - 1], 'by': labels[each['by'] - 1], 'costs': costs})
        self.assertEqual(len(text['beaten']), len(data['beaten']))

    def of_book(self, name: str) -> dict:
        path = example(name)
        with open(path, 'rb') as file:
            raters = file.read(1)[0]
        return self.shortlisted([rater_of(path, number) for number in range(1, raters + 1)], path)

    def of_scales(self, *scales_: Scale) -> dict:
        tables = [('obligors', [(n, d, 0) for n, d in scale]) for scale in scales_]
        path = self.put('a.book', book_of(tables))
        names = [f'rater {number}' if len(tables) > 1 else 'a' for number in range(1, len(tables) + 1)]
        return self.shortlisted([scales.Scale(name, path, number, *table) for number, (name, table) in enumerate(zip(names, tables), 1)], path)

    def test_books(self) -> None:
        self.assertEqual(self.of_book('committee.book')['listed'], [2, 4, 5])
        self.assertEqual(self.of_book('portfolio.book')['listed'], [1, 3, 4])
        self.assertEqual(self.of_book('g.book')['listed'], [1])
        self.assertEqual(self.of_book('h.book')['listed'], [1, 2])

    def test_worked(self) -> None:
        for scales_, listed in WORKED:
            self.assertEqual(self.of_scales(*scales_)['listed'], listed)

    def test_a_committee_by_name(self) -> None:
        """Counter is worse than Branch, which is worse than In-house; Vendor is equal to Branch, Bureau to In-house, and Agency crosses."""
        path, names = example('committee.csv'), ('Branch', 'Agency', 'Counter', 'In-house', 'Bureau', 'Vendor')
        raters = [rater_of(example('committee.book'), number)._replace(file=path, name=name) for number, name in enumerate(names, 1)]
        self.assertEqual(self.shortlisted([AGENCY, *raters], AGENCY.file, path)['listed'], [1, 3, 5, 6])
        data = self.shortlisted(raters, path)
        self.assertEqual([(each['rater'], each['by']) for each in data['beaten']], [(1, 4), (3, 4), (6, 4)])
        text = self.answered('shortlist', path).out
        self.assertTrue(text.startswith(f'{path}: 6 raters; on the shortlist: 2 (Agency), 4 (In-house), 5 (Bureau)\n'), text)
        for a, b, verdict in ((4, 1, 'first'), (1, 3, 'first'), (1, 6, 'equal'), (4, 5, 'equal'), (4, 2, 'crossing'), (2, 1, 'crossing')):
            self.assertEqual(self.answered('compare', path, str(a), str(b), '--json').data()['verdict'], verdict)

    def test_the_first_listed_one_that_is_better_is_named(self) -> None:
        """Not one that is better and not listed itself, nor one that is listed and not better."""
        data = self.of_scales(COARSE, WORST_APART, NO_SCALE, BEST_APART)
        self.assertEqual((data['listed'], [(each['rater'], each['by']) for each in data['beaten']]), ([2, 4], [(1, 4), (3, 2)]))

    def test_several_files_are_one_book(self) -> None:
        """Names of grades are shown, and who has but a number in its file is called by the file."""
        path = example('portfolio.book')
        raters = [INHOUSE, *(rater_of(path, number)._replace(name=f'rater {number} of {path}') for number in (1, 2, 3, 4)), AGENCY]
        self.addCleanup(os.chdir, os.getcwd())
        os.chdir(os.path.dirname(path))
        files = [os.path.basename(file) for file in (INHOUSE.file, path, AGENCY.file)]
        raters = [rater._replace(file=os.path.basename(rater.file), name=rater.name.replace(path, files[1])) for rater in raters]
        data = self.shortlisted(raters, *files)
        self.assertEqual((data['listed'], [(each['rater'], each['by']) for each in data['beaten']]), ([1, 2, 4, 5, 6], [(3, 1)]))
        self.assertIn(' (from ', printed.sections(self.answered('shortlist', *files).out)[3][1])

    def test_standard_input(self) -> None:
        with open(example('committee.book'), 'rb') as file:
            book = file.read()
        self.assertEqual(self.answered('shortlist', '-', '--json', stdin=book).data()['listed'], [2, 4, 5])
        self.assertIn('standard input is named twice', self.wrong('shortlist', '-', '-'))

    def test_names_are_shown_plainly(self) -> None:
        tables = ''.join(f'name,{name}\x1b[31m\n{csv_text([("obligors", rows)])}\n' for name, rows in (('A', [(2, 0, 0), (2, 1, 0)]), ('B', [(4, 1, 0)])))
        text = self.answered('shortlist', self.put('a\x1b.csv', tables)).out
        self.assertEqual((text.count('\x1b'), text.count('A\\x1b[31m'), text.count('B\\x1b[31m')), (0, 3, 2))

    def test_an_upside_down_one_among_them(self) -> None:
        self.assertEqual(self.of_scales(PERFECT, PERFECT[::-1])['listed'], [1])
        self.assertIn('A negative Pietra', self.answered('shortlist', self.path('a.book')).out)

    def test_forty_books(self) -> None:
        source, seen = random.Random(3), Counter()
        for _ in range(40):
            tables = []
            for scale in any_scales(source, source.choice((2, 3, 6)), source.choice((9, 400))):
                counts = source.choice(('obligors', 'survivors'))
                tables.append((counts, by(counts, in_order([(n, d, source.randint(0, 1_000_000)) for n, d in scale]))))
            path = self.put('a.csv', csv_text(tables)) if source.random() < 0.5 else self.put('a.book', book_of(tables))
            raters = [scales.Scale(f'rater {number}', path, number, *table) for number, table in enumerate(tables, 1)]
            data = self.shortlisted(raters, path)
            seen['beaten' if data['beaten'] else 'none beaten'] += 1
        self.assertTrue(len(seen) == 2 and min(seen.values()) >= 5, seen)

    def test_as_a_process(self) -> None:
        for words in ((example('committee.csv'),), (example('committee.book'), '--json'), (example('refusals.book'),)):
            self.assertEqual(run('shortlist', *words), ask('shortlist', *words))

    def test_no_question_about_a_shipped_example(self) -> None:
        for name in examples('.book') + examples('.csv'):
            self.assertNotIn('note:', ask('shortlist', example(name)).err)


class Messages(Case):
    """What is said where there is no shortlist."""

    def why(self, number: int, *files: str) -> str:
        """The one thing that is refused, the same as text and as JSON, with nothing answered."""
        line, = self.refused(number, 'shortlist', *files)
        self.assertEqual(ask('shortlist', *files).out, '')
        found, = ask('shortlist', *files, '--json').data()['refusals']
        self.assertEqual((found['number'], line), (number, f'desk: refused {number}: {found["meaning"]}; {found["where"]}: {found["why"]}'))
        self.assertEqual(found['where'], ', '.join(files))
        return found['why']

    def book(self, *scales_: Scale) -> str:
        return self.put('a.book', book_of([('obligors', [(n, d, 500_000) for n, d in scale]) for scale in scales_]))

    def test_the_raters_at_fault_are_named(self) -> None:
        none, no_survivors = '{} has 0 defaults and 6 survivors', '{} has 3 defaults and 0 survivors'
        self.assertEqual(self.why(23, self.book(FINE, NO_DEFAULTS, NO_SURVIVORS)), none.format('rater 2'))
        self.assertEqual(self.why(23, self.book(NO_DEFAULTS, FINE, NO_DEFAULTS)), f'{none.format("rater 1")}, {none.format("rater 3")}')
        self.assertEqual(self.why(24, self.book(MORE_DEFAULTS, FINE, NO_SURVIVORS)), no_survivors.format('rater 3'))
        self.assertEqual(self.why(25, self.book(FINE, COARSE, MORE_DEFAULTS)),
                         'rater 1 has 3 defaults and 3 survivors, rater 3 has 4 defaults and 3 survivors')

    def test_by_name_and_of_several_files(self) -> None:
        path = self.put('a.csv', 'name,Half\nobligors,defaults,announced\n500,40,80000\n')
        self.assertEqual(self.why(25, INHOUSE.file, AGENCY.file, path),
                         'In-house has 80 defaults and 920 survivors, Half has 40 defaults and 460 survivors')

    def test_every_fault_of_rows_is_told(self) -> None:
        lines = self.refused(9, 'shortlist', example('refusals.book'))
        self.assertEqual([re.match(r'desk: refused (\d+): .*\(rater (\d+), ', line).groups() for line in lines],
                         [('9', '5'), ('8', '6'), ('10', '7'), ('11', '8'), ('34', '9')])

    def test_the_number_is_the_librarys(self) -> None:
        for scales_ in ([FINE, NO_DEFAULTS, NO_SURVIVORS], [NO_SURVIVORS, MORE_DEFAULTS], [MORE_SURVIVORS, FINE]):
            path = self.book(*scales_)
            with open(path, 'rb') as file, self.assertRaises(Refused) as raised:
                shortlist(file.read())
            self.why(raised.exception.number, path)

    def test_files_that_cannot_be_read(self) -> None:
        """Of each all that is wrong, in the order of the files."""
        cut, none = example('cut_wrong/start.book'), self.put('none.csv', 'nothing,at,all\n')
        told = [self.refused(31, 'shortlist', cut), self.refused(None, 'shortlist', none)]
        self.assertEqual(self.refused(31, 'shortlist', cut, example('g.book'), none), told[0] + told[1])
        self.assertEqual(self.refused(None, 'shortlist', none, cut), told[1] + told[0])

    def test_seventeen_raters(self) -> None:
        files = [example('portfolio.book')] * 4 + [INHOUSE.file]
        line, = self.refused(3, 'shortlist', *files)
        self.assertIn(f'{INHOUSE.file}, line 2: rater 17 starts here; a book holds at most 16', line)
        self.answered('shortlist', *files[:4])

    def test_what_is_asked_back(self) -> None:
        """Survivors under the name of obligors make a rater with other totals: asked once, whoever has the same totals as the others."""
        right, wrong = [(6, 1, 166667), (4, 2, 500000)], [(5, 1, 166667), (2, 2, 500000)]
        path = self.put('a.book', book_of([('obligors', rows) for rows in (right, right, wrong, right)]))
        ran = ask('shortlist', path)
        self.assertEqual(ran.status, 1)
        self.assertEqual(ran.err.splitlines()[1:], ['desk: note: rater 3 has as many obligors as rater 1 has survivors (7): does its first column '
                                                   'count survivors?'])
        for rates, kind in ((('1', '3', '10'), 'unit'), (('1%', '3%', '10%'), 'reading')):
            text = 'obligors,defaults,announced\n' + ''.join(f'100,{d},{rate}\n' for d, rate in zip((1, 3, 11), rates))
            found = self.answered('shortlist', self.put('a.csv', text), '--json').data()['questions']
            self.assertEqual([each['about'] for each in found], [kind])

    def test_totals_of_a_fault(self) -> None:
        """Those that are named have the totals that the definitions give."""
        for number, rows in ((23, [(5, 0, 0), (0, 0, 0), (2, 0, 9)]), (24, [(1, 1, 0), (0, 0, 0)])):
            path = self.put('a.book', book_of([('obligors', rows)]))
            _, defaults, survivors = totals(rows)
            self.assertEqual(self.why(number, path), f'a has {defaults} default{"s"[defaults == 1:]} and {survivors} survivors')


if __name__ == '__main__':
    unittest.main()
