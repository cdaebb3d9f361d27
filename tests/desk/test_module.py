"""Tests the Python module desk: the worked tables of documents 01 and 02, its docstrings, its answers as values, desks beside each other, and
where the library is found. The other files here test its parts.

    python3 tests/desk/test_module.py     # from anywhere; DESK_LIBRARY may name the library
"""
from __future__ import annotations

from concurrent.futures import ThreadPoolExecutor
from ctypes import c_uint32
from fractions import Fraction
import _ctypes
import copy
import doctest
import importlib
import os
import pathlib
import pickle
import pkgutil
import subprocess
import sys
import tempfile
import unittest

sys.dont_write_bytecode = True
from common import TOP, Scale, loaded, read, table_of  # noqa: E402
from books import encoded  # noqa: E402
import desk as module  # noqa: E402
from desk import Cutoff, Desk, Kind, LibraryMissing, PooledGrade, Price, Refused, Table, Verdict, WrittenFraction  # noqa: E402
from desk.library import default_path  # noqa: E402
from desk.ranges import price_ranges  # noqa: E402

E = [(30, 2), (18, 4), (15, 10), (16, 14), (21, 20)]
G = [(2, 0), (2, 1), (2, 2)], [(3, 1), (3, 2)]
H = [(5, 2), (1, 1)], [(2, 0), (4, 3)]


def blocks(scale: Scale) -> list[tuple[int, int]]:
    """Block defaults and block obligors of each grade."""
    return [(grade.defaults, grade.obligors) for grade in loaded(Desk(), scale).pool(1)]


def costs(of: Desk, price: Price) -> tuple[int, int]:
    return of.cheapest(1, *price).cost, of.cheapest(2, *price).cost


class WorkedTables(unittest.TestCase):
    def test_a_book_k(self) -> None:
        desk, book, numbers = Desk(), read('examples', 'k.book'), (c_uint32 * 10)(*[7] * 10)
        desk.load(2, book)
        desk.pool_into(2, numbers)
        self.assertEqual(numbers[:], [3, 20, 11, 3, 20, 11, 4, 20, 11, 7])
        self.assertEqual(desk.pool(2), [PooledGrade(3, 20, 11), PooledGrade(3, 20, 11), PooledGrade(4, 20, 11)])
        self.assertEqual(desk.measures(2).gini.written, (10, 231))
        # 2 * 0.9^2 + 8 * 0.1^2 + 0.85^2 + 9 * 0.15^2 + 4 * 0.8^2 + 16 * 0.2^2 = 5.825
        self.assertEqual(desk.brier(2).written, (5_825_000_000_000, 40_000_000_000_000))
        self.assertEqual(desk.write(), book)
        self.assertEqual(desk.table(2).rows, ((10, 2, 100_000), (10, 1, 150_000), (20, 4, 200_000)))

    def test_b_equal_neighbours_are_joined(self) -> None:
        self.assertEqual(blocks([(10, 2), (20, 4)]), [(6, 30)] * 2)

    def test_c_a_join_looks_back(self) -> None:
        self.assertEqual(blocks([(10, 3), (10, 4), (10, 1)]), [(8, 30)] * 3)

    def test_d_counts_are_joined_not_rates(self) -> None:
        self.assertEqual(blocks([(90, 18), (10, 1)]), [(19, 100)] * 2)

    def test_e_the_five_grade_table(self) -> None:
        desk = loaded(Desk(), E)
        found = desk.measures(1)
        self.assertEqual((found.defaults, found.survivors, found.cutoff), (50, 50, 3))
        self.assertEqual([each.written for each in (found.gini, found.roc, found.cap, found.pietra)],
                         [(2050, 2500), (4550, 5000), (7050, 10_000), (1800, 2500)])
        self.assertEqual([grade.band for grade in desk.pool(1)], [10, 12, 13, 14, 14])
        self.assertEqual(desk.pool(1)[4].rate.written, (20, 21))
        self.assertEqual(desk.spread(1).total, 25)
        exact = sum(Fraction(d * (n - d), n) for n, d in E)  # its grades are its blocks
        self.assertLessEqual(abs(Fraction(desk.spread(1).residual) - exact), Fraction(1, 2 ** 29))

    def test_f_a_reversed_scale(self) -> None:
        found = loaded(Desk(), [(2, 2), (2, 0)]).measures(1)
        self.assertEqual((found.gini.written, found.pietra.written, found.cutoff), ((-4, 4), (-4, 4), 1))

    def test_r1_the_smaller_of_two_equally_far_cutoffs(self) -> None:
        for rows, pietra in ([(1, 1), (2, 0), (1, 1)], (2, 4)), ([(1, 0), (2, 2), (1, 0)], (-2, 4)):
            found = loaded(Desk(), rows).measures(1)
            self.assertEqual((found.pietra.written, found.cutoff), (pietra, 1))

    def test_g_the_finer_scale_is_first(self) -> None:
        desk = loaded(Desk(), *G)
        found = desk.compare()
        self.assertEqual((found.kind, found.first_dearer), (Kind.FIRST, None))
        first, second = costs(desk, found.second_dearer)
        self.assertLess(first, second)
        self.assertEqual((found.first_at_least_as_good, found.second_at_least_as_good), (True, False))
        desk = loaded(Desk(), *G[::-1])
        found = desk.compare()
        self.assertEqual((found.kind, found.second_dearer), (Kind.SECOND, None))
        first, second = costs(desk, found.first_dearer)
        self.assertGreater(first, second)
        self.assertEqual((found.first_at_least_as_good, found.second_at_least_as_good), (False, True))

    def test_h_crossing_with_costs(self) -> None:
        desk = loaded(Desk(), *H)
        found = desk.compare()
        self.assertEqual((found.kind, found.first_at_least_as_good, found.second_at_least_as_good), (Kind.CROSSING, False, False))
        first, second = costs(desk, found.first_dearer)
        self.assertGreater(first, second)
        first, second = costs(desk, found.second_dearer)
        self.assertLess(first, second)
        self.assertEqual((costs(desk, Price(1, 1)), costs(desk, Price(1, 3))), ((2, 1), (2, 3)))

    def test_i_a_table_equals_itself(self) -> None:
        found = loaded(Desk(), E, E).compare()
        self.assertEqual(found, Verdict(Kind.EQUAL, None, None))
        self.assertEqual((found.first_at_least_as_good, found.second_at_least_as_good), (True, True))

    def test_k_limits(self) -> None:
        """Of the library, which is asked with a book, and of Table."""
        for scale, number in (([(1_000_000, 1)], None), ([(1_000_001, 1)], 11), ([(1, 0)] * 40, None), ([(1, 0)] * 41, 6), ([(1, 0)], None),
                              ([(0, 0)], 9), ([(0, 0), (1, 0)], None), ([(0, 0)] * 39 + [(1, 1)], None), ([(0, 0)] * 40, 9),
                              ([(0, 0)] * 41, 6)):
            for make in (lambda: Desk().load(1, encoded([(0, [(n, d, 0) for n, d in scale])])), lambda: table_of(scale)):
                with self.subTest(scale=scale[:1], grades=len(scale)):
                    self.assertEqual(self.number(make), number)
        self.assertEqual(self.number(lambda: Desk().load(1, read('examples', 'k.book')[:45])), 2)

    def test_r4_an_empty_grade_repeats_a_block(self) -> None:
        self.assertEqual(blocks([(0, 0), (10, 2), (0, 0), (10, 1), (20, 4), (0, 0)]), [(3, 20)] * 4 + [(4, 20)] * 2)
        self.assertEqual(blocks([(5, 0), (0, 0), (5, 5)]), [(0, 5), (0, 5), (5, 5)])

    def test_k_prices(self) -> None:
        desk = Desk()
        desk.load(1, read('examples', 'k.book'))
        self.assertEqual(desk.cheapest(1, 1_000_000, 1_000_000), Cutoff(0, 7_000_000))
        for prices in ((1_000_001, 0), (0, 1_000_001)):
            self.assertEqual(self.number(lambda: desk.cheapest(1, *prices)), 12)

    def number(self, call) -> int | None:
        """The number that a call is refused with."""
        try:
            call()
            return None
        except Refused as refused:
            return refused.number


class Documentation(unittest.TestCase):
    def test_the_examples_in_docstrings(self) -> None:
        examples = 0
        names = [each.name for each in pkgutil.walk_packages(module.__path__, 'desk.')]
        for name in ['desk', *names]:
            with self.subTest(name):
                failed, attempted = doctest.testmod(importlib.import_module(name))
                self.assertEqual(failed, 0)
                examples += attempted
        self.assertGreater(examples, 20)

    def test_what_is_exported_is_there_and_described(self) -> None:
        for name in module.__all__:
            self.assertTrue(name == 'MEANINGS' or getattr(module, name).__doc__, name)


class Values(unittest.TestCase):
    """Answers are values: equal, hashed, copied and pickled by what they hold."""

    def answers(self) -> list:
        desk = loaded(Desk(), *H)
        return [desk.cheapest(1, 1, 3), desk.measures(1), desk.pool(2)[1], desk.pool(2)[1].rate, desk.brier(1), desk.spread(1),
                desk.compare(), desk.compare().kind, desk.compare().first_dearer, desk.table(1), desk.table(1).grades[0],
                price_ranges(desk)[1], table_of(H[0]), Table(survivors=[1], defaults=[2], announced=[3], name='by survivors')]

    def test_equality_and_hash(self) -> None:
        answers = self.answers()
        for one, same in zip(answers, self.answers()):
            self.assertEqual(one, same)
            self.assertEqual(hash(one), hash(same))
        self.assertEqual(loaded(Desk(), *H).table(1), table_of(H[0]))
        self.assertEqual(len(set(answers)), len(answers) - 1)  # that table stands twice among them
        self.assertNotEqual(answers[0], 1)
        self.assertNotEqual(table_of(H[0]), H[0])

    def test_copies(self) -> None:
        for answer in self.answers():
            for again in (copy.copy(answer), copy.deepcopy(answer), *(pickle.loads(pickle.dumps(answer, protocol))
                                                                      for protocol in range(pickle.HIGHEST_PROTOCOL + 1))):
                self.assertEqual((type(again), again, repr(again), str(again)), (type(answer), answer, repr(answer), str(answer)))

    def test_a_copied_fraction_stays_as_written(self) -> None:
        found = loaded(Desk(), E).measures(1)
        for again in (copy.deepcopy(found), pickle.loads(pickle.dumps(found))):
            self.assertEqual([each.written for each in again[2:6]], [each.written for each in found[2:6]])

    def test_a_refusal_is_pickled_with_its_place(self) -> None:
        for refused in (Refused(22), Refused(9, 'grade 3')):
            again = pickle.loads(pickle.dumps(refused))
            self.assertEqual((vars(again), str(again)), (vars(refused), str(refused)))

    def test_repr_can_be_read_back(self) -> None:
        desk = loaded(Desk(), *H)
        for answer in (desk.cheapest(1, 1, 3), desk.measures(1), desk.pool(1)[0], desk.brier(1), desk.spread(1), Price(1, 2),
                       desk.table(1).grades[0]):
            self.assertEqual(eval(repr(answer), vars(module)), answer)

    def test_a_refusal_in_words(self) -> None:
        for number, meaning in module.MEANINGS.items():
            self.assertEqual(str(Refused(number)), f'refused {number}: {meaning}')
            self.assertEqual(str(Refused(number, 'here')), f'refused {number}: {meaning}; here')


class Fractions(unittest.TestCase):
    def test_a_fraction_by_value(self) -> None:
        gini = WrittenFraction(2050, 2500)
        self.assertEqual((gini, hash(gini), gini.numerator, gini.denominator), (Fraction(41, 50), hash(Fraction(41, 50)), 41, 50))
        self.assertEqual((gini.written, float(gini), gini == WrittenFraction(41, 50)), ((2050, 2500), 0.82, True))
        self.assertTrue(Fraction(4, 5) < gini < 0.83)
        self.assertEqual((gini + 1, abs(-gini), gini * 50, max(gini, Fraction(1, 2))), (Fraction(91, 50), Fraction(41, 50), 41, gini))

    def test_printing(self) -> None:
        """The nearest decimal, ties away from zero; a negative one that is rounded to 0 has no sign, its fraction does."""
        for written, text in (((2050, 2500), '0.820000 (2050/2500)'), ((-4, 4), '-1.000000 (-4/4)'), ((1, 128), '0.007813 (1/128)'),
                              ((-1, 128), '-0.007813 (-1/128)'), ((-1, 3_000_000), '0.000000 (-1/3000000)'), ((0, 9), '0.000000 (0/9)')):
            found = WrittenFraction(*written)
            self.assertEqual((str(found), f'{found}', '%s' % found, format(found)), (text,) * 4)
            self.assertEqual(repr(found), f'WrittenFraction{written}')
        self.assertEqual((f'{WrittenFraction(2, 3):.3f}', f'{WrittenFraction(1, 2):>6.1%}'), ('0.667', ' 50.0%'))

    def test_answers_in_words(self) -> None:
        desk = loaded(Desk(), *H)
        for part in ('Gini 0.333333 (3/9)', 'ROC area 0.666667 (12/18)', 'at cutoff 1', '3 defaults, 3 survivors'):
            self.assertIn(part, str(desk.measures(1)))
        self.assertEqual(str(desk.pool(1)[0]), '0.400000 (2/5), band 12')
        self.assertEqual((str(Price(30, 20)), Price(30, 20).reduced(), Price(0, 0).reduced(), Price(0, 7).reduced()),
                         ('30:20', Price(3, 2), Price(0, 0), Price(0, 1)))

    def test_verdicts_in_words(self) -> None:
        for scales, sentence, shown in ((G, 'A is better than B', ' the second costs more'), (H, 'A and B cross', ' the first costs more'),
                                        (G[::-1], 'B is better than A', ' the first costs more'), (G[:1] * 2, 'A and B are equal', '')):
            found = loaded(Desk(), *scales).compare()
            self.assertTrue(found.sentence('A', 'B').startswith(sentence), found)
            self.assertIn(shown, str(found))


class Desks(unittest.TestCase):
    def test_a_desk_starts_empty(self) -> None:
        self.assertEqual((Desk().table(1), Desk().table(2), repr(Desk())), (None, None, 'Desk(place 1: empty; place 2: empty)'))

    def test_two_at_once(self) -> None:
        one, other = loaded(Desk(), G[0]), loaded(Desk(), None, H[1])
        self.assertEqual((one.table(1), one.table(2), other.table(1), other.table(2)), (table_of(G[0]), None, None, table_of(H[1])))
        one.clear(1)
        self.assertEqual((one.table(1), other.table(2)), (None, table_of(H[1])))

    def test_a_copy_is_a_desk_of_its_own(self) -> None:
        original = loaded(Desk(), *H)
        for copied in (original.copy(), copy.copy(original), copy.deepcopy(original)):
            self.assertEqual(copied.write(), original.write())
            copied.clear(1)
            self.assertEqual((copied.table(1), original.table(1)), (None, table_of(H[0])))
        self.assertIn('place 2: Table: 2 grades, 6 obligors = 3 survivors + 3 defaults', repr(original))

    def test_a_written_book_loads_back(self) -> None:
        book, again = loaded(Desk(), *H).write(), Desk()
        again.load(1, bytearray(book), 1)
        again.load(2, memoryview(book), 2)
        self.assertEqual((again.table(1), again.table(2), again.write()), (table_of(H[0]), table_of(H[1]), book))

    def test_survivors_give_the_same_desk(self) -> None:
        books = Desk(), Desk()
        for desk, name in zip(books, ('five', 'five_survivors')):
            desk.load(1, read('examples', f'{name}.book'))
        self.assertEqual(books[0].write(), books[1].write())
        self.assertEqual(books[1].table(1).counts, 'obligors')

    def test_threads(self) -> None:
        """Desks of their own in threads, and one desk that is asked by several."""
        def answers(of: Desk) -> tuple:
            return of.compare(), of.measures(1), of.pool(2), of.write(), of.brier(1), of.spread(2), of.cheapest(1, 2, 3)

        def work(index: int) -> tuple:
            own = Desk()
            for _ in range(20):
                loaded(own, *(G, H, G[::-1], H[::-1])[index % 4])
                found = answers(own)
                own.clear(1)
                own.clear(2)
            return found
        shared = loaded(Desk(), *H)
        with ThreadPoolExecutor(8) as threads:
            self.assertEqual(list(threads.map(work, range(16))), [work(index) for index in range(4)] * 4)
            self.assertEqual(set(map(str, threads.map(lambda _: answers(shared), range(100)))), {str(answers(shared))})

    def test_memory_of_another_kind_is_not_lent(self) -> None:
        """The library would take its length in the wrong unit, or write where nothing may be written."""
        desk = loaded(Desk(), *H)
        for memory in ((module.library.c_ubyte * 24)(), [0] * 6, bytearray(24), bytes(24), '0' * 24, None, (module.library.c_int64 * 6)()):
            with self.assertRaisesRegex(TypeError, 'c_uint32'):
                desk.pool_into(1, memory)
        for memory in ((c_uint32 * 1000)(), bytearray(1000), bytes(1000), 'x' * 1000, None):
            with self.assertRaisesRegex(TypeError, 'c_ubyte'):
                desk.write_into(memory)

    def test_what_is_no_number_and_no_book(self) -> None:
        desk = loaded(Desk(), *H)
        for call in (lambda no: desk.clear(no), lambda no: desk.pool(no), lambda no: desk.table(no), lambda no: desk.cheapest(1, no, 1),
                     lambda no: desk.cheapest(1, 1, no), lambda no: desk.load(no, b''), lambda no: Desk().load(1, b'', no)):
            for no in (1.0, '1', None, Fraction(1)):
                with self.assertRaisesRegex(TypeError, 'is a whole number, not'):
                    call(no)
        for no in (5, 'examples/k.book', [1, 0, 4, 0], None):
            for call in (lambda: Desk().load(1, no), lambda: module.read_book(no)):
                with self.assertRaisesRegex(TypeError, 'a book is bytes'):
                    call()

    def test_numbers_of_other_types(self) -> None:
        """A place, a rater or a price may be any object that is a whole number."""
        class Number:
            def __init__(self, number: int):
                self.number = number

            def __index__(self) -> int:
                return self.number
        one, desk = Number(1), Desk()
        desk.load(one, table_of(E), one)
        self.assertEqual((desk.pool(one), desk.table(one)), (desk.pool(1), table_of(E)))
        self.assertEqual(desk.cheapest(one, one, one), desk.cheapest(1, 1, 1))
        desk.clear(one)
        self.assertIsNone(desk.table(1))


class TheLibrary(unittest.TestCase):
    def python(self, program: str, **variables: str) -> str:
        """What a program prints in a Python of its own."""
        path = os.path.join(TOP, 'bindings', 'python')
        done = subprocess.run([sys.executable, '-B', '-c', program], env={**os.environ, 'PYTHONPATH': path, **variables},
                              stdout=subprocess.PIPE, stderr=subprocess.PIPE, universal_newlines=True, check=False)
        self.assertEqual((done.returncode, done.stderr), (0, ''))
        return done.stdout

    def test_import_alone_does_not_load_it(self) -> None:
        """Nor do tables and books need it."""
        nowhere = os.path.join(TOP, 'nowhere', 'libdesk.so')
        program = ('import desk, desk.ranges\n'
                   'table = desk.Table(obligors=[1], defaults=[0], announced=[0])\n'
                   'assert desk.read_book(desk.write_book([table])) == [table]\n'
                   'try:\n'
                   '    desk.Desk()\n'
                   'except desk.LibraryMissing as missing:\n'
                   '    print(missing)\n')
        said = self.python(program, DESK_LIBRARY=nowhere)
        for word in (nowhere, 'cannot be used', './desk build', 'DESK_LIBRARY'):
            self.assertIn(word, said)

    def test_what_is_no_library(self) -> None:
        with tempfile.TemporaryDirectory() as folder:
            text = os.path.join(folder, 'libdesk.so')
            with open(text, 'w') as file:
                file.write('no library')
            others = [_ctypes.__file__] if hasattr(_ctypes, '__file__') else []
            for path in (text, folder, os.path.join(folder, 'missing.so'), *others):
                with self.assertRaisesRegex(LibraryMissing, 'cannot be used'):
                    Desk(path)
                with self.assertRaises(ImportError):
                    Desk(path)

    def test_a_path_may_be_named(self) -> None:
        for path in (default_path(), pathlib.Path(default_path())):
            self.assertEqual(loaded(Desk(path), *H).copy().write(), loaded(Desk(), *H).write())

    def test_where_it_is_looked_for(self) -> None:
        """First where DESK_LIBRARY says, then beside the package, then where `./desk build` writes it."""
        program = 'from desk.library import default_path; print(default_path())'
        self.assertEqual(self.python(program, DESK_LIBRARY='named.so').strip(), 'named.so')
        built = os.path.join(os.path.realpath(TOP), 'target', 'desk', 'libdesk.so')
        beside = os.path.join(os.path.realpath(TOP), 'bindings', 'python', 'desk', 'libdesk.so')
        self.assertEqual(self.python(program, DESK_LIBRARY='').strip(), beside if os.path.exists(beside) else built)


if __name__ == '__main__':
    unittest.main()
