"""Tests desk.Table: the first column says what it counts, columns come from anything that lists whole numbers, and what is no table of
document 01 cannot be made.

    python3 tests/desk/test_tables.py     # from anywhere
"""
from __future__ import annotations

from array import array
from collections import deque
from decimal import Decimal
from enum import IntEnum
from fractions import Fraction
from typing import Callable, Iterator
import copy
import pickle
import sys
import unittest

sys.dont_write_bytecode = True
import common  # noqa: E402,F401  (where the module stands)
from desk import Desk, Grade, Refused, Table  # noqa: E402

NAN, INFINITY = float('nan'), float('inf')


class Number:
    """A whole number of another library: it can stand for an int, and that is all."""

    def __init__(self, number: int):
        self.number = number

    def __index__(self) -> int:
        return self.number


class Convertible:
    """Something that int() takes, but that is not said to be a number: a bool of another library, or an identifier."""

    def __int__(self) -> int:
        return 12

    def __eq__(self, other: object) -> bool:
        return other == 12

    def __hash__(self) -> int:
        return 12


class Column:
    """A column of a data frame."""

    def __init__(self, numbers: list[int]):
        self.items = list(map(Number, numbers))

    def __iter__(self) -> Iterator[Number]:
        return iter(self.items)

    def __len__(self) -> int:
        return len(self.items)

    def __getitem__(self, label: int) -> Number:
        raise KeyError(label)  # it is indexed by the frame's labels, not by position


class Listed:
    """The oldest way to be a sequence."""

    def __init__(self, numbers: list[int]):
        self.numbers = numbers

    def __getitem__(self, at: int) -> int:
        return self.numbers[at]


class Twelve(IntEnum):
    """A name for a number."""
    DOZEN = 12


def with_entry(name: str, entry: object) -> Callable[[], Table]:
    """A table of two grades with this entry as the second of a column."""
    first = 'survivors' if name == 'survivors' else 'obligors'
    columns = {first: [900, 900], 'defaults': [0, 5], 'announced': [0, 100], name: [5, entry]}
    return lambda: Table(**columns)


class Columns(unittest.TestCase):
    def test_what_may_hold_a_column(self) -> None:
        numbers = [12, 20, 28]
        expected = Table(obligors=numbers, defaults=[0, 1, 2], announced=[0, 0, 0])
        for held in (tuple(numbers), (each for each in numbers), array('I', numbers), array('q', numbers), array('d', numbers),
                     range(12, 29, 8), deque(numbers), dict(enumerate(numbers)).values(), memoryview(array('L', numbers)),
                     map(abs, numbers), Column(numbers), Listed(numbers), reversed(numbers[::-1])):
            with self.subTest(type(held).__name__):
                self.assertEqual(Table(obligors=held, defaults=range(3), announced=(0 for _ in numbers)).rows, expected.rows)

    def test_what_may_be_an_entry(self) -> None:
        for entry in (12, 12.0, Fraction(12), Fraction(36, 3), Decimal(12), Decimal('12.000'), Decimal('1.2E+1'), Number(12), Twelve.DOZEN):
            for name, column in (('obligors', 0), ('survivors', 0), ('defaults', 1), ('announced', 2)):
                with self.subTest(entry=entry, name=name):
                    found = with_entry(name, entry)().rows[1][column]
                    self.assertEqual((type(found), found), (int, 12))
        self.assertEqual(with_entry('defaults', -0.0)().rows[1][1], 0)

    def test_what_is_no_whole_number(self) -> None:
        for entry in (True, False, '12', b'12', '', None, 12.5, 1e-300, NAN, INFINITY, -INFINITY, -0.5, Fraction(25, 2), Decimal('12.5'),
                      Decimal('NaN'), Decimal('sNaN'), Decimal('-Infinity'), 12j, [12], (), object(), Convertible(), int):
            for name in ('obligors', 'survivors', 'defaults', 'announced'):
                with self.subTest(entry=entry, name=name), self.assertRaises(TypeError) as raised:
                    with_entry(name, entry)()
                self.assertEqual(str(raised.exception), f'{name}, grade 2: {entry!r} is not a whole number')

    def test_negative_numbers(self) -> None:
        for entry, shown in ((-1, '-1'), (-1.0, '-1'), (Fraction(-7), '-7'), (Decimal(-7), '-7'), (Number(-7), '-7'),
                             (-2 ** 32, '-4294967296'), (-10 ** 5000, 'under -10^30')):
            for name in ('obligors', 'survivors', 'defaults', 'announced'):
                with self.subTest(entry=shown, name=name), self.assertRaises(ValueError) as raised:
                    with_entry(name, entry)()
                self.assertEqual(str(raised.exception), f'{name}, grade 2: {shown} is negative')

    def test_what_is_no_column(self) -> None:
        """Text, a single number, and what has no order of its own."""
        for no in ('12', b'12', bytearray(2), 12, 12.0, {12, 20}, frozenset((12, 20)), {12: 0, 20: 1}, None, object(), Table):
            for name in ('defaults', 'announced', *(() if no is None else ('obligors', 'survivors'))):
                first = 'survivors' if name == 'survivors' else 'obligors'
                with self.subTest(no=no, name=name), self.assertRaisesRegex(TypeError, f'^{name} is a list of whole numbers'):
                    Table(**{first: [1, 2], 'defaults': [0, 0], 'announced': [0, 0], name: no})

    def test_exactly_one_first_column(self) -> None:
        for first in ({}, {'obligors': [1], 'survivors': [1]}, {'obligors': None, 'survivors': None}):
            with self.assertRaisesRegex(TypeError, 'either obligors .* or survivors .* not both'):
                Table(**first, defaults=[0], announced=[0])
        self.assertEqual(Table(obligors=[1], survivors=None, defaults=[0], announced=[0]).counts, 'obligors')
        with self.assertRaises(TypeError):
            Table([1], [0], [0])  # no column without its name

    def test_unequal_lengths(self) -> None:
        for lengths in ((1, 2, 2), (2, 1, 2), (2, 2, 1), (0, 1, 1), (41, 40, 40)):
            for name in ('obligors', 'survivors'):
                columns = dict(zip((name, 'defaults', 'announced'), ([1] * length for length in lengths)))
                with self.assertRaisesRegex(ValueError, f'{name}, defaults and announced have {", ".join(map(str, lengths))} entries'):
                    Table(**columns)


class Refusals(unittest.TestCase):
    """What load would refuse is refused with its number, and with the grade."""

    def refused(self, number: int, where: str, **columns: list[int]) -> None:
        with self.assertRaises(Refused) as raised:
            Table(**columns)
        self.assertEqual(raised.exception.number, number, raised.exception)
        self.assertTrue(raised.exception.where.startswith(where), raised.exception)

    def test_number_of_grades(self) -> None:
        self.refused(6, 'no grade', obligors=[], defaults=[], announced=[])
        self.refused(6, 'grade 41: ', obligors=[1] * 41, defaults=[2] * 41, announced=[0] * 41)

    def test_rows(self) -> None:
        self.refused(8, 'grade 2: 3 defaults are above 2 obligors', obligors=[1, 2], defaults=[0, 3], announced=[0, 1_000_001])
        self.refused(8, 'grade 1: ', obligors=[0], defaults=[1], announced=[0])
        self.refused(10, 'grade 1: ', obligors=[1, 2], defaults=[1, 3], announced=[1_000_001, 0])
        self.refused(10, 'grade 2: ', obligors=[0, 0], defaults=[0, 0], announced=[0, 1_000_001])
        self.refused(9, 'nobody is in any grade', obligors=[0, 0], defaults=[0, 0], announced=[0, 1_000_000])
        self.refused(9, 'nobody is in any grade', survivors=[0], defaults=[0], announced=[0])
        self.refused(11, 'grade 2: ', obligors=[500_000, 500_001, 1], defaults=[0, 0, 0], announced=[0, 0, 0])
        self.refused(34, 'grade 3: the announced rate 4000 ppm is below 12000 ppm, that of grade 2 before it', obligors=[1, 1, 1],
                     defaults=[0, 0, 0], announced=[500, 12_000, 4000])

    def test_numbers_beyond_32_bits_do_not_wrap(self) -> None:
        """Sums are true sums (docs/DECISIONS.md), however large."""
        for large in (2 ** 32, 2 ** 32 + 5, 2 ** 64 + 5, 10 ** 30, 10 ** 5000):
            self.refused(11, 'grade 1: the table has ', obligors=[large, 1], defaults=[1, 0], announced=[0, 0])
            self.refused(11, 'grade 1: ', survivors=[large], defaults=[1], announced=[0])
            self.refused(11, 'grade 1: ', survivors=[1], defaults=[large], announced=[0])
            self.refused(8, 'grade 1: ', obligors=[5], defaults=[large], announced=[0])
            self.refused(10, 'grade 1: ', obligors=[5], defaults=[0], announced=[large])
        self.refused(11, 'grade 1: ', survivors=[2 ** 32 - 1], defaults=[1], announced=[0])
        self.refused(11, 'grade 1: ', survivors=[2 ** 31] * 2, defaults=[0, 0], announced=[0, 0])
        self.refused(11, 'grade 1: ', survivors=[float(2 ** 33)], defaults=[1], announced=[0])

    def test_a_loaded_limit(self) -> None:
        for columns in ({'obligors': [1_000_000], 'defaults': [1_000_000]}, {'survivors': [0], 'defaults': [1_000_000]},
                        {'survivors': [999_999], 'defaults': [1]}):
            desk, table = Desk(), Table(**columns, announced=[1_000_000])
            desk.load(1, table)
            self.assertEqual(desk.table(1), table)


class Tables(unittest.TestCase):
    def setUp(self) -> None:
        self.by_obligors = Table(obligors=[10, 20], defaults=[1, 4], announced=[5, 6], name='A')
        self.by_survivors = Table(survivors=[9, 16], defaults=[1, 4], announced=[5, 6], name='B')

    def test_what_it_holds(self) -> None:
        for table, rows in ((self.by_obligors, ((10, 1, 5), (20, 4, 6))), (self.by_survivors, ((9, 1, 5), (16, 4, 6)))):
            self.assertEqual(table.rows, rows)
            self.assertEqual(table.grades, (Grade(10, 1, 5), Grade(20, 4, 6)))
            self.assertEqual((table.obligors, table.defaults, table.survivors), (30, 5, 25))
            self.assertEqual([grade.survivors for grade in table.grades], [9, 16])
            self.assertEqual([grade.rate for grade in table.grades], [Fraction(1, 10), Fraction(1, 5)])
        self.assertEqual((self.by_obligors.counts, self.by_survivors.counts), ('obligors', 'survivors'))

    def test_empty_grades(self) -> None:
        for first in ('obligors', 'survivors'):
            table = Table(**{first: [0, 3, 0]}, defaults=[0, 0, 0], announced=[1, 2, 3])
            self.assertEqual(table.grades, (Grade(0, 0, 1), Grade(3, 0, 2), Grade(0, 0, 3)))
            self.assertEqual([(grade.survivors, grade.rate) for grade in table.grades], [(0, None), (3, 0), (0, None)])
            self.assertEqual((table.obligors, table.survivors, table.defaults), (3, 3, 0))
            self.assertEqual(repr(table), 'Table: 3 grades, 3 obligors = 3 survivors + 0 defaults')
        self.assertIsNone(Grade(0, 0, 1_000_000).rate)

    def test_a_default_alone_is_no_empty_grade(self) -> None:
        self.assertEqual(Table(survivors=[0, 0], defaults=[0, 1], announced=[0, 0]).repeats, (2, None))

    def test_whose_numbers_are_repeated(self) -> None:
        for obligors, repeats in (([4], (None,)), ([1, 1, 1], (None,) * 3), ([0, 4], (2, None)), ([4, 0], (None, 1)),
                                  ([0, 0, 4, 0, 0], (3, 3, None, 3, 3)), ([1, 0, 0, 1, 0], (None, 1, 1, None, 4)),
                                  ([0, 1, 0, 2, 0, 3], (2, None, 2, None, 4, None)), ([0] * 39 + [1], (40,) * 39 + (None,)),
                                  ([1] + [0] * 39, (None,) + (1,) * 39)):
            zeros = [0] * len(obligors)
            self.assertEqual(Table(obligors=obligors, defaults=zeros, announced=zeros).repeats, repeats)
            self.assertEqual(Table(survivors=zeros, defaults=obligors, announced=zeros).repeats, repeats)

    def test_equality_is_that_of_the_grades(self) -> None:
        self.assertEqual(self.by_obligors, self.by_survivors)
        self.assertEqual(hash(self.by_obligors), hash(self.by_survivors))
        for obligors, announced in (([10, 20], [5, 7]), ([9, 16], [5, 6])):
            self.assertNotEqual(self.by_obligors, Table(obligors=obligors, defaults=[1, 4], announced=announced))
        for other in (Table(obligors=[10], defaults=[1], announced=[5]), self.by_obligors.grades, None):
            self.assertNotEqual(self.by_obligors, other)

    def test_repr(self) -> None:
        totals = '2 grades, 30 obligors = 25 survivors + 5 defaults'
        self.assertEqual((repr(self.by_obligors), repr(self.by_survivors)), (f"Table 'A': {totals}", f"Table 'B': {totals}"))
        self.assertEqual(repr(Table(obligors=[1], defaults=[0], announced=[0])), 'Table: 1 grade, 1 obligors = 1 survivors + 0 defaults')

    def test_copies(self) -> None:
        for table in (self.by_obligors, self.by_survivors):
            for again in (copy.copy(table), copy.deepcopy(table), pickle.loads(pickle.dumps(table))):
                self.assertEqual((again.name, again.counts, again.rows, again.grades), (table.name, table.counts, table.rows, table.grades))

    def test_of_rows(self) -> None:
        for table in (self.by_obligors, self.by_survivors):
            for rows in (table.rows, list(table.rows), (list(row) for row in table.rows), iter(table.rows)):
                again = Table.of_rows(table.counts, rows, name='C')
                self.assertEqual((again.counts, again.rows, again.name), (table.counts, table.rows, 'C'))
        for counts in ('firms', 'name', 'defaults', '', None, 0):
            with self.assertRaisesRegex(ValueError, "counts 'obligors' or 'survivors', not"):
                Table.of_rows(counts, [(1, 0, 0)])
        for rows, numbers in (([(1, 0)], 2), ([(1, 0, 0), (1, 0, 0, 0)], 4), ([()], 0)):
            with self.assertRaisesRegex(ValueError, f'grade {len(rows)} has {numbers} numbers; expected 3'):
                Table.of_rows('obligors', rows)
        with self.assertRaises(Refused):
            Table.of_rows('survivors', [])


if __name__ == '__main__':
    unittest.main()
