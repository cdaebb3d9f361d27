"""Tests the four events of the Python module (document 02, R-8): firms that enter, leave, default and are removed. The table is then the one
that they have made, for every call; the place keeps the pooled list of it; nothing else has changed. test_refusals.py has what is refused.

    python3 tests/desk/test_events.py     # from anywhere
"""
from __future__ import annotations

from ctypes import c_uint32
from fractions import Fraction
from typing import List, Tuple
import copy
import random
import sys
import unittest

sys.dont_write_bytecode = True
from common import loaded, table_of  # noqa: E402
from watched import WatchedDesk  # noqa: E402
from definitions import EVENTS, Grades, after_event, brier, cheapest, event_fault, measures, measures_refusal, pooled, spread  # noqa: E402
from test_ranges import expected as ranges_by_definition, kind_of  # noqa: E402
from desk import Desk, Kind, PooledGrade, Refused, Table  # noqa: E402
from desk import events as module_events  # noqa: E402

Rows = List[Tuple[int, int, int]]
MOST = 1_000_000
K: Rows = [(10, 2, 100_000), (10, 1, 150_000), (20, 4, 200_000)]


def desk_with(*tables: Grades, kind: type = Desk) -> Desk:
    """A desk whose places hold these grades, from place 1 on."""
    desk = kind()
    for place, grades in enumerate(tables, 1):
        desk.load(place, Table.of_rows('obligors', grades))
    return desk


def book(desk: Desk, place: int, event: str, grade: int) -> int | None:
    """Books an event: the number that it is refused with."""
    try:
        return getattr(desk, event)(place, grade)
    except Refused as refused:
        return refused.number


class Case(unittest.TestCase):
    def see(self, desk: Desk, place: int, grades: Grades) -> None:
        """That a place holds these grades, and is to the byte what a load of them makes: its pooled list is theirs, with zeros behind."""
        self.assertEqual(list(desk.table(place).grades), grades)
        fresh = Desk()
        fresh.load(place, Table.of_rows('obligors', grades))
        self.assertEqual(bytes(desk._place(place)), bytes(fresh._place(place)))

    def see_list(self, desk: Desk, place: int, grades: Grades) -> None:
        """That pool and the list in the image are the pooling of these grades by definition."""
        blocks = [tuple(block) for block in pooled(grades)]
        self.assertEqual([tuple(block) for block in desk.pool(place)], blocks, grades)
        numbers = [number for block in blocks for number in block]
        self.assertEqual(desk._place(place).pooled[:], numbers + [0] * (120 - len(numbers)), grades)


class Worked(Case):
    def test_each_event_of_book_k(self) -> None:
        """Its grades pool into 3/20, 3/20 and 4/20."""
        for event, grade, counts, blocks in (
                ('survivor_enters', 1, (11, 2), [(3, 21), (3, 21), (4, 20)]), ('survivor_leaves', 1, (9, 2), [(3, 19), (3, 19), (4, 20)]),
                ('survivor_defaults', 1, (10, 3), [(8, 40)] * 3), ('survivor_defaults', 2, (10, 2), [(8, 40)] * 3),
                ('defaulted_removed', 1, (9, 1), [(2, 19), (2, 19), (4, 20)]), ('survivor_defaults', 3, (20, 5), [(3, 20), (3, 20), (5, 20)]),
                ('defaulted_removed', 3, (19, 3), [(3, 20), (3, 20), (3, 19)]), ('defaulted_removed', 2, (9, 0), [(2, 19), (2, 19), (4, 20)]),
                ('survivor_enters', 3, (21, 4), [(3, 20), (3, 20), (4, 21)]), ('survivor_leaves', 3, (19, 4), [(3, 20), (3, 20), (4, 19)])):
            with self.subTest(event, grade=grade):
                desk = desk_with(K, K)
                self.assertIsNone(getattr(desk, event)(2, grade))
                expected = list(K)
                expected[grade - 1] = (*counts, K[grade - 1][2])
                self.see(desk, 2, expected)
                self.see(desk, 1, K)
                self.assertEqual([block[:2] for block in desk.pool(2)], blocks)

    def test_a_week(self) -> None:
        desk = desk_with(K)
        for event, grade, n, s, d in (('survivor_enters', 3, 41, 34, 7), ('survivor_defaults', 3, 41, 33, 8), ('survivor_leaves', 1, 40, 32, 8),
                                      ('defaulted_removed', 1, 39, 32, 7)):
            getattr(desk, event)(1, grade)
            said = f'{n} obligors = {s} survivors + {d} defaults'
            self.assertEqual(repr(desk.table(1)), f'Table: 3 grades, {said}')
            self.assertEqual(repr(desk), f'Desk(place 1: Table: 3 grades, {said}; place 2: empty)')
        self.see(desk, 1, [(8, 1, 100_000), (10, 1, 150_000), (21, 5, 200_000)])
        self.assertEqual(desk.pool(1), [PooledGrade(2, 18, 11), PooledGrade(2, 18, 11), PooledGrade(5, 21, 12)])

    def test_a_verdict_turns(self) -> None:
        """By counts it is 25 while D or S differ; on shares the tables are compared meanwhile."""
        desk = loaded(Desk(), [(3, 1), (3, 2)], [(2, 0), (2, 1), (2, 2)])
        self.assertEqual(desk.compare().kind.name, 'SECOND')
        desk.survivor_defaults(1, 2)
        self.assertRaisesRegex(Refused, 'refused 25', desk.compare)
        self.assertEqual(desk.compare_shares().kind.name, 'CROSSING')
        desk.defaulted_removed(1, 1)
        self.assertRaisesRegex(Refused, 'refused 25', desk.compare)
        self.assertEqual(desk.compare_shares().kind.name, 'FIRST')
        desk.survivor_enters(1, 1)
        self.assertEqual((desk.table(1), desk.compare().kind.name), (table_of([(3, 0), (3, 3)]), 'FIRST'))

    def test_what_is_undone_is_as_it_was(self) -> None:
        for event, *undone in (('survivor_enters', 'survivor_leaves'), ('survivor_leaves', 'survivor_enters'),
                               ('survivor_defaults', 'defaulted_removed', 'survivor_enters'),
                               ('defaulted_removed', 'survivor_enters', 'survivor_defaults')):
            for grade in (1, 2, 3):
                desk = desk_with(K, K)
                before = bytes(desk._image)
                getattr(desk, event)(1, grade)
                self.assertNotEqual(bytes(desk._image), before)
                for each in undone:
                    getattr(desk, each)(1, grade)
                self.assertEqual(bytes(desk._image), before)


class Edges(Case):
    def test_a_grade_empties_and_fills(self) -> None:
        desk, grades = desk_with([(3, 1, 0), (2, 1, 5), (4, 3, 9)], kind=WatchedDesk), [(3, 1, 0), (2, 1, 5), (4, 3, 9)]
        for event in ('survivor_leaves', 'defaulted_removed', 'survivor_enters', 'survivor_defaults', 'survivor_enters', 'defaulted_removed',
                      'survivor_leaves', 'survivor_enters'):
            self.assertIsNone(book(desk, 1, event, 2))
            grades = after_event(event, grades, 2)
            self.see(desk, 1, grades)
            self.see_list(desk, 1, grades)
            self.assertEqual(desk.table(1).repeats, (None, None if grades[1][0] else 1, None))
        self.assertEqual(grades[1], (1, 0, 5))

    def test_the_first_and_the_last_grade_empty(self) -> None:
        """An empty first grade repeats the best occupied one, an empty last one the next better."""
        desk = loaded(Desk(), [(1, 0), (5, 1), (1, 1)])
        desk.survivor_leaves(1, 1)
        desk.defaulted_removed(1, 3)
        self.assertEqual(([block[:2] for block in desk.pool(1)], desk.table(1).repeats), ([(1, 5)] * 3, (2, None, 2)))
        desk.survivor_enters(1, 3)
        self.see_list(desk, 1, [(0, 0, 0), (5, 1, 0), (1, 0, 0)])

    def test_one_obligor(self) -> None:
        """It may default, but neither leave nor be removed, wherever it is and whatever empty grades there are."""
        for before, grade in ((0, 1), (1, 2), (39, 40)):
            empty = [(0, 0, 0)] * before
            desk = desk_with([*empty, (1, 0, 7)], kind=WatchedDesk)
            self.assertEqual([book(desk, 1, event, grade) for event in ('survivor_leaves', 'defaulted_removed', 'survivor_defaults')],
                             [37, 37, None])
            self.see(desk, 1, [*empty, (1, 1, 7)])
            self.assertEqual([book(desk, 1, event, grade) for event in ('survivor_leaves', 'survivor_defaults', 'defaulted_removed')], [37] * 3)
            self.see_list(desk, 1, [*empty, (1, 1, 7)])
            self.assertIsNone(book(desk, 1, 'survivor_enters', grade))
            self.assertIsNone(book(desk, 1, 'defaulted_removed', grade))
            self.see(desk, 1, [*empty, (1, 0, 7)])

    def test_the_last_obligor_is_of_the_table(self) -> None:
        """The last one of its grade may go where another grade has one."""
        for event, firm in (('survivor_leaves', (1, 0, 0)), ('defaulted_removed', (1, 1, 0))):
            desk = desk_with([firm, (1, 0, 0)])
            getattr(desk, event)(1, 1)
            self.see(desk, 1, [(0, 0, 0), (1, 0, 0)])
            self.assertEqual(book(desk, 1, 'survivor_leaves', 2), 37)

    def test_a_full_table(self) -> None:
        """One below the limit an entry is taken, by the table and not by the grade; at it the other events are."""
        for grades, grade in (([(MOST - 1, 5, 0)], 1), ([(MOST - 1, MOST - 1, 0), (0, 0, 0)], 2), ([(1, 1, 0), (MOST - 2, 0, 0)], 1),
                              ([(25_000, 1, 0)] * 39 + [(24_999, 1, 0)], 7)):
            desk = desk_with(grades, kind=WatchedDesk)
            self.assertEqual([book(desk, 1, 'survivor_enters', grade) for _ in range(3)], [None, 38, 38])
            full = after_event('survivor_enters', grades, grade)
            self.see(desk, 1, full)
            self.assertIsNone(book(desk, 1, 'survivor_defaults', grade))
            self.assertEqual(book(desk, 1, 'survivor_enters', grade), 38)
            self.assertIsNone(book(desk, 1, 'defaulted_removed', grade))
            self.assertIsNone(book(desk, 1, 'survivor_enters', grade))
            self.see(desk, 1, full)
            self.see_list(desk, 1, full)

    def test_all_defaulted_and_all_well(self) -> None:
        desk = desk_with([(2, 0, 0), (2, 2, 0)])
        for event, grade in (('survivor_defaults', 1), ('survivor_defaults', 1)):
            getattr(desk, event)(1, grade)
        self.assertRaisesRegex(Refused, 'refused 24', desk.measures, 1)
        for event, grade in (('survivor_enters', 1), ('defaulted_removed', 1), ('defaulted_removed', 1), ('defaulted_removed', 2),
                             ('defaulted_removed', 2)):
            getattr(desk, event)(1, grade)
        self.assertRaisesRegex(Refused, 'refused 23', desk.measures, 1)
        self.see(desk, 1, [(1, 0, 0), (0, 0, 0)])


class AtRandom(Case):
    def rows(self, source: random.Random, most: int) -> Rows:
        """Grades with few firms, so that all numbers are met, of which some are empty."""
        sizes = [source.choice((0, 1, 2, 5, 30)) for _ in range(source.randint(1, most))]
        sizes[source.randrange(len(sizes))] += 1
        rates = sorted(source.randint(0, 1_000_000) for _ in sizes)
        return [(n, source.randint(0, n), rate) for n, rate in zip(sizes, rates)]

    def test_thousands_of_events(self) -> None:
        """In both places of one desk: each is taken or refused by definition, and the places are then to the byte what a load makes."""
        source, numbers = random.Random(36), set()
        for most in (1, 2, 4, 12, 40):
            held = {1: self.rows(source, most), 2: self.rows(source, most)}
            desk = desk_with(held[1], held[2], kind=WatchedDesk)
            for step in range(1200):
                place, event = source.choice((1, 2)), source.choice(list(EVENTS))
                grade = source.choice((0, source.randint(1, len(held[place])), source.randint(1, len(held[place]) + 1)))
                number = event_fault(event, held[place], grade)
                self.assertEqual(book(desk, place, event, grade), number, (event, held[place], grade))
                numbers.add((event, number))
                if number is None:
                    held[place] = after_event(event, held[place], grade)
                for each in (1, 2):
                    self.see(desk, each, held[each])
                if step % (most * 4) == 0:
                    self.see_list(desk, place, held[place])
                    self.see_answers(desk, place, held[place])
        self.assertEqual(numbers, {(event, number) for event in EVENTS for number in (None, 36, 37) if (event, number) != ('survivor_enters', 37)})

    def see_answers(self, desk: Desk, place: int, grades: Rows) -> None:
        """That the calls answer of the table as it stands."""
        self.assertEqual(desk.brier(place).written, brier(grades))
        self.assertEqual(tuple(desk.cheapest(place, 3, 1)), cheapest(grades, 3, 1))
        for found, exact in zip(desk.spread(place), spread(grades)):
            self.assertLessEqual(abs(Fraction(found) - exact), Fraction(1, 2 ** 29))
        try:
            found = desk.measures(place)
        except Refused as refused:
            self.assertIn(refused.number, (23, 24))
        else:
            expected = measures(grades)
            self.assertEqual((found.gini.written, found.pietra.written, found.cutoff),
                             (expected['gini'], expected['pietra'], expected['pietra_cutoff']))
        again = Desk()
        again.load(1, desk.write(), 1 + (place == 2 and desk.table(1) is not None))
        self.assertEqual(list(again.table(1).grades), grades)

    def test_two_scales_of_one_portfolio(self) -> None:
        """Each event in both places, at grades of their own, keeps D and S the same: the verdict is of the tables as they stand."""
        source, held, found = random.Random(39), {1: [(5, 1, 0), (5, 2, 0), (5, 3, 0)], 2: [(8, 2, 0), (7, 4, 0)]}, []
        desk = desk_with(held[1], held[2], kind=WatchedDesk)
        for _ in range(1500):
            event, at = source.choice(list(EVENTS)), {place: source.randint(1, len(held[place])) for place in held}
            if any(event_fault(event, held[place], at[place]) for place in held):
                continue
            for place, grade in at.items():
                getattr(desk, event)(place, grade)
                held[place] = after_event(event, held[place], grade)
            for compare in (desk.compare, desk.compare_shares):
                try:
                    found.append(compare().kind)
                except Refused as refused:
                    found.append(refused.number)
                scales = [[grade[:2] for grade in grades] for grades in held.values()]
                self.assertEqual(found[-1], measures_refusal(held[1]) or kind_of(ranges_by_definition(*scales)), held)
        self.assertGreater(len(found), 1000)
        self.assertLessEqual(set(Kind), set(found))

    def test_around_one_obligor(self) -> None:
        source, held = random.Random(37), [(0, 0, 0), (1, 0, 4), (0, 0, 9)]
        desk, ones = desk_with(held, kind=WatchedDesk), 0
        for _ in range(1500):
            event = source.choice(('survivor_enters', 'survivor_leaves', 'survivor_leaves', 'survivor_defaults', 'defaulted_removed',
                                   'defaulted_removed'))
            grade = source.randint(1, 3)
            number = event_fault(event, held, grade)
            self.assertEqual(book(desk, 1, event, grade), number, (event, held, grade))
            held = held if number else after_event(event, held, grade)
            self.see(desk, 1, held)
            self.see_list(desk, 1, held)
            ones += sum(n for n, _, _ in held) == 1
        self.assertGreater(ones, 200)

    def test_around_a_full_table(self) -> None:
        source, held, full = random.Random(38), [(MOST // 2, 17, 0), (0, 0, 4), (MOST // 2, 400, 9)], 0
        desk = desk_with(held, kind=WatchedDesk)
        for _ in range(1500):
            event, grade = source.choice([*EVENTS, *['survivor_enters'] * 2]), source.randint(1, 3)
            number = event_fault(event, held, grade)
            self.assertEqual(book(desk, 1, event, grade), number, (event, held, grade))
            held = held if number else after_event(event, held, grade)
            self.see(desk, 1, held)
            self.see_list(desk, 1, held)
            full += number == 38
        self.assertGreater(full, 200)


class Desks(Case):
    def test_the_list_that_load_makes_and_clear_drops(self) -> None:
        desk = Desk()
        self.assertEqual(bytes(desk._image), bytes(1936))
        desk.load(2, Table.of_rows('obligors', K))
        self.see_list(desk, 2, K)
        self.assertEqual(bytes(desk._image.first), bytes(968))
        for event in ('survivor_enters', 'survivor_defaults'):
            getattr(desk, event)(2, 1)
        desk.clear(2)
        self.assertEqual(bytes(desk._image), bytes(1936))

    def test_a_place_loaded_again_knows_no_event(self) -> None:
        desk = desk_with(K)
        desk.survivor_defaults(1, 2)
        desk.clear(1)
        desk.load(1, Table.of_rows('obligors', K[:2]))
        self.see(desk, 1, K[:2])

    def test_copies(self) -> None:
        original = desk_with(K, K)
        original.survivor_defaults(1, 1)
        before = bytes(original._image)
        for copied in (original.copy(), copy.copy(original), copy.deepcopy(original)):
            self.assertEqual(bytes(copied._image), before)
            copied.survivor_enters(1, 1)
            copied.defaulted_removed(2, 3)
            self.see(copied, 1, [(11, 3, 100_000), *K[1:]])
            self.see(copied, 2, [*K[:2], (19, 3, 200_000)])
            self.assertEqual(bytes(original._image), before)
        original.survivor_leaves(1, 1)
        self.see(copied, 1, [(11, 3, 100_000), *K[1:]])

    def test_a_table_is_no_view(self) -> None:
        """What was shown, and what was loaded, stay as they were."""
        given, desk = Table.of_rows('obligors', K), Desk()
        desk.load(1, given)
        shown, blocks = desk.table(1), desk.pool(1)
        desk.defaulted_removed(1, 1)
        self.assertEqual((list(given.grades), list(shown.grades)), (K, K))
        self.assertEqual([tuple(block) for block in blocks], [tuple(block) for block in pooled(K)])
        self.assertNotEqual((desk.table(1), desk.pool(1)), (shown, blocks))

    def test_a_lent_list_is_as_long_as_it_was(self) -> None:
        """Pool writes after an event what it keeps, and no number behind it."""
        desk, numbers = desk_with(K), (c_uint32 * 11)(*[7] * 11)
        desk.survivor_enters(1, 1)
        desk.pool_into(1, numbers)
        self.assertEqual(numbers[:], [*desk._image.first.pooled[:9], 7, 7])


class Arguments(unittest.TestCase):
    def test_what_is_no_number(self) -> None:
        desk = desk_with(K)
        before = bytes(desk._image)
        for event in EVENTS:
            for no in (1.0, '1', None, Fraction(1), [1], b'\1'):
                with self.assertRaisesRegex(TypeError, 'a grade is a whole number, not'):
                    getattr(desk, event)(1, no)
                with self.assertRaisesRegex(TypeError, 'a place is a whole number, not'):
                    getattr(desk, event)(no, 1)
        self.assertEqual(bytes(desk._image), before)

    def test_numbers_of_other_types(self) -> None:
        class Number:
            def __init__(self, number: int):
                self.number = number

            def __index__(self) -> int:
                return self.number
        for event in EVENTS:
            desk, other = desk_with(K, K), desk_with(K, K)
            getattr(desk, event)(Number(2), Number(3))
            getattr(other, event)(2, 3)
            self.assertEqual(bytes(desk._image), bytes(other._image))
        with self.assertRaisesRegex(Refused, 'refused 36: grade outside the table; grade -5; this table has grades 1 to 3'):
            desk_with(K).survivor_enters(Number(1), Number(-5))

    def test_the_arguments_have_names(self) -> None:
        for event in EVENTS:
            desk = desk_with(K, K)
            getattr(desk, event)(grade=3, place=2)
            self.assertEqual(list(desk.table(2).grades), after_event(event, K, 3))

    def test_all_events_are_named(self) -> None:
        self.assertEqual(list(module_events.EVENTS), list(EVENTS))


if __name__ == '__main__':
    unittest.main()
