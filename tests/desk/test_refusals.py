"""Tests every refusal number of every call of the Python module, in the order of the checks where two could answer. At a refusal the desk
and all that was lent are as they were; that the watch over them sees what it has to is tested too.

    python3 tests/desk/test_refusals.py     # from anywhere
"""
from __future__ import annotations

from ctypes import addressof, c_ubyte, c_uint32, memset, sizeof
from typing import Callable
import struct
import sys
import unittest

sys.dont_write_bytecode = True
from common import Scale, loaded  # noqa: E402
from watched import Guarded, Violated, WatchedDesk, WatchedLibrary  # noqa: E402
from books import encoded  # noqa: E402
from definitions import EVENTS  # noqa: E402
from desk import Refused, Table, library  # noqa: E402

MIXED: Scale = [(10, 2), (10, 1), (20, 4)]
NO_DEFAULTS: Scale = [(3, 0)]
NO_SURVIVORS: Scale = [(3, 3)]
# Numbers that are no place, rater, grade or price, and would be one if they were cut to 4 bytes.
NO_PLACES = (0, 3, 257, 2 ** 32 - 1, 2 ** 32 + 1, 2 ** 32 + 2, 2 ** 64 + 1, 10 ** 5000, -1, 1 - 2 ** 32, 2 - 2 ** 64)
NO_RATERS = (0, 3, 257, 2 ** 32 - 1, 2 ** 32 + 1, 2 ** 64 + 2, 10 ** 5000, -1, 1 - 2 ** 32)
NO_GRADES = (0, 4, 40, 41, 257, 2 ** 32 - 1, 2 ** 32, 2 ** 32 + 1, 2 ** 64 + 2, 10 ** 5000, -1, 1 - 2 ** 32, 2 - 2 ** 64)  # of three
NO_PRICES = (1_000_001, 2 ** 32 - 1, 2 ** 32, 2 ** 32 + 5, 2 ** 64 + 1, 10 ** 5000)
# Two raters of one and two grades. Bytes 0 raters, 2 length, 4 and 6 offsets, 8 table 1 (rows from 12), 24 table 2 (rows from 28 and 40).
PAIR = encoded([(0, [(5, 1, 7)]), (1, [(5, 1, 7), (6, 0, 8)])])
LISTED = encoded([(0, [(12, 1, 7)]), (1, [(5, 1, 7), (6, 0, 8)])])  # both of which have a shortlist
PLACE, IMAGE = sizeof(library.DeskPlace), sizeof(library.DeskImage)  # bytes


def put(book: bytes, *changes: tuple[int, str, int]) -> bytes:
    """The book with numbers put at bytes: where, how wide ('B', 'H' or 'I'), what."""
    changed = bytearray(book)
    for at, width, number in changes:
        struct.pack_into(f'<{width}', changed, at, number)
    return bytes(changed)


def cut(length: int) -> bytes:
    """The pair's first bytes, with their number for its length."""
    return put(PAIR[:length], (2, 'H', length))


class Case(unittest.TestCase):
    def refused(self, number: int, desk: WatchedDesk, call: Callable[[], object]) -> Refused:
        """The refusal of a call, seen to have this number and to leave the desk as it was."""
        before = desk.memory.content()
        with self.assertRaises(Refused) as raised:
            call()
        self.assertEqual(raised.exception.number, number, raised.exception)
        self.assertEqual(desk.memory.content(), before)
        return raised.exception

    def load_refused(self, number: int, desk: WatchedDesk, place: int, source: Table | bytes, rater: int = 1) -> Refused:
        lent = bytearray(source) if isinstance(source, bytes) else source
        refusal = self.refused(number, desk, lambda: desk.load(place, lent, rater))
        self.assertEqual(lent, source)
        return refusal

    def pool_refused(self, number: int, desk: WatchedDesk, place: int, length: int) -> None:
        numbers = Guarded(c_uint32 * length, b'\x55' * 4 * length)
        self.refused(number, desk, lambda: desk.pool_into(place, numbers.object))
        self.assertEqual(numbers.content(), b'\x55' * 4 * length)

    def write_refused(self, number: int, desk: WatchedDesk, length: int) -> None:
        book = Guarded(c_ubyte * length, b'\x55' * length)
        self.refused(number, desk, lambda: desk.write_into(book.object))
        self.assertEqual(book.content(), b'\x55' * length)


class Places(Case):
    """1, 21 and 22, before whatever else is wrong."""

    def questions_refused(self, number: int, desk: WatchedDesk, place: int) -> None:
        for call in (desk.clear, desk.pool, desk.measures, desk.brier, desk.spread):
            self.refused(number, desk, lambda: call(place))
        for prices in ((1, 1), (NO_PRICES[0], 1), (1, NO_PRICES[-1])):
            self.refused(number, desk, lambda: desk.cheapest(place, *prices))
        for length in (0, 1, 120):
            self.pool_refused(number, desk, place, length)
        for event in EVENTS:
            for grade in (1, 2, 3, *NO_GRADES):
                self.assertIsNone(self.refused(number, desk, lambda: getattr(desk, event)(place, grade)).where)

    def test_no_such_place(self) -> None:
        for desk in (WatchedDesk(), loaded(WatchedDesk(), MIXED, NO_DEFAULTS)):
            for place in NO_PLACES:
                self.questions_refused(1, desk, place)
                self.refused(1, desk, lambda: desk.table(place))
                for book, rater in ((PAIR, 1), (PAIR, 3), (b'', 0), (Table(obligors=[1], defaults=[0], announced=[0]), 1)):
                    self.assertIsNone(self.load_refused(1, desk, place, book, rater).where)

    def test_empty_place(self) -> None:
        for scales, empty in (((), 1), ((), 2), ((None, MIXED), 1), ((NO_DEFAULTS, None), 2)):
            desk = loaded(WatchedDesk(), *scales)
            self.questions_refused(22, desk, empty)
            self.assertIsNone(desk.table(empty))

    def test_loaded_place(self) -> None:
        desk = loaded(WatchedDesk(), MIXED, NO_DEFAULTS)
        for place in (1, 2):
            for book, rater in ((PAIR, 1), (PAIR, 3), (b'', 0), (Table(obligors=[1], defaults=[0], announced=[0]), 1)):
                self.assertIsNone(self.load_refused(21, desk, place, book, rater).where)


class Loads(Case):
    """2 to 11 and 31 to 34, each with a fault beside it that comes later in the order."""

    def see(self, number: int, book: bytes, rater: int = 1, where: str = '') -> None:
        for place, other in ((1, (None, MIXED)), (2, (MIXED, None))):
            refusal = self.load_refused(number, loaded(WatchedDesk(), *other), place, book, rater)
            self.assertIn(where, refusal.where)

    def test_2_length(self) -> None:
        for length in range(4):
            self.see(2, PAIR[:length], 1, f'byte {length}:')
        for book in (PAIR[:-1], PAIR + b'\0', PAIR[:5], put(PAIR, (2, 'H', len(PAIR) + 1)), put(PAIR, (0, 'H', 0), (2, 'H', 0))):
            self.see(2, book, 3, 'byte 2:')

    def test_3_raters(self) -> None:
        for raters in (0, 17, 256, 65535):
            self.see(3, put(PAIR, (0, 'H', raters), (4, 'H', 0)), 3, 'byte 0:')
        for length in range(4, 8):
            self.see(3, cut(length), 3, f'byte {length}:')

    def test_4_rater(self) -> None:
        for rater in NO_RATERS:
            self.see(4, put(PAIR, (4, 'H', 0)), rater, 'this book has 2')

    def test_4_rater_of_a_table(self) -> None:
        table = Table(obligors=[1], defaults=[0], announced=[0])
        for rater in NO_RATERS + (2,):
            self.load_refused(4, WatchedDesk(), 1, table, rater)

    def test_31_start_and_32_header(self) -> None:
        for start in (0, 7, 9, 65535):
            self.see(31, put(PAIR, (4, 'H', start), (8, 'B', 0)), 1,
                     f'byte 4: the table of rater 1 is said to start at byte {start}; expected byte 8, where the offsets end')
        for length in range(8, 12):
            self.see(32, cut(length), 2, 'byte 8: the table of rater 1 starts here and its header ends at byte 12; '
                                         f'the book ends at byte {length}, bytes missing: {12 - length}')

    def test_6_grades(self) -> None:
        for grades in (0, 41, 255):
            self.see(6, put(PAIR, (8, 'B', grades), (9, 'B', 2)), 2, 'byte 8:')
            self.see(6, put(PAIR, (24, 'B', grades), (26, 'H', 1), (12, 'I', 0)), 1, 'byte 24:')

    def test_7_kind_and_zeros(self) -> None:
        for at, byte in ((9, 2), (9, 255), (10, 1), (11, 1), (11, 255)):
            self.see(7, put(PAIR, (8, 'B', 40), (at, 'B', byte)), 2, f'byte {at}:')
        self.see(7, put(PAIR, (9, 'B', 2), (6, 'H', 0)), 1, 'byte 9:')  # table by table: before the start of the second

    def test_32_rows(self) -> None:
        for length in range(12, 24):
            self.see(32, cut(length), 1, 'byte 8: the table of rater 1 starts here and its rows end at byte 24; '
                                         f'the book ends at byte {length}, bytes missing: {24 - length}')
        self.see(32, put(PAIR, (8, 'B', 40), (6, 'H', 0)), 1, 'its rows end at byte 492; the book ends at byte 52, bytes missing: 440')

    def test_31_and_32_of_the_second_table(self) -> None:
        for start in (0, 8, 23, 25):
            self.see(31, put(PAIR, (6, 'H', start), (24, 'B', 0)), 1,
                     f'byte 6: the table of rater 2 is said to start at byte {start}; expected byte 24, where the table of rater 1 ends')
        for length in range(24, 52):
            part_ends, end = ('header ends', 28) if length < 28 else ('rows end', 52)
            self.see(32, cut(length), 1, f'byte 24: the table of rater 2 starts here and its {part_ends} at byte {end}; '
                                         f'the book ends at byte {length}, bytes missing: {end - length}')

    def test_33_leftover(self) -> None:
        for over in (1, 12, 1000):  # before the rows
            self.see(33, put(PAIR + bytes(over), (2, 'H', len(PAIR) + over), (16, 'I', 9)), 1,
                     f'byte {len(PAIR)}: the table of rater 2, the last, ends here; bytes that follow it: {over}, expected none')

    def test_8_defaults(self) -> None:
        for obligors, defaults in ((5, 6), (0, 1), (5, 2 ** 32 - 1), (1_000_001, 1_000_002)):
            self.see(8, put(PAIR, (12, 'I', obligors), (16, 'I', defaults), (20, 'I', 1_000_001)), 1, 'byte 16 ')

    def test_9_all_grades_empty(self) -> None:
        """After all rows. No table has this fault and 11, before which it stands."""
        self.see(9, put(PAIR, (12, 'I', 0), (16, 'I', 0)), 1, 'byte 12 (rater 1, all grades)')
        self.see(9, put(PAIR, *((at, 'I', 0) for at in (28, 32, 40, 44))), 2, 'byte 28 (rater 2, all grades)')

    def test_10_announced(self) -> None:
        for announced in (1_000_001, 2 ** 32 - 1):
            self.see(10, put(PAIR, (12, 'I', 1_000_001), (20, 'I', announced)), 1, 'byte 20 ')
            self.see(10, put(PAIR, (12, 'I', 0), (16, 'I', 0), (20, 'I', announced)), 1, 'byte 20 ')  # before 9
            self.see(10, put(PAIR, *((at, 'I', 0) for at in (28, 32, 40, 44)), (48, 'I', announced)), 2, 'byte 48 ')
            self.see(10, encoded([(0, [(5, 1, announced), (5, 6, 0)])]), 1, 'byte 18 ')  # row by row

    def test_34_a_fall(self) -> None:
        """After 8 and 10 of its row and of those before, and before all else."""
        fall = ((36, 'I', 9), (48, 'I', 8))
        said = 'byte 48 (rater 2, grade 2, announced): the announced rate 8 ppm is below 9 ppm, that of grade 1 before it'
        for later in ((), ((40, 'I', 1_000_001),), tuple((at, 'I', 0) for at in (28, 32, 40, 44))):  # 11, 9
            self.see(34, put(PAIR, *fall, *later), 2, said)
        self.see(10, put(PAIR, *fall, (36, 'I', 1_000_001)), 2, 'byte 36 ')
        for rows in ([(5, 6, 9), (5, 1, 8)], [(5, 1, 9), (5, 6, 8)]):
            self.see(8, encoded([(0, rows)]), 1, 'defaults are above')
        self.see(34, encoded([(0, [(5, 1, 9), (5, 1, 8), (5, 6, 1_000_001)])]), 1, 'byte 30 ')  # row by row

    def test_11_obligors(self) -> None:
        self.see(11, put(PAIR, (12, 'I', 1_000_001)), 1, 'byte 12 ')
        self.see(11, put(PAIR, (28, 'I', 999_999), (32, 'I', 0), (40, 'I', 2), (44, 'I', 0)), 2, 'byte 40 ')
        for first, defaults in ((2 ** 32 - 1, 1), (2 ** 32 - 1, 2 ** 32 - 1), (2 ** 31, 2 ** 31), (1, 2 ** 32 - 1)):  # sums beyond 4 bytes
            self.see(11, put(PAIR, (28, 'I', first), (32, 'I', defaults)), 2, 'byte 28 ')

    def test_a_grade_may_be_empty(self) -> None:
        for at, grades in ((28, [0, 6]), (40, [6, 0])):
            for place in (1, 2):
                desk = WatchedDesk()
                desk.load(place, put(PAIR, (at, 'I', 0), (at + 4, 'I', 0)), 2)
                self.assertEqual([grade.obligors for grade in desk.table(place).grades], grades)

    def test_rows_of_the_other_rater_are_not_looked_at(self) -> None:
        desk = WatchedDesk()
        desk.load(1, put(PAIR, *((at, 'I', 0) for at in (28, 32, 40, 44))), 1)
        desk.load(2, put(PAIR, (16, 'I', 6)), 2)
        self.assertEqual([grade.obligors for grade in desk.table(1).grades + desk.table(2).grades], [5, 6, 6])


class Events(Case):
    """36 to 38 of the four events, in either place, with what is told of the grade or the table."""

    def see(self, number: int, event: str, scale: Scale, grade: int, where: str) -> None:
        for place, scales in ((1, (scale, None)), (1, (scale, MIXED)), (2, (NO_SURVIVORS, scale)), (2, (None, scale))):
            desk = loaded(WatchedDesk(), *scales)
            self.assertEqual(self.refused(number, desk, lambda: getattr(desk, event)(place, grade)).where, where)

    def test_36_no_such_grade(self) -> None:
        """Before 37 and 38: of a table without any such firm, of one with a single obligor, of a full one."""
        full, last = [(1_000_000, 0), (0, 0), (0, 0)], [(0, 0), (1, 1), (0, 0)]
        for event in EVENTS:
            for grade in NO_GRADES:
                shown = 'over 10^30' if grade > 10 ** 30 else grade
                for scale in (MIXED, full, last):
                    self.see(36, event, scale, grade, f'grade {shown}; this table has grades 1 to 3')
            for grade in (0, 2, 3, 40):
                self.see(36, event, NO_DEFAULTS, grade, f'grade {grade}; this table has grades 1 to 1')
            self.see(36, event, [(1, 0)] * 40, 41, 'grade 41; this table has grades 1 to 40')

    def test_37_no_such_firm(self) -> None:
        """Of the grade alone: the others have such firms, and there may be 1,000,000."""
        for event in ('survivor_leaves', 'survivor_defaults'):
            for scale, grade, has in (([(10, 2), (4, 4), (20, 4)], 2, '4 obligors, 4 defaults'), ([(0, 0), (4, 2)], 1, '0 obligors, 0 defaults'),
                                      ([(4, 0), (1, 1)], 2, '1 obligors, 1 defaults'), ([(1, 1)], 1, '1 obligors, 1 defaults'),
                                      ([(999_999, 0), (1, 1)], 2, '1 obligors, 1 defaults')):
                self.see(37, event, scale, grade, f'grade {grade} has no survivor: {has}')
        for scale, grade, has in (([(10, 2), (4, 0), (20, 4)], 2, '4 obligors, 0 defaults'), ([(4, 2), (0, 0)], 2, '0 obligors, 0 defaults'),
                                  ([(1, 0)], 1, '1 obligors, 0 defaults'), ([(1, 0), (999_999, 5)], 1, '1 obligors, 0 defaults')):
            self.see(37, 'defaulted_removed', scale, grade, f'grade {grade} has no defaulted firm: {has}')

    def test_37_the_last_obligor(self) -> None:
        for event, firm in (('survivor_leaves', (1, 0)), ('defaulted_removed', (1, 1))):
            for scale, grade in (([firm], 1), ([(0, 0), firm, (0, 0)], 2), ([(0, 0)] * 39 + [firm], 40)):
                self.see(37, event, scale, grade, f'grade {grade} has the one obligor of this table')

    def test_38_a_full_table(self) -> None:
        """By the table and not by the grade, which may be empty."""
        for scale in ([(1_000_000, 7)], [(999_999, 0), (1, 1), (0, 0)], [(0, 0), (500_000, 500_000), (500_000, 0)], [(25_000, 1)] * 40):
            for grade in range(1, len(scale) + 1):
                self.see(38, 'survivor_enters', scale, grade, 'this table has 1000000 obligors')


class Questions(Case):
    def test_12_prices(self) -> None:
        desk = loaded(WatchedDesk(), MIXED, NO_DEFAULTS)
        for place in (1, 2):
            for price in NO_PRICES:
                for prices in ((price, 0), (0, price), (price, 1_000_000), (price, price)):
                    self.refused(12, desk, lambda: desk.cheapest(place, *prices))

    def test_negative_prices(self) -> None:
        for desk in (WatchedDesk(), loaded(WatchedDesk(), MIXED)):
            for price in (-1, -2 ** 32 + 1, -2 ** 64):
                for prices in ((price, 0), (0, price)):
                    with self.assertRaisesRegex(ValueError, 'is 0 or more'):
                        desk.cheapest(1, *prices)

    def test_13_buffers(self) -> None:
        desk = loaded(WatchedDesk(), NO_DEFAULTS, MIXED)
        for length in range(9):
            self.pool_refused(13, desk, 2, length)
        for length in range(3):
            self.pool_refused(13, desk, 1, length)
        whole = len(desk.write())
        for length in range(whole):
            self.write_refused(13, desk, length)
        for place, needed in ((1, 3), (2, 9)):
            for length in (needed, needed + 1, 120):
                numbers = Guarded(c_uint32 * length, b'\x55' * 4 * length)
                desk.pool_into(place, numbers.object)
                self.assertEqual(numbers.content()[4 * needed:], b'\x55' * 4 * (length - needed))
        for length in (whole, whole + 1, 976):
            book = Guarded(c_ubyte * length, b'\x55' * length)
            self.assertEqual(desk.write_into(book.object), whole)
            self.assertEqual(book.content(), desk.write() + b'\x55' * (length - whole))

    def test_22_nothing_to_write(self) -> None:
        for length in (0, 1, 976):
            self.write_refused(22, WatchedDesk(), length)

    def test_23_and_24_of_measures(self) -> None:
        for desk in (loaded(WatchedDesk(), NO_DEFAULTS, NO_SURVIVORS), loaded(WatchedDesk(), NO_DEFAULTS, [(1, 1), (2, 2)])):
            self.refused(23, desk, lambda: desk.measures(1))
            self.refused(24, desk, lambda: desk.measures(2))

    def test_compare(self) -> None:
        more_survivors, fewer_defaults = [(10, 2), (10, 1), (21, 4)], [(10, 2), (10, 1), (20, 3), (1, 0)]
        for number, one, other in ((22, NO_DEFAULTS, None), (22, NO_SURVIVORS, None), (22, None, None), (23, NO_DEFAULTS, NO_SURVIVORS),
                                   (23, MIXED, NO_DEFAULTS), (24, MIXED, NO_SURVIVORS), (25, MIXED, more_survivors),
                                   (25, MIXED, fewer_defaults)):
            for scales in ((one, other), (other, one)):
                desk = loaded(WatchedDesk(), *scales)
                self.refused(number, desk, desk.compare)


class Careless:
    """A library that does one thing wrong."""

    def __init__(self, real: object, name: str, wrong: Callable[..., int]):
        self._real, self._name, self._wrong = real, name, wrong

    def __getattr__(self, name: str) -> object:
        function = getattr(self._real, name)
        return (lambda *arguments: self._wrong(function, *arguments)) if name == self._name else function


def smudge(lent: object, at: int) -> None:
    """Changes a byte of what is lent, or beside it."""
    address = addressof(getattr(lent, '_obj', lent)) + at
    memset(address, 0x5a, 1)


class Watch(unittest.TestCase):
    """What a library could do wrong is seen."""

    def see(self, name: str, wrong: Callable[..., int], call: Callable[[WatchedDesk], object]) -> None:
        desk = loaded(WatchedDesk(), MIXED, MIXED)
        call(desk)
        desk._library = WatchedLibrary(Careless(desk._library._real, name, wrong), desk.memory)
        with self.assertRaises(Violated):
            call(desk)

    def test_writes_beside_the_memory(self) -> None:
        def beside(argument: int, at: int) -> Callable[..., int]:
            def wrong(function: Callable[..., int], *arguments: object) -> int:
                answer = function(*arguments)
                smudge(arguments[argument], at)
                return answer
            return wrong
        calls = {'pool': (1,), 'write': (), 'compare': (), 'compare_shares': (), 'brier': (2,), 'measures': (2,), 'spread': (1,),
                 'cheapest': (1, 1, 1)}
        calls.update({event: (1, 1) for event in EVENTS})
        for name, argument, at in (('pool', 2, 480), ('pool', 2, -1), ('pool', 0, IMAGE), ('pool', 0, -1), ('write', 1, 976), ('write', 3, 8),
                                   ('write', 3, -8), ('compare', 1, 20), ('compare_shares', 1, 20), ('brier', 2, 16), ('measures', 2, 88),
                                   ('spread', 2, -1), ('cheapest', 4, 16), *((event, 0, at) for event in EVENTS for at in (IMAGE, -1))):
            self.see(f'desk_{name}', beside(argument, at), lambda desk: getattr(desk, name)(*calls[name]))
        for argument, at in ((0, len(LISTED)), (0, -1), (0, 0), (2, 64), (2, -1), (4, 8), (4, -8)):  # also within the book, which is read
            self.see('desk_shortlist', beside(argument, at), lambda desk: desk.shortlist_into(LISTED, (c_uint32 * 16)()))

    def test_a_question_that_changes_the_desk(self) -> None:
        for at in (0, PLACE - 1, PLACE, IMAGE - 1):
            self.see('desk_spread', lambda function, image, *rest: smudge(image, at) or function(image, *rest), lambda desk: desk.spread(1))

    def test_a_change_in_the_other_place(self) -> None:
        def call(desk: WatchedDesk) -> None:
            desk.clear(1)
            desk.load(1, PAIR)
        for name in ('desk_clear', 'desk_load'):
            self.see(name, lambda function, image, *rest: smudge(image, PLACE) or function(image, *rest), call)
        for event in EVENTS:
            for place, at in ((1, PLACE), (1, IMAGE - 1), (2, 0), (2, PLACE - 1)):
                self.see(f'desk_{event}', lambda function, image, *rest: function(image, *rest) or smudge(image, at) or 0,
                         lambda desk: getattr(desk, event)(place, 1))

    def test_writes_at_a_refusal_or_into_a_book(self) -> None:
        def refused(call: Callable[[WatchedDesk], object]) -> Callable[[WatchedDesk], None]:
            def called(desk: WatchedDesk) -> None:
                try:
                    call(desk)
                except Refused:
                    pass
            return called

        def wrong(argument: int) -> Callable[..., int]:
            return lambda function, *arguments: smudge(arguments[argument], 3) or function(*arguments)
        for name, argument, call in (('desk_load', 2, lambda desk: desk.load(1, PAIR)), ('desk_load', 0, lambda desk: desk.load(1, PAIR)),
                                     ('desk_clear', 0, lambda desk: desk.clear(3)), ('desk_pool', 2, lambda desk: desk.pool(3)),
                                     ('desk_cheapest', 4, lambda desk: desk.cheapest(3, 1, 1)),
                                     ('desk_measures', 2, lambda desk: desk.measures(3)),
                                     ('desk_write', 1, lambda desk: desk.write_into((c_ubyte * 9)())),
                                     ('desk_shortlist', 2, lambda desk: desk.shortlist_into(LISTED, (c_uint32 * 1)())),
                                     ('desk_shortlist', 4, lambda desk: desk.shortlist_into(b'', (c_uint32 * 1)()))):
            self.see(name, wrong(argument), refused(call))
        for event in EVENTS:
            self.see(f'desk_{event}', wrong(0), refused(lambda desk: getattr(desk, event)(1, 4)))


if __name__ == '__main__':
    unittest.main()
