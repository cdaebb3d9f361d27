"""A desk: two places, each empty or holding a rater's grade table, and every call on them."""
from __future__ import annotations

from ctypes import Array, Structure, byref, c_size_t, c_ubyte, c_uint32, pointer
import operator

from . import library
from .answers import Cutoff, Kind, Measures, PooledGrade, Price, Spread, Verdict, WrittenFraction
from .book import as_bytes, encode, load_refusals, located
from .events import event_refusal
from .refusals import Refused
from .table import Table

LARGEST = 2 ** 32 - 1


def index(value: int, what: str) -> int:
    try:
        return operator.index(value)
    except TypeError:
        raise TypeError(f'{what} is a whole number, not {value!r}') from None


def number(value: int, what: str) -> int:
    """A whole number as 4 bytes carry it. Another one becomes the largest, which every call refuses as it would that one."""
    whole = index(value, what)
    return whole if 0 <= whole <= LARGEST else LARGEST


def unsigned(value: int, what: str) -> int:
    whole = index(value, what)
    if whole < 0:
        raise ValueError(f'{what} is 0 or more, not {value}')
    return whole


def price(value: int, what: str) -> int:
    return number(unsigned(value, what), what)


def check_lent(memory: Array, item: type, example: str) -> None:
    """Whether it is a ctypes array of these items: the library takes its length in them, and writes there."""
    if not isinstance(memory, Array) or memory._type_ is not item:
        raise TypeError(f'lend a ctypes array such as {example}, not {type(memory).__name__}')


def accept(refusal: int) -> None:
    if refusal:
        raise Refused(refusal)


class Desk:
    """Two places, 1 and 2, both empty at first. A refused call raises Refused and leaves the desk and every buffer as they were.

    Desks share nothing, so each thread may have its own.

    >>> desk = Desk()
    >>> desk.load(1, Table(obligors=[2, 2, 2], defaults=[0, 1, 2], announced=[0, 500_000, 1_000_000]))
    >>> desk.load(2, Table(survivors=[2, 1], defaults=[1, 2], announced=[333_333, 666_667]))
    >>> verdict = desk.compare()
    >>> verdict.kind.name, desk.measures(1).gini
    ('FIRST', WrittenFraction(8, 9))
    >>> desk.cheapest(1, u=3, v=1)
    Cutoff(cutoff=2, cost=1)
    """

    def __init__(self, path: str | None = None):
        """`path` names the shared library; left out, it is looked for (see desk.library.default_path)."""
        self._library = library.load(path or library.default_path())
        self._image = library.DeskImage()
        accept(self._library.desk_empty(byref(self._image)))

    # Changes

    def load(self, place: int, source: Table | bytes, rater: int = 1) -> None:
        """Fills an empty place with a table, or with the table of a rater, counted from 1, of a book's bytes.

        Refuses 1, 21, 2, 3, 4; table by table 31, 32, 6, 7, 32; 33; of the rater's rows, one by one, 8, 10, 34; 9, 11. From 31 on and from
        6 to 11 `where` of what is raised says the byte, and whose table it is."""
        book = encode([(source.counts, source.rows)]) if isinstance(source, Table) else as_bytes(source)
        copied = (c_ubyte * len(book)).from_buffer_copy(book)
        refusal = self._library.desk_load(byref(self._image), number(place, 'a place'), copied, len(book), number(rater, 'a rater'))
        if refusal:
            raise located(refusal, load_refusals(book, index(rater, 'a rater')))

    def clear(self, place: int) -> None:
        """Empties a loaded place. Refuses 1, 22."""
        accept(self._library.desk_clear(byref(self._image), number(place, 'a place')))

    # Events, which book one firm at a grade, counted from 1. For every call the table is then the one with these counts of the grade; its
    # announced rates and other grades stay. Of 36 to 38 `where` of what is raised says what the grade or the table has.

    def survivor_enters(self, place: int, grade: int) -> None:
        """Books a survivor that enters a grade, counted from 1, which may be empty: one obligor more. Refuses 1, 22, 36, 38.

        >>> desk = Desk()
        >>> desk.load(1, Table(obligors=[2, 2], defaults=[0, 1], announced=[0, 500_000]))
        >>> desk.survivor_enters(1, 2)
        >>> print(desk.table(1), desk.pool(1)[1], sep='; ')
        Table: 2 grades, 5 obligors = 4 survivors + 1 defaults; 0.333333 (1/3), band 12
        """
        self._booked('survivor_enters', place, grade)

    def survivor_leaves(self, place: int, grade: int) -> None:
        """Books a survivor that leaves a grade: one obligor fewer. Refuses 1, 22, 36, 37: the last obligor of a table stays.

        >>> desk = Desk()
        >>> desk.load(1, Table(obligors=[2, 2], defaults=[0, 1], announced=[0, 500_000]))
        >>> desk.survivor_leaves(1, 2)
        >>> print(desk.table(1), desk.pool(1)[1], sep='; ')
        Table: 2 grades, 3 obligors = 2 survivors + 1 defaults; 1.000000 (1/1), band 14
        >>> try:
        ...     desk.survivor_leaves(1, 2)
        ... except Refused as refused:
        ...     print(refused.number, refused.where)
        37 grade 2 has no survivor: 1 obligors, 1 defaults
        """
        self._booked('survivor_leaves', place, grade)

    def survivor_defaults(self, place: int, grade: int) -> None:
        """Books a survivor of a grade that defaults: one default more, and as many obligors. Refuses 1, 22, 36, 37.

        >>> desk = Desk()
        >>> desk.load(1, Table(obligors=[2, 2], defaults=[0, 1], announced=[0, 500_000]))
        >>> desk.survivor_defaults(1, 1)
        >>> print(desk.table(1), desk.pool(1)[0], sep='; ')
        Table: 2 grades, 4 obligors = 2 survivors + 2 defaults; 0.500000 (2/4), band 13
        """
        self._booked('survivor_defaults', place, grade)

    def defaulted_removed(self, place: int, grade: int) -> None:
        """Books a defaulted firm that is removed from a grade: one obligor and one default fewer. Refuses 1, 22, 36, 37: the last obligor of a
        table stays.

        >>> desk = Desk()
        >>> desk.load(1, Table(obligors=[2, 2], defaults=[0, 1], announced=[0, 500_000]))
        >>> desk.defaulted_removed(1, 2)
        >>> print(desk.table(1), desk.pool(1)[1], sep='; ')
        Table: 2 grades, 3 obligors = 3 survivors + 0 defaults; 0.000000 (0/3), band 0
        """
        self._booked('defaulted_removed', place, grade)

    # Questions

    def compare(self) -> Verdict:
        """Which scale is at least as good: its cheapest cutoff costs no more, whatever the prices. Refuses 22, 23, 24, 25: where D or S
        differ, compare_shares compares."""
        return self._verdict('desk_compare')

    def compare_shares(self) -> Verdict:
        """The same on shares, of scales of any two books: a cutoff costs u times the share of its table's own defaults that it misses, plus v
        times the share of its own survivors that it turns away. The prices that the verdict carries are at most 2,500,000,000. Where D and
        S are the same in both places, the verdict is of the kind that compare gives. Refuses 22, 23, 24, 35.

        >>> desk = Desk()
        >>> desk.load(1, Table(obligors=[4, 2], defaults=[1, 1], announced=[250_000, 500_000]))
        >>> desk.load(2, Table(obligors=[40, 60], defaults=[10, 40], announced=[250_000, 666_667]))
        >>> print(desk.compare_shares().sentence('a book of 6', 'one of 100'))
        one of 100 is better than a book of 6: it costs more at no prices, and less at some.
        """
        return self._verdict('desk_compare_shares')

    def cheapest(self, place: int, u: int, v: int) -> Cutoff:
        """The cheapest cutoff, of equals the smallest, where a missed default costs u and a survivor turned away v. Refuses 1, 22, 12."""
        prices = price(u, 'the price u'), price(v, 'the price v')
        answer = self._asked('desk_cheapest', place, *prices, library.DeskCutoff())
        return Cutoff(answer.cutoff, answer.cost)

    def measures(self, place: int) -> Measures:
        """D, S, Gini, the areas under the ROC and CAP curves, Pietra and its cutoff. Refuses 1, 22, 23, 24."""
        answer = self._asked('desk_measures', place, library.DeskMeasures())
        curves = [written(each) for each in (answer.gini, answer.roc, answer.cap, answer.pietra)]
        return Measures(answer.defaults, answer.survivors, *curves, answer.cutoff)

    def brier(self, place: int) -> WrittenFraction:
        """The Brier score of the announced rates: their mean squared difference from the outcomes. Refuses 1, 22."""
        return written(self._asked('desk_brier', place, library.DeskFraction()))

    def spread(self, place: int) -> Spread:
        """DS/N, and the sum of the like over the blocks. Refuses 1, 22."""
        answer = self._asked('desk_spread', place, library.DeskSpread())
        return Spread(answer.total, answer.residual)

    def pool(self, place: int) -> list[PooledGrade]:
        """For each grade, best first, the block that pooling puts it into. An empty grade belongs to none: its numbers are those of another
        grade, repeated, and `repeats` of its table says of which. Refuses 1, 22.

        >>> desk = Desk()
        >>> desk.load(1, Table(obligors=[0, 10, 20], defaults=[0, 1, 4], announced=[0, 100_000, 200_000]))
        >>> print(desk.pool(1)[0], desk.table(1).repeats, sep='; ')
        0.100000 (1/10), band 10; (2, None, None)
        """
        numbers = (c_uint32 * library.POOL_NUMBERS)()
        self.pool_into(place, numbers)
        return [PooledGrade(*numbers[3 * grade:3 * grade + 3]) for grade in range(self._place(place).grades)]

    def write(self) -> bytes:
        """The loaded tables, place 1 before place 2, as a book of obligors. Refuses 22."""
        book = (c_ubyte * library.BOOK_BYTES)()
        return bytes(book[:self.write_into(book)])

    # Into lent memory

    def pool_into(self, place: int, numbers: Array[c_uint32]) -> None:
        """Pools into a ctypes array: three numbers a grade, block defaults, block obligors, band. Keeps further ones. Refuses 1, 22, 13."""
        check_lent(numbers, c_uint32, '(c_uint32 * 120)()')
        accept(self._library.desk_pool(byref(self._image), number(place, 'a place'), numbers, len(numbers)))

    def write_into(self, book: Array[c_ubyte]) -> int:
        """Writes the book into a ctypes array and returns its length. Keeps further bytes. Refuses 22, 13."""
        check_lent(book, c_ubyte, '(c_ubyte * 976)()')
        length = c_size_t()
        accept(self._library.desk_write(byref(self._image), book, len(book), byref(length)))
        return length.value

    # What the places hold

    def table(self, place: int) -> Table | None:
        """The table in a place as it stands, made by its load and the events since, by obligors; None where it is empty. Refuses 1."""
        held = self._place(place)
        if not held.loaded:
            return None
        grades = held.grades
        return Table(obligors=held.obligors[:grades], defaults=held.defaults[:grades], announced=held.announced[:grades])

    def copy(self) -> Desk:
        """Another desk that holds the same."""
        other = type(self)(self._library._name)
        pointer(other._image)[0] = self._image
        return other

    __copy__ = copy

    def __deepcopy__(self, memo: dict) -> Desk:
        return self.copy()

    def __repr__(self) -> str:
        return f'Desk(place 1: {self.table(1) or "empty"}; place 2: {self.table(2) or "empty"})'

    def _place(self, place: int) -> library.DeskPlace:
        place = number(place, 'a place')
        if place not in (1, 2):
            raise Refused(1)
        return self._image.first if place == 1 else self._image.second

    def _booked(self, event: str, place: int, grade: int) -> None:
        """An event at a grade, which the library books or refuses."""
        book = getattr(self._library, f'desk_{event}')
        refusal = book(byref(self._image), number(place, 'a place'), number(grade, 'a grade'))
        if refusal >= 36:  # the place is loaded: its table can be told of
            raise event_refusal(refusal, event, self.table(place), index(grade, 'a grade'))
        accept(refusal)

    def _verdict(self, function: str) -> Verdict:
        """What one of the two comparisons answers."""
        answer = library.DeskVerdict()
        accept(getattr(self._library, function)(byref(self._image), byref(answer)))
        kind = Kind(answer.kind)
        first, second = (Price(pair.u, pair.v) for pair in (answer.first_dearer, answer.second_dearer))
        return Verdict(kind, first if kind in (Kind.SECOND, Kind.CROSSING) else None,
                       second if kind in (Kind.FIRST, Kind.CROSSING) else None)

    def _asked(self, function: str, place: int, *arguments) -> Structure:
        """What a function writes of a place into its last argument."""
        *prices, answer = arguments
        accept(getattr(self._library, function)(byref(self._image), number(place, 'a place'), *prices, byref(answer)))
        return answer


def written(fraction: library.DeskFraction) -> WrittenFraction:
    return WrittenFraction(fraction.numerator, fraction.denominator)
