"""Grade tables: whole-number columns whose first one says by name whether it counts obligors or survivors."""
from __future__ import annotations

from collections.abc import Mapping, Set
from decimal import Decimal
from fractions import Fraction
from numbers import Real
from typing import Iterable, Iterator, NamedTuple, Sequence, Tuple
import operator

from .refusals import Refused

MAX_GRADES = 40
MAX_OBLIGORS = 1_000_000
MAX_OBLIGORS_ON_SHARES = 100_000  # of a table that is compared on shares
MAX_ANNOUNCED = 1_000_000  # ppm
COUNTS = ('obligors', 'survivors')  # what a first column may count; the index is its kind in a book
NO_COLUMN = (str, bytes, bytearray, Set, Mapping)  # text, and what has no order of its own
READABLE = 10 ** 30

Row = Tuple[int, int, int]  # first column, defaults, announced rate in ppm


class Grade(NamedTuple):
    """One grade: n obligors, of whom d defaulted, and the announced default rate in ppm (millionths). It is empty where n is 0."""
    obligors: int
    defaults: int
    announced: int

    @property
    def survivors(self) -> int:
        """s = n - d."""
        return self.obligors - self.defaults

    @property
    def rate(self) -> Fraction | None:
        """The observed default rate, d / n; None of an empty grade, which has none."""
        return Fraction(self.defaults, self.obligors) if self.obligors else None


class Fault(NamedTuple):
    """What load would refuse in the rows of a table: the number, the grade and column (0 to 2) where it stands, and why."""
    number: int
    grade: int | None  # counted from 0; None where it is the table as a whole
    column: int
    why: str


def obligors_of(counts: str, first: int, defaults: int) -> int:
    """n of a grade. The one place where survivors become obligors."""
    return first + defaults if counts == 'survivors' else first


def faults(counts: str, rows: Sequence[Row]) -> Iterator[Fault]:
    """Everything that load would refuse in these rows. The first is what it does refuse: 6, then row by row 8, 10, 34, then 9, 11."""
    if not rows:
        yield Fault(6, None, 0, f'no grade; a table has 1 to {MAX_GRADES}')
    if len(rows) > MAX_GRADES:
        yield Fault(6, MAX_GRADES, 0, f'one grade too many; a table has 1 to {MAX_GRADES}')
    falls, total, above = falls_in(rows), 0, None
    for grade, (first, defaults, announced) in enumerate(rows):
        obligors = obligors_of(counts, first, defaults)
        if defaults > obligors:
            yield Fault(8, grade, 1, f'{readable(defaults)} defaults are above {readable(obligors)} obligors. Does the first column leave '
                                     'the defaulted out? Then it counts survivors')
        if announced > MAX_ANNOUNCED:
            yield Fault(10, grade, 2, f'the announced rate {readable(announced)} is above {MAX_ANNOUNCED} ppm')
        if grade in falls:
            yield Fault(34, grade, 2, falls[grade])
        total += obligors
        if total > MAX_OBLIGORS and above is None:
            above = Fault(11, grade, 0, f'the table has {readable(total)} obligors up to here, more than {MAX_OBLIGORS}')
    if rows and not any(first or defaults for first, defaults, _ in rows):
        yield Fault(9, None, 0, 'nobody is in any grade; at least one has to have an obligor')
    if above:
        yield above


def falls_in(rows: Sequence[Row]) -> dict[int, str]:
    """The grades, counted from 0, that announce less than the one before, and why they are refused. A rate that is refused itself, with
    10, makes no fall of the next: once it is mended there may be none."""
    rates = [announced for _, _, announced in rows]
    grades = [grade for grade in range(1, len(rates)) if rates[grade] < rates[grade - 1] <= MAX_ANNOUNCED]
    found = {grade: f'the announced rate {rates[grade]} ppm is below {rates[grade - 1]} ppm, that of grade {grade} before it'
             for grade in grades}
    if len(grades) > 1 and rates == sorted(rates, reverse=True):
        found[grades[0]] += '. No rate rises: is the first row the best grade?'
    if len(rates) - 1 in found and ends_in_total(rows):
        found[len(rates) - 1] += f'. Grade {len(rates)} has as many obligors and defaults as all others together: is it a total?'
    return found


def ends_in_total(rows: Sequence[Row]) -> bool:
    """Whether the last row has the counts of all others together, at least two of which are occupied: it may be a sheet's line of totals."""
    *others, last = rows
    occupied = [row for row in others if row[0] or row[1]]
    return len(occupied) > 1 and all(last[column] == sum(row[column] for row in others) for column in (0, 1))


def readable(number: int) -> str:
    """A number in decimal, unless nobody could read it; Python refuses to print very long ones."""
    return str(number) if abs(number) < READABLE else 'over 10^30' if number > 0 else 'under -10^30'


def exact(value: object) -> int | None:
    """The int of the same value; None for what has a fraction or is no number."""
    if isinstance(value, bool):
        return None
    try:
        return int(operator.index(value))
    except TypeError:
        pass
    if not isinstance(value, (Real, Decimal)):
        return None
    try:
        number = int(value)
    except (ValueError, OverflowError):  # NaN and the infinities
        return None
    return number if number == value else None


def whole(value: object, where: str) -> int:
    """A count or a rate as an int: any whole number of Python or of a data frame, also a float without a fraction."""
    number = exact(value)
    if number is None:
        raise TypeError(f'{where}: {value!r} is not a whole number')
    if number < 0:
        raise ValueError(f'{where}: {readable(number)} is negative')
    return number


def column(name: str, values: Iterable[object] | None) -> list[int]:
    if not (hasattr(values, '__iter__') or hasattr(values, '__getitem__')) or isinstance(values, NO_COLUMN):
        raise TypeError(f'{name} is a list of whole numbers, one for each grade, best first, not {type(values).__name__}')
    return [whole(value, f'{name}, grade {grade}') for grade, value in enumerate(values, 1)]


class Table:
    """The grade table of one rater, best grade first. A table that load would refuse cannot be made: it raises Refused.

    Exactly one of `obligors` (everybody in the grade, the defaulted included) and `survivors` (the defaulted left out) is given. Survivors
    taken for obligors change every rate and can make the losing scale win, while every figure still looks right. Grades may be empty, with
    0 in both columns, as long as one is not. Announced rates never fall from a grade to the next, empty ones included: two that are swapped
    would change the Brier score, and it would still look right.

    >>> Table(obligors=[10, 20], defaults=[1, 4], announced=[100_000, 200_000], name='in-house')
    Table 'in-house': 2 grades, 30 obligors = 25 survivors + 5 defaults
    >>> Table(survivors=[9, 16], defaults=[1, 4], announced=[100_000, 200_000]).grades[1]
    Grade(obligors=20, defaults=4, announced=200000)
    """

    def __init__(self, *, obligors: Iterable[object] | None = None, survivors: Iterable[object] | None = None,
                 defaults: Iterable[object], announced: Iterable[object], name: str | None = None):
        if (obligors is None) == (survivors is None):
            raise TypeError('give either obligors (the defaulted included) or survivors (the defaulted left out), and not both')
        counts = COUNTS[obligors is None]
        columns = [column(counts, survivors if obligors is None else obligors), column('defaults', defaults),
                   column('announced', announced)]
        if len(set(map(len, columns))) > 1:
            lengths = ', '.join(str(len(each)) for each in columns)
            raise ValueError(f'{counts}, defaults and announced have {lengths} entries; expected one for each grade in all three')
        self._take(counts, list(zip(*columns)), name)

    @classmethod
    def of_rows(cls, counts: str, rows: Iterable[Row], name: str | None = None) -> Table:
        """The table of these rows: first column, which counts 'obligors' or 'survivors', defaults, announced rate."""
        if counts not in COUNTS:
            raise ValueError(f"the first column counts 'obligors' or 'survivors', not {counts!r}")
        listed = [tuple(row) for row in rows]
        for grade, row in enumerate(listed, 1):
            if len(row) != 3:
                raise ValueError(f'grade {grade} has {len(row)} numbers; expected 3: {counts}, defaults, announced')
        first, defaults, announced = zip(*listed) if listed else ((), (), ())
        return cls(**{counts: first}, defaults=defaults, announced=announced, name=name)

    def _take(self, counts: str, rows: list[Row], name: str | None) -> None:
        for fault in faults(counts, rows):
            place = '' if fault.grade is None else f'grade {fault.grade + 1}: '
            raise Refused(fault.number, place + fault.why)
        self.name = name
        self.counts = counts  # what the first column counted where the table was made
        self.rows = tuple(rows)
        self.grades = tuple(Grade(obligors_of(counts, first, defaults), defaults, announced) for first, defaults, announced in rows)

    @property
    def obligors(self) -> int:
        """N."""
        return sum(grade.obligors for grade in self.grades)

    @property
    def defaults(self) -> int:
        """D."""
        return sum(grade.defaults for grade in self.grades)

    @property
    def survivors(self) -> int:
        """S."""
        return self.obligors - self.defaults

    @property
    def repeats(self) -> tuple[int | None, ...]:
        """For each grade, if it is empty, the grade (counted from 1) whose numbers pool repeats for it: the next better occupied one, or
        the best occupied one if none is better. None for an occupied grade.

        >>> Table(obligors=[0, 10, 0, 20], defaults=[0, 1, 0, 4], announced=[0, 100_000, 100_000, 200_000]).repeats
        (2, None, 2, None)
        """
        occupied = [number for number, grade in enumerate(self.grades, 1) if grade.obligors]
        return tuple(None if number in occupied else max((each for each in occupied if each < number), default=occupied[0])
                     for number in range(1, len(self.grades) + 1))

    def __eq__(self, other: object) -> bool:
        """By the grades: neither the name nor how the obligors were counted makes another table."""
        return self.grades == other.grades if isinstance(other, Table) else NotImplemented

    def __hash__(self) -> int:
        return hash(self.grades)

    def __repr__(self) -> str:
        named = '' if self.name is None else f' {self.name!r}'
        return (f'Table{named}: {len(self.grades)} {"grade" if len(self.grades) == 1 else "grades"}, '
                f'{self.obligors} obligors = {self.survivors} survivors + {self.defaults} defaults')
