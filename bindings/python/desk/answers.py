"""What a desk answers. Fractions are exact, and remember how the documents write them: not reduced."""
from __future__ import annotations

from enum import Enum
from fractions import Fraction
from math import gcd
from typing import NamedTuple


class WrittenFraction(Fraction):
    """A fraction by its value, with the numerator and denominator as the documents write them.

    >>> gini = WrittenFraction(2050, 2500)
    >>> gini, gini.written, gini == Fraction(41, 50)
    (WrittenFraction(2050, 2500), (2050, 2500), True)
    >>> print(gini)
    0.820000 (2050/2500)
    """
    __slots__ = ('written',)
    written: tuple[int, int]

    def __new__(cls, numerator: int, denominator: int) -> WrittenFraction:
        made = super().__new__(cls, numerator, denominator)
        made.written = (numerator, denominator)
        return made

    def __repr__(self) -> str:
        return f'WrittenFraction({self.written[0]}, {self.written[1]})'

    def __str__(self) -> str:
        return f'{decimal(self, 6)} ({self.written[0]}/{self.written[1]})'

    def __format__(self, spec: str) -> str:
        """As `str` where nothing is specified, else as a float: from Python 3.12 on a Fraction would print itself reduced."""
        return format(float(self), spec) if spec else str(self)

    def __reduce__(self):
        return WrittenFraction, self.written

    def __copy__(self) -> WrittenFraction:
        return self

    def __deepcopy__(self, memo: dict) -> WrittenFraction:
        return self


def decimal(value: Fraction, places: int) -> str:
    """A fraction to so many places: the nearest decimal, ties away from zero, and no sign where it is 0.

    >>> decimal(Fraction(-1, 8), 2), decimal(Fraction(-1, 1000), 2)
    ('-0.13', '0.00')
    """
    unit = 10 ** places
    units = (2 * abs(value.numerator) * unit + value.denominator) // (2 * value.denominator)
    return f'{"-" if value < 0 and units else ""}{units // unit}.{units % unit:0{places}}'


class Price(NamedTuple):
    """Prices of a missed default (u) and of a survivor turned away (v); on shares, of missing all defaults and of turning away all survivors."""
    u: int
    v: int

    def reduced(self) -> Price:
        """The same price ratio in the smallest whole numbers: every cutoff costs the same share of what it did."""
        divisor = gcd(self.u, self.v) or 1
        return Price(self.u // divisor, self.v // divisor)

    def __str__(self) -> str:
        return f'{self.u}:{self.v}'


class Cutoff(NamedTuple):
    """A cutoff, which turns away so many of the worst grades, and what it costs."""
    cutoff: int
    cost: int | WrittenFraction  # a fraction on shares


class Measures(NamedTuple):
    """How well a scale tells defaulted from surviving obligors."""
    defaults: int  # D
    survivors: int  # S
    gini: WrittenFraction  # the accuracy ratio: negative for a scale that is upside down
    roc: WrittenFraction  # the area under the ROC curve
    cap: WrittenFraction  # the area under the CAP curve
    pietra: WrittenFraction  # the ROC curve's height above the diagonal where it is farthest from it: negative where that is below
    cutoff: int  # the smallest at which it is so far, on either side: it decides the sign

    def __str__(self) -> str:
        return (f'Gini {self.gini}, ROC area {self.roc}, CAP area {self.cap}, Pietra {self.pietra} at cutoff {self.cutoff}; '
                f'{self.defaults} defaults, {self.survivors} survivors')


class PooledGrade(NamedTuple):
    """The block of neighbouring grades that pooling puts a grade into; of an empty grade, the block that is repeated for it."""
    defaults: int  # of the block
    obligors: int  # of the block
    band: int  # the smallest b from 0 to 13 with a rate of at most 100 times 2^b ppm; 14 if none

    @property
    def rate(self) -> WrittenFraction:
        """The pooled default rate of the grade, which is the rate of the block."""
        return WrittenFraction(self.defaults, self.obligors)

    def __str__(self) -> str:
        return f'{self.rate}, band {self.band}'


class Spread(NamedTuple):
    """How far the outcomes spread around their rates, summed over obligors: in all, DS/N, and within the blocks."""
    total: float  # within 1/2^36
    residual: float  # within 1/2^29


class Kind(Enum):
    """Which scale is at least as good: costs no more at its cheapest cutoff, at any prices."""
    EQUAL = 0  # both are
    FIRST = 1  # the first alone
    SECOND = 2  # the second alone
    CROSSING = 3  # neither is


class Verdict(NamedTuple):
    """The verdict on two scales, with prices that show it."""
    kind: Kind
    first_dearer: Price | None  # prices at which the first costs more, where there are any
    second_dearer: Price | None  # prices at which the second costs more

    @property
    def first_at_least_as_good(self) -> bool:
        return self.first_dearer is None

    @property
    def second_at_least_as_good(self) -> bool:
        return self.second_dearer is None

    def sentence(self, first: str = 'the first', second: str = 'the second') -> str:
        """The verdict in words."""
        better, worse = (first, second) if self.first_at_least_as_good else (second, first)
        if self.kind is Kind.EQUAL:
            return f'{first} and {second} are equal: both cost the same at all prices.'
        if self.kind is Kind.CROSSING:
            return f'{first} and {second} cross: neither is better, each costs less than the other at some prices.'
        return f'{better} is better than {worse}: it costs more at no prices, and less at some.'

    def __str__(self) -> str:
        shown = [f'At {price.reduced()} {name} costs more.' for name, price in
                 (('the first', self.first_dearer), ('the second', self.second_dearer)) if price]
        return ' '.join([self.sentence()] + shown)
