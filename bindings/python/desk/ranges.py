"""At which prices each of two scales is cheaper, by counts or on shares.

Only the ratio u:v of the prices matters. Each scale keeps its cheapest cutoff between two neighbouring break-even ratios, those at which
one of its blocks costs the same turned away and accepted. So between neighbouring ones of both scales the difference of their cheapest
costs is linear, and the costs of the library's own cheapest cutoffs at these ratios give it everywhere; it is asked again where they are
found to be equal.
"""
from __future__ import annotations

from fractions import Fraction
from typing import Iterator, NamedTuple

from .answers import Price
from .costs import HIGHEST, LOWEST, Comparison, compared, standing
from .desk import Desk

FIRST, SECOND, BOTH = 'first', 'second', 'both'


class PriceRange(NamedTuple):
    """Price ratios u:v, from one to another in reduced whole numbers, at which one scale is cheaper or both cost the same."""
    start: Price
    end: Price
    includes_start: bool
    includes_end: bool
    cheaper: str  # FIRST, SECOND or BOTH

    def holds(self, price: Price) -> bool:
        """Whether these prices, not both 0, lie in the range."""
        after, before = _turn(self.start, price), _turn(price, self.end)
        return (after > 0 or self.includes_start and after == 0) and (before > 0 or self.includes_end and before == 0)

    def __str__(self) -> str:
        """As an interval: a square bracket includes its end, a round one does not."""
        return f'{"[" if self.includes_start else "("}{self.start}, {self.end}{"]" if self.includes_end else ")"} {self.cheaper}'


def price_ranges(desk: Desk, shares: bool = False) -> list[PriceRange]:
    """The ranges of all price ratios, the lowest first, for the tables in the two places. Refuses as compare does, on shares as
    compare_shares."""
    comparison = compared(desk, shares)
    verdict, ranges = comparison.verdict, list(_joined(_pieces(comparison)))
    found = {each.cheaper for each in ranges}
    if (FIRST in found, SECOND in found) != (verdict.second_dearer is not None, verdict.first_dearer is not None):
        raise AssertionError(f'the price ranges {ranges} do not show the verdict {verdict}')
    return ranges


def _turn(a: Price, b: Price) -> int:
    """Above 0 where the ratio b is higher than a, 0 where they are the same."""
    return b.u * a.v - a.u * b.v


def _difference(comparison: Comparison, price: Price) -> int | Fraction:
    """What the first costs more than the second."""
    return comparison.first.cheapest(*price).cost - comparison.second.cheapest(*price).cost


def _crossing(comparison: Comparison, start: tuple[Price, int | Fraction], end: tuple[Price, int | Fraction]) -> Price:
    """The ratio between two others at which the difference, linear between them, passes 0."""
    (a, first), (b, second) = start, end
    ratio = Fraction(abs(second) * a.u + abs(first) * b.u) / (abs(second) * a.v + abs(first) * b.v)
    crossing = Price(ratio.numerator, ratio.denominator)
    if _difference(comparison, crossing):
        raise AssertionError(f'the scales do not cost the same at {crossing}')
    return crossing


def _sign(difference: int | Fraction) -> str:
    return FIRST if difference < 0 else SECOND if difference > 0 else BOTH


def _pieces(comparison: Comparison) -> Iterator[PriceRange]:
    """Single ratios and the open ranges between them, in turn, in none of which the difference changes its sign."""
    prices = sorted(comparison.first.break_even() | comparison.second.break_even() | {LOWEST, HIGHEST}, key=standing)
    points = [(price, _difference(comparison, price)) for price in prices]
    for start, end in zip(points, points[1:]):
        yield PriceRange(start[0], start[0], True, True, _sign(start[1]))
        if start[1] * end[1] < 0:
            crossing = _crossing(comparison, start, end)
            yield PriceRange(start[0], crossing, False, False, _sign(start[1]))
            yield PriceRange(crossing, crossing, True, True, BOTH)
            yield PriceRange(crossing, end[0], False, False, _sign(end[1]))
        else:
            yield PriceRange(start[0], end[0], False, False, _sign(start[1] or end[1]))
    yield PriceRange(HIGHEST, HIGHEST, True, True, _sign(points[-1][1]))


def _joined(pieces: Iterator[PriceRange]) -> Iterator[PriceRange]:
    """The same ranges with neighbours of one outcome put together."""
    last = next(pieces)
    for piece in pieces:
        if piece.cheaper == last.cheaper:
            last = last._replace(end=piece.end, includes_end=piece.includes_end)
        else:
            yield last
            last = piece
    yield last
