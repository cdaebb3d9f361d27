"""What cutoffs cost in the two comparisons: by counts, of scales over the same obligors, and on shares, of scales of any two books.

A cutoff that misses m defaults and turns x survivors away costs um + vx by counts. On shares it costs um/D + vx/S, D and S being the
totals of its own table. Times DS that is uSm + vDx, its cost by counts at the prices uS and vD: so the cutoff that is cheapest there by
counts is the cheapest on shares, and a block that breaks even by counts at the price ratio u:v does on shares at uD:vS.
"""
from __future__ import annotations

from fractions import Fraction
from typing import NamedTuple

from .answers import Cutoff, Price, Verdict, WrittenFraction
from .desk import Desk, unsigned
from .refusals import Refused

MAX_PRICE = 1_000_000  # the highest that the library finds a cheapest cutoff at
LOWEST, HIGHEST = Price(0, 1), Price(1, 0)  # a missed default costs nothing; a survivor turned away costs nothing


def standing(price: Price) -> Fraction:
    """Where a price ratio stands among all: at 0 the lowest, at 1 the highest."""
    return Fraction(price.u, price.u + price.v)


class CountCosts:
    """The costs of the scale in a place by counts: u for each default that a cutoff misses, v for each survivor that it turns away."""

    def __init__(self, desk: Desk, place: int):
        self.desk, self.place = desk, place

    def break_even(self) -> set[Price]:
        """The price ratios at which a block of the pooled scale costs the same turned away and accepted: its survivors to its defaults.
        Whether a block is repeated for an empty grade makes no difference."""
        return {Price(block.obligors - block.defaults, block.defaults).reduced() for block in self.desk.pool(self.place)}

    def cheapest(self, u: int, v: int) -> Cutoff:
        """The cheapest cutoff, of equals the smallest. Refuses 12."""
        return self.desk.cheapest(self.place, u, v)


class ShareCosts:
    """The costs on shares of the scale that a place holds: u times the share of its table's own defaults that a cutoff misses, plus v times
    the share of its own survivors that it turns away. Refuses 1, 22, 23, 24. Later changes of the place do not change them.

    >>> from desk import Desk, ShareCosts, Table
    >>> desk = Desk()
    >>> desk.load(1, Table(obligors=[6, 2], defaults=[1, 1], announced=[100_000, 500_000]))
    >>> print(ShareCosts(desk, 1).cheapest(u=3, v=2).cost)  # of the defaults 1 in 2 is missed, of the survivors 1 in 6 turned away
    1.833333 (22/12)
    """

    def __init__(self, desk: Desk, place: int):
        table = desk.table(place)
        number = 22 if table is None else 23 if not table.defaults else 24 if not table.survivors else None
        if number:
            raise Refused(number)
        self.table, self.by_counts = table, CountCosts(desk.copy(), place)
        self.defaults, self.survivors = table.defaults, table.survivors
        self.ends = sorted(self.by_counts.break_even() | {HIGHEST}, key=standing)

    def break_even(self) -> set[Price]:
        """The price ratios at which a block costs the same turned away and accepted."""
        return {Price(u * self.defaults, v * self.survivors).reduced() for u, v in self.by_counts.break_even()}

    def cheapest(self, u: int, v: int) -> Cutoff:
        """The cheapest cutoff, of equals the smallest, at prices of any size: the library's own. The cost is exact, over DS."""
        u, v = unsigned(u, 'the price u') * self.survivors, unsigned(v, 'the price v') * self.defaults
        cutoff = self.by_counts.cheapest(*self._within_limit(Price(u, v).reduced())).cutoff
        away = self.table.grades[len(self.table.grades) - cutoff:]
        missed = self.defaults - sum(grade.defaults for grade in away)
        return Cutoff(cutoff, WrittenFraction(u * missed + v * sum(grade.survivors for grade in away), self.defaults * self.survivors))

    def _within_limit(self, price: Price) -> Price:
        """Prices that the library takes, at which the same cutoff is cheapest by counts: these, where they are within its limit. Else they
        are no break-even ratio, since no block has more survivors or defaults than the limit, and it is the next higher one: the cutoff
        stays the cheapest up to there, and of those that cost the same there it is the smallest."""
        return price if max(price) <= MAX_PRICE else next(end for end in self.ends if standing(end) > standing(price))


class Comparison(NamedTuple):
    """The verdict on the scales in the two places, and their costs as it takes them."""
    verdict: Verdict
    first: CountCosts | ShareCosts
    second: CountCosts | ShareCosts


def compared(desk: Desk, shares: bool) -> Comparison:
    """The comparison by counts, or on shares. Refuses as compare does, on shares as compare_shares."""
    verdict, costs = (desk.compare_shares(), ShareCosts) if shares else (desk.compare(), CountCosts)
    return Comparison(verdict, costs(desk, 1), costs(desk, 2))
