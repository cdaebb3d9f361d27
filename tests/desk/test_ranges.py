"""Tests desk.ranges: the price ranges of two scales, held to costs that are computed here by document 01's definition.

Small scales are tried at all prices up to 60. For all scales the ranges are found again, exactly: from the sign of the difference of the
cheapest costs at every ratio where cutoffs of both cost the same, and between neighbouring ones.

    python3 tests/desk/test_ranges.py     # from anywhere
"""
from __future__ import annotations

from collections import Counter
from fractions import Fraction
from math import gcd
from typing import Iterator, List, Tuple
import random
import sys
import unittest

sys.dont_write_bytecode = True
from common import Scale, loaded  # noqa: E402
from desk import Cutoff, Desk, Kind, Price, Refused, Verdict  # noqa: E402
from desk.costs import CountCosts  # noqa: E402
from desk.ranges import BOTH, FIRST, HIGHEST, LOWEST, SECOND, PriceRange, price_ranges  # noqa: E402

Cutoffs = List[Tuple[int, int]]  # defaults missed and survivors turned away by cutoffs 0, 1, ..
Totals = Tuple[int, int]  # D and S
MAX_PRICE = 1_000_000
PRICES = [Price(u, v) for u in range(61) for v in range(61) if u or v]
KINDS = {(False, False): Kind.EQUAL, (True, False): Kind.FIRST, (False, True): Kind.SECOND, (True, True): Kind.CROSSING}
G = [(2, 0), (2, 1), (2, 2)], [(3, 1), (3, 2)]
H = [(5, 2), (1, 1)], [(2, 0), (4, 3)]


# By definition

def cutoffs(scale: Scale) -> Cutoffs:
    return [(sum(d for _, d in scale[:accepted]), sum(n - d for n, d in scale[accepted:])) for accepted in range(len(scale), -1, -1)]


def on_shares(first: Scale, second: Scale) -> tuple[Cutoffs, Cutoffs]:
    """The same of two scales as shares of each one's own D and S; times the D and S of both, so that they are whole numbers."""
    (d1, s1), (d2, s2) = ((sum(d for _, d in scale), sum(n - d for n, d in scale)) for scale in (first, second))
    return ([(missed * s1 * d2 * s2, away * d1 * d2 * s2) for missed, away in cutoffs(first)],
            [(missed * s2 * d1 * s1, away * d2 * d1 * s1) for missed, away in cutoffs(second)])


def cheapest(found: Cutoffs, u: int, v: int) -> int:
    return min([u * missed + v * away for missed, away in found])


def outcome(first: Cutoffs, second: Cutoffs, u: int, v: int) -> str:
    a, b = cheapest(first, u, v), cheapest(second, u, v)
    return FIRST if a < b else SECOND if b < a else BOTH


def critical_shares(first: Cutoffs, second: Cutoffs) -> list[Fraction]:
    """The shares u / (u + v) at which a cutoff of each scale cost the same, with the lowest and the highest share, in order."""
    shares = {Fraction(0), Fraction(1)}
    for missed, away in first:
        for also_missed, also_away in second:
            u, v = also_away - away, missed - also_missed  # so that u * missed + v * away is the same for both
            if u * v > 0:
                shares.add(Fraction(u, u + v))
    return sorted(shares)


def outcomes(first: Cutoffs, second: Cutoffs) -> Iterator[tuple[Fraction, Fraction, str]]:
    """What is cheaper at each critical share, and between neighbouring ones."""
    def at(share: Fraction) -> str:
        return outcome(first, second, share.numerator, share.denominator - share.numerator)
    shares = critical_shares(first, second)
    for share, following in zip(shares, shares[1:]):
        yield share, share, at(share)
        yield share, following, at((share + following) / 2)
    yield Fraction(1), Fraction(1), at(Fraction(1))


def price_of(share: Fraction) -> Price:
    return Price(share.numerator, share.denominator - share.numerator)


def expected(first: Scale, second: Scale, shares: bool = False) -> list[PriceRange]:
    found: list[PriceRange] = []
    for start, end, cheaper in outcomes(*(on_shares(first, second) if shares else (cutoffs(first), cutoffs(second)))):
        closed = start == end
        if found and found[-1].cheaper == cheaper:
            found[-1] = found[-1]._replace(end=price_of(end), includes_end=closed)
        else:
            found.append(PriceRange(price_of(start), price_of(end), closed, closed, cheaper))
    return found


# Scales

def parts(source: random.Random, total: int, count: int) -> list[int]:
    """A number cut into so many parts of 0 or more."""
    cuts = sorted(source.randint(0, total) for _ in range(count - 1))
    return [b - a for a, b in zip([0] + cuts, cuts + [total])]


def any_scale(source: random.Random, totals: Totals, grades: int) -> Scale:
    """A scale of at most so many grades, more often than not in the order of its rates."""
    split = zip(parts(source, totals[0], grades), parts(source, totals[1], grades))
    found = [(d + s, d) for d, s in split if d + s]
    return found if source.random() < 0.3 else sorted(found, key=lambda grade: Fraction(grade[1], grade[0]))


def coarser(source: random.Random, fine: Scale) -> Scale:
    """The same scale with neighbouring grades joined."""
    found = fine[:1]
    for n, d in fine[1:]:
        if source.random() < 0.5:
            found[-1] = (found[-1][0] + n, found[-1][1] + d)
        else:
            found.append((n, d))
    return found


def with_pure_ends(source: random.Random, totals: Totals, grades: int) -> Scale:
    """A scale whose best grade has no default and whose worst one has no survivor."""
    defaults, survivors = (source.randint(1, total) for total in totals)
    middle = (totals[0] - defaults, totals[1] - survivors)
    return [(survivors, 0)] + (any_scale(source, middle, grades - 2) if any(middle) else []) + [(defaults, defaults)]


def moved(source: random.Random, scale: Scale) -> Scale:
    """The same scale after a survivor moved to another grade, where one can."""
    able = [grade for grade, (n, d) in enumerate(scale) if n - d > 0 and n > 1]
    found = list(scale)
    if able and len(scale) > 1:
        come, go = source.randrange(len(scale)), source.choice(able)
        found[go] = (found[go][0] - 1, found[go][1])
        found[come] = (found[come][0] + 1, found[come][1])
    return found


def pair(source: random.Random, totals: Totals, grades: int) -> tuple[Scale, Scale]:
    """Two scales over the same obligors, related in one of several ways."""
    first = any_scale(source, totals, source.randint(1, grades))
    way = source.randrange(14)
    second = (first[::-1] if way == 0 else [(sum(totals), totals[0])] if way == 1 else coarser(source, first) if way == 2 else
              list(first) if way == 3 else with_pure_ends(source, totals, grades) if way == 4 else moved(source, first) if way == 5 else
              any_scale(source, totals, source.randint(1, grades)))
    return (first, second) if source.random() < 0.5 else (second, first)


def features(scale: Scale) -> set[str]:
    """What is special about a scale. It has one block where no cutoff costs less than none at prices at which turning all away does not."""
    defaults, survivors = sum(d for _, d in scale), sum(n - d for n, d in scale)
    rates = [Fraction(d, n) for n, d in scale]
    special = {'one block': cheapest(cutoffs(scale), survivors, defaults) == survivors * defaults, 'upside down': rates[0] > rates[-1],
               'a block without defaults': rates[0] == 0, 'a block without survivors': rates[-1] == 1}
    return {name for name, holds in special.items() if holds}


class AskedDesk(Desk):
    """A desk that remembers the highest price that it was asked for."""
    highest = 0

    def cheapest(self, place: int, u: int, v: int) -> Cutoff:
        self.highest = max(self.highest, u, v)
        return super().cheapest(place, u, v)


class Case(unittest.TestCase):
    def see_tiling(self, ranges: list[PriceRange]) -> None:
        """The ranges cover all ratios once, neighbours differ, and the ends are reduced."""
        self.assertEqual((ranges[0].start, ranges[0].includes_start), (LOWEST, True))
        self.assertEqual((ranges[-1].end, ranges[-1].includes_end), (HIGHEST, True))
        for before, after in zip(ranges, ranges[1:]):
            self.assertEqual(before.end, after.start)
            self.assertNotEqual(before.includes_end, after.includes_start)
            self.assertNotEqual(before.cheaper, after.cheaper)
        for each in ranges:
            self.assertEqual((gcd(*each.start), gcd(*each.end)), (1, 1))
            start, end = (Fraction(price.u, price.u + price.v) for price in (each.start, each.end))
            self.assertTrue(start < end or start == end and each.includes_start and each.includes_end, each)

    def see_ranges(self, first: Scale, second: Scale) -> tuple[list[PriceRange], int]:
        """The ranges of two scales, seen to be those of the definition and to fit the verdict, and the highest price asked for."""
        desk = loaded(AskedDesk(), first, second)
        ranges = price_ranges(desk)
        self.assertEqual(ranges, expected(first, second), (first, second))
        self.see_tiling(ranges)
        self.assertEqual(desk.compare().kind, kind_of(ranges))
        self.assertLessEqual(desk.highest, MAX_PRICE)
        return ranges, desk.highest


def kind_of(ranges: list[PriceRange]) -> Kind:
    found = {each.cheaper for each in ranges}
    return KINDS[FIRST in found, SECOND in found]


class Small(Case):
    """With D and S of at most 30, every critical ratio and one between any two neighbours has prices of at most 60."""

    def see_prices(self, first: Scale, second: Scale) -> Kind:
        """All prices up to 60."""
        ranges, _ = self.see_ranges(first, second)
        a, b = cutoffs(first), cutoffs(second)
        for price in PRICES:
            found = [each.cheaper for each in ranges if each.holds(price)]
            if found != [outcome(a, b, *price)]:
                self.fail(f'{first} against {second} at {price}: {found}, and not {outcome(a, b, *price)}')
        return kind_of(ranges)

    def test_at_random(self) -> None:
        source, kinds, seen = random.Random(1), Counter(), Counter()
        for _ in range(240):
            first, second = pair(source, (source.randint(1, 30), source.randint(1, 30)), 6)
            kinds[self.see_prices(first, second)] += 1
            seen.update(features(first) | features(second))
        self.assertTrue(len(kinds) == 4 and min(kinds.values()) >= 25, kinds)
        self.assertTrue(len(seen) == 4 and min(seen.values()) >= 50, seen)

    def test_the_worked_tables(self) -> None:
        for scales, kind in ((G, Kind.FIRST), (G[::-1], Kind.SECOND), (H, Kind.CROSSING), (G[:1] * 2, Kind.EQUAL)):
            self.assertEqual(self.see_prices(*scales), kind)


class Large(Case):
    def test_at_random(self) -> None:
        source, kinds, most = random.Random(2), Counter(), Counter()
        for _ in range(24):
            defaults = source.choice((500_000, source.randint(1, 999_999), source.randint(1, 30_000)))
            ranges, _ = self.see_ranges(*pair(source, (defaults, 1_000_000 - defaults), 40))
            kinds[kind_of(ranges)] += 1
            most[len(ranges)] += 1
        self.assertEqual(len(kinds), 4, kinds)
        self.assertGreater(max(most), 5, most)

    def test_extreme_totals(self) -> None:
        source, highest = random.Random(3), 0
        for totals in ((1, 999_999), (999_999, 1), (2, 999_998), (999_997, 3)):
            for _ in range(12):
                highest = max(highest, self.see_ranges(*pair(source, totals, 40))[1])
        self.assertGreaterEqual(highest, 999_000)  # or no price near the limit was asked for

    def test_a_crossing_at_prices_near_the_limit(self) -> None:
        """One scale knows a single defaulted obligor, the other a single survivor: they cross between break-even ratios of their blocks."""
        for defaults, survivors in ((10, 999_990), (999_990, 10), (499_998, 500_002)):
            total, crossing = defaults + survivors, Price(survivors - 1, defaults - 1).reduced()
            ranges, highest = self.see_ranges([(total - 1, defaults - 1), (1, 1)], [(1, 0), (total - 1, defaults)])
            self.assertIn(PriceRange(crossing, crossing, True, True, BOTH), ranges)
            self.assertGreaterEqual(highest, max(crossing))


class Refusals(unittest.TestCase):
    def test_as_compare(self) -> None:
        for scales, number in (((), 22), (G[:1], 22), (([(1, 0)], [(1, 1)]), 23), ((G[0], [(6, 6)]), 24), ((G[0], H[1] + [(1, 0)]), 25)):
            with self.assertRaises(Refused) as raised:
                price_ranges(loaded(Desk(), *scales))
            self.assertEqual(raised.exception.number, number)

    def test_answers_that_do_not_fit_together_are_an_error(self) -> None:
        class WrongVerdict(Desk):
            def compare(self) -> Verdict:
                return Verdict(Kind.EQUAL, None, None)

        class WrongCost(Desk):
            def cheapest(self, place: int, u: int, v: int) -> Cutoff:
                known = CountCosts(self, 1).break_even() | CountCosts(self, 2).break_even() | {LOWEST, HIGHEST}
                found = super().cheapest(place, u, v)
                return found if (u, v) in known else found._replace(cost=found.cost + place)
        for kind in (WrongVerdict, WrongCost):
            with self.assertRaises(AssertionError):
                price_ranges(loaded(kind(), *H))


if __name__ == '__main__':
    unittest.main()
