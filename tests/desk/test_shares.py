"""Tests the comparison on shares, R-6 of document 02: a cutoff costs u(D - y)/D + vx/S, D and S being the totals of its own table. Worked
tables with their arithmetic, every refusal in its order, the limits, price ranges and all that `desk compare --shares` prints, held to
costs that are computed here by definition, as fractions.

    python3 tests/desk/test_shares.py     # from anywhere
"""
from __future__ import annotations

from collections import Counter
from fractions import Fraction
from typing import Callable
import os
import random
import sys
import unittest

sys.dont_write_bytecode = True
sys.path.insert(0, os.path.dirname(os.path.abspath(__file__)))
from common import Scale, in_order, loaded  # noqa: E402
from definitions import cheapest, share_cost, totals  # noqa: E402
from running import Case, ask, book_of, example, run  # noqa: E402
from scales import AGENCY, HARBOUR, INHOUSE, VALLEY, by, rater_of  # noqa: E402
from test_command_compare import Comparing  # noqa: E402
from test_ranges import G, H, Case as RangesCase, any_scale, coarser, expected, kind_of, pair  # noqa: E402
from watched import WatchedDesk  # noqa: E402
import scales  # noqa: E402
import desk as module  # noqa: E402
from desk import Cutoff, Desk, Kind, Price, Refused, ShareCosts, Verdict, WrittenFraction, price_ranges  # noqa: E402
from desk.costs import compared  # noqa: E402

MAX_OBLIGORS, MAX_PRICE, MAX_PAIR = 100_000, 1_000_000, 2_500_000_000
MIXED: Scale = [(10, 2), (10, 1), (20, 4)]
NO_DEFAULTS: Scale = [(3, 0)]
NO_SURVIVORS: Scale = [(3, 3)]
LARGEST: Scale = [(60_000, 20), (39_999, 30), (1, 1)]
TOO_LARGE: Scale = [(60_000, 20), (40_000, 30), (1, 1)]
EXCHANGED = {Kind.FIRST: Kind.SECOND, Kind.SECOND: Kind.FIRST, Kind.EQUAL: Kind.EQUAL, Kind.CROSSING: Kind.CROSSING}


def grades_of(scale: Scale) -> list[tuple]:
    """As the definitions take them; costs do not look at the announced rates."""
    return [(n, d, 0) for n, d in scale]


def times(scale: Scale, defaults: int, survivors: int) -> Scale:
    """So many times as many defaults and survivors in each grade: the same shares."""
    return [(defaults * d + survivors * (n - d), defaults * d) for n, d in scale]


def cost_of(scale: Scale, price: Price) -> Fraction:
    return cheapest(grades_of(scale), *price, True)[1]


def any_totals(source: random.Random, most: int) -> tuple[int, int]:
    return source.randint(1, most), source.randint(1, most)


def any_two(source: random.Random, most: int, grades: int) -> tuple[Scale, Scale]:
    """Two scales of different books, some of which have the same shares up to a little."""
    first = any_scale(source, any_totals(source, most), source.randint(1, grades))
    way = source.randrange(8)
    factors = source.randint(1, 4), source.randint(1, 4)
    second = (times(first, *factors) if way == 0 else times(coarser(source, first), *factors) if way == 1 else
              times(first[::-1], *factors) if way == 2 else any_scale(source, any_totals(source, most), source.randint(1, grades)))
    return (first, second) if source.random() < 0.5 else (second, first)


class WorkedTables(unittest.TestCase):
    def see(self, first: Scale, second: Scale, kind: Kind) -> Verdict:
        """The verdict, which prices by definition show, and that of the places exchanged."""
        found, exchanged = loaded(Desk(), first, second).compare_shares(), loaded(Desk(), second, first).compare_shares()
        self.assertEqual((found.kind, exchanged.kind), (kind, EXCHANGED[kind]))
        self.assertEqual((found.first_dearer is None, found.second_dearer is None),
                         (kind in (Kind.EQUAL, Kind.FIRST), kind in (Kind.EQUAL, Kind.SECOND)))
        if found.first_dearer:
            self.assertGreater(cost_of(first, found.first_dearer), cost_of(second, found.first_dearer))
        if found.second_dearer:
            self.assertLess(cost_of(first, found.second_dearer), cost_of(second, found.second_dearer))
        return found

    def test_costs_of_one_table(self) -> None:
        """(6, 1), (2, 1): D 2, S 6, DS 12. At u 3, v 2 the cutoffs cost 3 * 2/2 = 36/12; 3 * 1/2 + 2 * 1/6 = 22/12; 2 * 6/6 = 24/12. At
        u 1, v 3 they cost 12/12, 6/12 + 6/12 and 36/12: of the first two the smaller cutoff. At u 9, v 1 they cost 108/12, 56/12, 12/12."""
        costs = ShareCosts(loaded(Desk(), [(6, 1), (2, 1)]), 1)
        for price, cutoff, written in (((3, 2), 1, (22, 12)), ((1, 3), 0, (12, 12)), ((9, 1), 2, (12, 12)), ((0, 0), 0, (0, 12)),
                                       ((0, 5), 0, (0, 12)), ((5, 0), 2, (0, 12))):
            found = costs.cheapest(*price)
            self.assertEqual((found, found.cost.written), ((cutoff, Fraction(*written)), written))
        self.assertEqual(costs.break_even(), {Price(5, 3), Price(1, 3)})  # 5/6 of the survivors to 1/2 of the defaults; 1/6 to 1/2

    def test_crossing_books_of_six_and_of_twelve(self) -> None:
        """Tables h, the second one doubled. At u 1, v 1 the first misses 2 of 3 defaults: 2/3; the second turns away 2 of 6 survivors: 1/3.
        At u 1, v 3 they cost 2/3 and 1."""
        first, second = H[0], [(4, 0), (8, 6)]
        self.see(first, second, Kind.CROSSING)
        desk = loaded(Desk(), first, second)
        for price, costs in (((1, 1), (Fraction(2, 3), Fraction(1, 3))), ((1, 3), (Fraction(2, 3), Fraction(1)))):
            self.assertEqual(tuple(ShareCosts(desk, place).cheapest(*price).cost for place in (1, 2)), costs)

    def test_the_finer_scale_of_another_book_is_first(self) -> None:
        """Tables g, the second one three times. At u 1, v 1 the first costs 1/3, which is 1 of 3 defaults or of 3 survivors; the second 2/3,
        as cutoff 1 misses 3 of 9 defaults and turns away 3 of 9 survivors."""
        self.see(G[0], times(G[1], 3, 3), Kind.FIRST)
        desk = loaded(Desk(), G[0], times(G[1], 3, 3))
        self.assertEqual([ShareCosts(desk, place).cheapest(1, 1).cost for place in (1, 2)], [Fraction(1, 3), Fraction(2, 3)])

    def test_each_table_has_its_own_totals(self) -> None:
        """D 1, S 9 against D 9, S 1: all defaults behind 1/9 of the survivors, and 8/9 of the defaults behind no survivor. At u 1, v 1 both
        cost 1/9; at u 2, v 1 the first costs 1/9 and the second 2/9; at u 1, v 2 it is the other way round."""
        first, second = [(8, 0), (2, 1)], [(2, 1), (8, 8)]
        self.see(first, second, Kind.CROSSING)
        ranges = price_ranges(loaded(Desk(), first, second), shares=True)
        self.assertIn('[1:1, 1:1] both', map(str, ranges))
        self.assertEqual([each.cheaper for each in ranges], ['both', 'second', 'both', 'first', 'both'])

    def test_survivors_and_defaults_have_shares_of_their_own(self) -> None:
        """D 2, S 8 against D 8, S 2, each with a worst grade of half the defaults and a quarter and a half of the survivors."""
        self.see([(7, 1), (3, 1)], [(5, 4), (5, 4)], Kind.FIRST)

    def test_multiples_are_equal(self) -> None:
        for scale in (*G, *H, MIXED, [(5, 0), (0, 0), (5, 5)]):
            for factors in ((1, 1), (7, 7), (1, 3), (5, 2), (1000, 1)):
                found = self.see(scale, times(scale, *factors), Kind.EQUAL)
                self.assertEqual(found, Verdict(Kind.EQUAL, None, None))

    def test_one_obligor_more_is_seen(self) -> None:
        """Ten times table g's finer scale with one more survivor in its best grade, or one more default in its worst: better by a little."""
        many = times(G[0], 10, 10)
        self.see([(21, 0), *many[1:]], G[0], Kind.FIRST)
        self.see([*many[:2], (21, 21)], G[0], Kind.FIRST)
        self.see([many[0], (21, 10), many[2]], G[0], Kind.SECOND)

    def test_the_two_lenders(self) -> None:
        """Harbour, D 40, S 360: cutoff 3 misses 4 and turns away 90. Valley, D 200, S 4800: cutoff 3 misses 36 and turns away 864. At 7:8
        both cost 2.7: 7 * 4/40 + 8 * 90/360 = 0.7 + 2, and 7 * 36/200 + 8 * 864/4800 = 1.26 + 1.44."""
        first, second = ([(n, d) for n, d, _ in scale.grades] for scale in (HARBOUR, VALLEY))
        self.see(first, second, Kind.CROSSING)
        desk = loaded(Desk(), first, second)
        self.assertEqual([ShareCosts(desk, place).cheapest(7, 8) for place in (1, 2)], [Cutoff(3, Fraction(27, 10))] * 2)
        self.assertEqual([str(each) for each in price_ranges(desk, shares=True)],
                         ['[0:1, 1:45] both', '(1:45, 7:8) second', '[7:8, 7:8] both', '(7:8, 1:0) first', '[1:0, 1:0] both'])


class EqualTotals(unittest.TestCase):
    def test_the_verdict_is_that_of_compare(self) -> None:
        """And a scale is cheaper at u:v by counts exactly where it is at uD:vS on shares."""
        source, kinds = random.Random(1), Counter()
        for _ in range(150):
            defaults, survivors = any_totals(source, source.choice((9, 300)))
            desk = loaded(Desk(), *pair(source, (defaults, survivors), 6))
            self.assertEqual(desk.compare().kind, desk.compare_shares().kind)
            by_counts = [each._replace(**{end: Price(price.u * defaults, price.v * survivors).reduced() for end, price in
                                          (('start', each.start), ('end', each.end))}) for each in price_ranges(desk)]
            self.assertEqual(price_ranges(desk, shares=True), by_counts)
            kinds[desk.compare().kind] += 1
        self.assertTrue(len(kinds) == 4 and min(kinds.values()) >= 10, kinds)


class Refusals(unittest.TestCase):
    def refused(self, number: int, desk: WatchedDesk, call: Callable[[], object]) -> None:
        before = desk.memory.content()
        with self.assertRaises(Refused) as raised:
            call()
        self.assertEqual((raised.exception.number, desk.memory.content()), (number, before))

    def test_in_their_order(self) -> None:
        """22, 23, 24 and 35, each for either place, and before what comes later."""
        for number, one, others in ((22, None, (None, MIXED, NO_DEFAULTS, NO_SURVIVORS, TOO_LARGE)),
                                    (23, NO_DEFAULTS, (MIXED, NO_DEFAULTS, NO_SURVIVORS, TOO_LARGE, [(100_001, 100_001)])),
                                    (23, [(100_001, 0)], (MIXED, NO_SURVIVORS, TOO_LARGE)),
                                    (24, NO_SURVIVORS, (MIXED, NO_SURVIVORS, TOO_LARGE)), (24, [(100_001, 100_001)], (MIXED, TOO_LARGE)),
                                    (35, TOO_LARGE, (MIXED, TOO_LARGE, LARGEST))):
            for other in others:
                for places in ((one, other), (other, one)):
                    desk = loaded(WatchedDesk(), *places)
                    for call in (desk.compare_shares, lambda: price_ranges(desk, shares=True), lambda: compared(desk, True)):
                        self.refused(number, desk, call)

    def test_the_meaning_of_35(self) -> None:
        self.assertEqual(str(Refused(35)), 'refused 35: N above 100,000 (compare on shares; N: obligors of the table)')

    def test_other_totals_are_none(self) -> None:
        """25 has no use: D, S or both may differ."""
        for other in ([(10, 2), (10, 1), (21, 4)], [(10, 2), (10, 1), (20, 3), (1, 0)], [(10, 2), (11, 5)], LARGEST):
            for scales_ in ((MIXED, other), (other, MIXED)):
                desk = loaded(WatchedDesk(), *scales_)
                self.refused(25, desk, desk.compare)
                self.assertIn(desk.compare_shares().kind, Kind)

    def test_35_is_for_shares_alone(self) -> None:
        desk = loaded(WatchedDesk(), TOO_LARGE, TOO_LARGE[:2] + [(1, 1)])
        self.assertEqual((desk.compare().kind, price_ranges(desk)[0].cheaper), (Kind.EQUAL, 'both'))

    def test_of_costs(self) -> None:
        for scale, number in ((None, 22), (NO_DEFAULTS, 23), (NO_SURVIVORS, 24)):
            desk = loaded(WatchedDesk(), scale, MIXED)
            self.refused(number, desk, lambda: ShareCosts(desk, 1))
            self.refused(1, desk, lambda: ShareCosts(desk, 3))
        costs = ShareCosts(loaded(Desk(), TOO_LARGE), 1)  # no limit of their own
        self.assertEqual(costs.cheapest(1, 1), cheapest(grades_of(TOO_LARGE), 1, 1, True))
        for wrong in (1.5, '1', None, Fraction(1)):
            for prices in ((wrong, 1), (1, wrong)):
                with self.assertRaisesRegex(TypeError, 'is a whole number, not'):
                    costs.cheapest(*prices)
        for prices in ((-1, 1), (1, -2 ** 64)):
            with self.assertRaisesRegex(ValueError, 'is 0 or more'):
                costs.cheapest(*prices)

    def test_answers_that_do_not_fit_together_are_an_error(self) -> None:
        class WrongVerdict(Desk):
            def compare_shares(self) -> Verdict:
                return Verdict(Kind.EQUAL, None, None)

        class WrongCutoff(Desk):
            def cheapest(self, place: int, u: int, v: int) -> Cutoff:
                return Cutoff(0, 0) if place == 1 else super().cheapest(place, u, v)
        for kind in (WrongVerdict, WrongCutoff):
            with self.assertRaises(AssertionError):
                price_ranges(loaded(kind(), MIXED, times(MIXED[::-1], 2, 3)), shares=True)


class Limits(unittest.TestCase):
    def test_obligors(self) -> None:
        """100,000 are taken in either place and in both."""
        for scales_ in ((LARGEST, MIXED), (MIXED, LARGEST), (LARGEST, LARGEST)):
            self.assertIn(loaded(WatchedDesk(), *scales_).compare_shares().kind, Kind)
        self.assertEqual((sum(n for n, _ in LARGEST), sum(n for n, _ in TOO_LARGE)), (MAX_OBLIGORS, MAX_OBLIGORS + 1))

    def test_prices_near_2_500_000_000(self) -> None:
        """One grade of D 50,000 and S 50,000: its only block breaks even at u SD and v DS. Which pair is carried is the library's choice, and
        it takes break-even prices as they are, not reduced: these need more than 31 bits."""
        one, all_apart = [(100_000, 50_000)], [(50_000, 0), (50_000, 50_000)]
        for scales_, dearer in (((one, all_apart), 'first_dearer'), ((all_apart, one), 'second_dearer')):
            found = getattr(loaded(WatchedDesk(), *scales_).compare_shares(), dearer)
            self.assertEqual(found, Price(MAX_PAIR, MAX_PAIR))
            self.assertEqual((cost_of(one, found), cost_of(all_apart, found)), (MAX_PAIR, 0))

    def test_pairs_of_large_tables(self) -> None:
        """At each pair that a verdict carries the scale costs more by definition; many need all 32 bits."""
        source, kinds, highest = random.Random(2), Counter(), Counter()
        for _ in range(60):
            defaults = source.choice((50_000, 49_999, source.randint(1, 99_999)))
            first = any_scale(source, (defaults, MAX_OBLIGORS - defaults), source.randint(1, 12))
            second = any_scale(source, any_totals(source, 50_000), source.randint(1, 12))
            found = loaded(WatchedDesk(), first, second).compare_shares()
            for dearer, cheaper, price in ((first, second, found.first_dearer), (second, first, found.second_dearer)):
                if price:
                    self.assertLessEqual(max(price), MAX_PAIR)
                    self.assertGreater(cost_of(dearer, price), cost_of(cheaper, price))
                    highest[max(price) >= 2 ** 31] += 1
            kinds[found.kind] += 1
        self.assertTrue(highest[True] >= 3 and highest[False] >= 10 and len(kinds) >= 3, (highest, kinds))


class AskedDesk(Desk):
    """A desk that remembers the highest price that it, or any copy of it, was asked for."""
    highest = 0

    def cheapest(self, place: int, u: int, v: int) -> Cutoff:
        AskedDesk.highest = max(AskedDesk.highest, u, v)
        return super().cheapest(place, u, v)


class Costs(unittest.TestCase):
    def test_at_prices_of_any_size(self) -> None:
        """The cheapest cutoff and its cost by definition, at prices that the library takes and at others, also at and close to a ratio at
        which two cutoffs cost the same. The library is asked within its limit."""
        source, seen = random.Random(3), Counter()
        for _ in range(120):
            scale = any_scale(source, any_totals(source, source.choice((5, 400, 500_000))), source.choice((1, 3, 12)))
            costs = ShareCosts(loaded(AskedDesk(), scale), 1)
            prices = [(source.randint(0, most), source.randint(0, most)) for most in (5, 10 ** 6, 10 ** 9, 10 ** 19, 10 ** 30)]
            for u, v in costs.break_even():
                prices += [(u, v), (u * 10 ** 15, v * 10 ** 15), (u * 10 ** 15 + 1, v * 10 ** 15), (u * 10 ** 15, v * 10 ** 15 + 1)]
            _, defaults, survivors = totals(grades_of(scale))
            for price in prices:
                cutoff, cost = costs.cheapest(*price)
                self.assertEqual((cutoff, cost), cheapest(grades_of(scale), *price, True), (scale, price))
                self.assertEqual((type(cost), cost.written[1]), (WrittenFraction, defaults * survivors))
                seen[max(Price(price[0] * survivors, price[1] * defaults).reduced()) > MAX_PRICE] += 1
        self.assertTrue(MAX_PRICE // 2 < AskedDesk.highest <= MAX_PRICE, AskedDesk.highest)
        self.assertGreaterEqual(min(seen[True], seen[False]), 500, seen)

    def test_of_the_table_that_was_there(self) -> None:
        self.assertIn('ShareCosts', module.__all__)
        desk = loaded(Desk(), MIXED, LARGEST)
        costs = ShareCosts(desk, 1)
        desk.clear(1)
        self.assertEqual(costs.cheapest(3, 4), cheapest(grades_of(MIXED), 3, 4, True))
        loaded(desk, H[0])
        self.assertEqual(costs.cheapest(3, 4), cheapest(grades_of(MIXED), 3, 4, True))


class Ranges(RangesCase):
    """Small scales are tried at all prices up to 12, and the ends of their ranges are found again exactly, as in test_ranges.py."""

    def see_shares(self, first: Scale, second: Scale) -> list:
        desk = loaded(AskedDesk(), first, second)
        ranges = price_ranges(desk, shares=True)
        self.assertEqual(ranges, expected(first, second, True), (first, second))
        self.see_tiling(ranges)
        self.assertEqual(desk.compare_shares().kind, kind_of(ranges))
        self.assertLessEqual(AskedDesk.highest, MAX_PRICE)
        return ranges

    def test_at_random(self) -> None:
        source, kinds = random.Random(4), Counter()
        for _ in range(120):
            first, second = any_two(source, 9, 5)
            ranges = self.see_shares(first, second)
            for price in (Price(u, v) for u in range(13) for v in range(13) if u or v):
                a, b = ([share_cost(grades_of(scale), cutoff, *price) for cutoff in range(len(scale) + 1)] for scale in (first, second))
                cheaper = 'first' if min(a) < min(b) else 'second' if min(b) < min(a) else 'both'
                self.assertEqual([each.cheaper for each in ranges if each.holds(price)], [cheaper], (first, second, price))
            kinds[kind_of(ranges)] += 1
        self.assertTrue(len(kinds) == 4 and min(kinds.values()) >= 10, kinds)

    def test_large_ones(self) -> None:
        source, kinds = random.Random(5), Counter()
        for _ in range(16):
            kinds[kind_of(self.see_shares(*any_two(source, source.choice((300, 12_000)), 20)))] += 1
        self.assertGreaterEqual(len(kinds), 3, kinds)


class Command(Comparing):
    """Every figure that `desk compare --shares` prints, computed again by definition."""
    # Worst grades of 5 defaults and 1 survivor, and of all but 2 defaults and all but 7 survivors, in books whose totals have no common
    # factors: they cost the same at u to v as 1 - 7/S2 - 1/S1 to 1 - 5/D1 - 2/D2, which has 19 digits in the smallest whole numbers.
    FAR_APART = [(99_994, 49_994), (6, 5)], [(9, 2), (99_991, 49_989)]

    def shared(self, first: scales.Scale, second: scales.Scale, *words: str) -> dict:
        return self.compared(first, second, *words, '--shares')

    def of_scales(self, first: Scale, second: Scale, *words: str) -> dict:
        tables = [('obligors', grades_of(scale)) for scale in (first, second)]
        path = self.put('two.book', book_of(tables))
        return self.shared(*(scales.Scale(f'rater {number}', path, number, *table) for number, table in enumerate(tables, 1)), path, *words)

    def test_the_two_lenders(self) -> None:
        words = [word for price in ('7:8', '20:9', '5:6', '0:0', '1:0', '0:1') for word in ('--prices', price)]
        data = self.shared(HARBOUR, VALLEY, HARBOUR.file, VALLEY.file, *words)
        self.assertEqual((data['verdict'], data['shares']), ('crossing', True))
        self.assertEqual(self.shared(VALLEY, HARBOUR, VALLEY.file, HARBOUR.file)['verdict'], 'crossing')
        path = example('lenders.book')
        self.assertEqual(self.shared(rater_of(path, 1), rater_of(path, 2), path, '1', '2', *words)['ranges'], data['ranges'])

    def test_what_is_printed_of_them(self) -> None:
        """At 7:8 both cost 2.7, as above: 38880 of DS 14400 and 2592000 of DS 960000. At 1:1 Harbour costs 12/40 + 36/360 = 0.4 at cutoff 2
        and 4/40 + 90/360 = 0.35 at cutoff 3, Valley 36/200 + 864/4800 = 0.36 at cutoff 3."""
        text = self.answered('compare', HARBOUR.file, VALLEY.file, '--shares', '--prices', '7:8', '--prices', '1:1').out
        for line in ('0.875000 (7:8)   cutoff 3 (from H4), cost 2.700000 (38880/14400)  cutoff 3 (from V5), cost 2.700000 (2592000/960000)  '
                     'both cost the same\n',
                     '1.000000 (1:1)   cutoff 3 (from H4), cost 0.350000 (5040/14400)   cutoff 3 (from V5), cost 0.360000 (345600/960000)   '
                     'Harbour\n',
                     'up to 0.022222 (1:45)                       both cost the same\n',
                     'between 0.022222 (1:45) and 0.875000 (7:8)  Valley\n', 'at 0.875000 (7:8)                           both cost the same\n',
                     'above 0.875000 (7:8)                        Harbour\n',
                     "Harbour and Valley cross: neither is better, each costs less than the other at some prices. Costs go by shares of each "
                     "book's own defaults and survivors.\n", ' are u:v = 40p:360q in the book of Harbour, 200p:4800q in that of Valley.\n'):
            self.assertIn(line, text)

    def test_names_are_shown_plainly(self) -> None:
        path = self.put('a.csv', 'name,A\x1b[31mB\nobligors,defaults,announced\n5,2,0\n1,1,0\n')
        for words in ((path, VALLEY.file, '--shares'), (path, path)):
            self.assertNotIn('\x1b', self.answered('compare', *words).out)

    def test_a_verdict_of_each_kind(self) -> None:
        for first, second, verdict in ((G[0], times(G[1], 3, 2), 'first'), (times(G[1], 1, 4), G[0], 'second'), (H[0], times(H[1], 2, 2), 'crossing'),
                                       (MIXED, times(MIXED, 3, 2), 'equal')):
            self.assertEqual(self.of_scales(first, second, '--prices', '3:2')['verdict'], verdict)

    def test_equal_totals_have_the_verdict_of_compare(self) -> None:
        for name, pairs in (('portfolio.book', ((1, 2), (2, 1), (1, 3), (1, 4))), ('g.book', ((1, 2),)), ('h.book', ((1, 2), (2, 1)))):
            path = example(name)
            for a, b in pairs:
                found = self.shared(rater_of(path, a), rater_of(path, b), path, str(a), str(b))
                self.assertEqual(found['verdict'], self.answered('compare', path, str(a), str(b), '--json').data()['verdict'])
        self.assertEqual(self.shared(INHOUSE, AGENCY, INHOUSE.file, AGENCY.file)['verdict'], 'crossing')

    def test_without_it_costs_are_by_counts(self) -> None:
        data = self.answered('compare', example('h.book'), '--prices', '1:3', '--json').data()
        self.assertEqual((data['shares'], data['prices'][0]['first']['cost']), (False, 2))
        text = self.answered('compare', INHOUSE.file, AGENCY.file).out
        self.assertNotIn('share', text)
        self.assertIn('\nbetween 1:3 and 17:3  Agency\n', text)

    def test_prices_of_any_size(self) -> None:
        """No price is too high: costs are fractions, and a ratio that is found may be asked for, of however many digits."""
        most = 10 ** 19 - 1
        words = [word for price in (f'{most}:{most}', f'{most}:1', f'1:{most}', '1000001:1000001', '02:4') for word in ('--prices', price)]
        data = self.shared(HARBOUR, VALLEY, HARBOUR.file, VALLEY.file, *words)
        self.assertEqual([data['prices'][at]['cheaper'] for at in (0, 1, 2)], ['first', 'first', 'both'])

    def test_a_ratio_of_nineteen_digits(self) -> None:
        (d1, s1), (d2, s2) = ((sum(d for _, d in scale), sum(n - d for n, d in scale)) for scale in self.FAR_APART)
        ratio = (1 - Fraction(7, s2) - Fraction(1, s1)) / (1 - Fraction(5, d1) - Fraction(2, d2))
        self.assertEqual((d1, s1, d2, s2, len(str(ratio.numerator)), len(str(ratio.denominator))), (49_999, 50_001, 49_991, 50_009, 19, 19))
        data = self.of_scales(*self.FAR_APART, '--prices', f'{ratio.numerator}:{ratio.denominator}')
        price = {'u': ratio.numerator, 'v': ratio.denominator}
        self.assertIn({'from': price, 'to': price, 'includes_from': True, 'includes_to': True, 'cheaper': 'both'}, data['ranges'])
        self.assertEqual(data['prices'][0]['cheaper'], 'both')

    def test_separating_prices_near_the_limit(self) -> None:
        """Prices in the smallest whole numbers that need 32 bits, far above those that the library finds a cheapest cutoff at."""
        for costs in self.of_scales(*self.FAR_APART)['separating']:
            self.assertGreater(min(costs['u'], costs['v']), 1_249_000_000)
        self.assertGreater(max(costs['v'] for costs in self.of_scales(*self.FAR_APART)['separating']), 2 ** 31)

    def test_a_hundred_pairs(self) -> None:
        source, verdicts = random.Random(6), Counter()
        for _ in range(100):
            two = any_two(source, source.choice((9, 100, 12_000)), source.choice((2, 4, 8)))
            tables = []
            for scale in two:
                counts = source.choice(('obligors', 'survivors'))
                tables.append((counts, by(counts, in_order([(n, d, source.randint(0, 1_000_000)) for n, d in scale]))))
            path = self.put('two.book', book_of(tables))
            raters = [scales.Scale(f'rater {number}', path, number, *table) for number, table in enumerate(tables, 1)]
            prices = [f'--prices={source.randint(0, most)}:{source.randint(0, most)}' for most in (3, 10 ** 19 - 1)]
            verdicts[self.shared(*raters, path, *(word for price in prices for word in price.split('=')))['verdict']] += 1
        self.assertTrue(len(verdicts) == 4 and min(verdicts.values()) >= 8, verdicts)

    def test_as_a_process(self) -> None:
        words = ('compare', HARBOUR.file, VALLEY.file, '--shares', '--json')
        self.assertEqual(run(*words), self.answered(*words))


class Messages(Case):
    """What is said where two tables are not compared, and where they may be by mistake."""
    INSTEAD = '. With --shares scales of different books are compared, of at most 100000 obligors each'

    def book(self, *scales_: Scale) -> str:
        return self.put('a.book', book_of([('obligors', grades_of(scale)) for scale in scales_]))

    def why(self, number: int, *words: str) -> str:
        """The one thing that is refused, the same as text and as JSON, with nothing answered."""
        line, = self.refused(number, 'compare', *words)
        self.assertEqual(ask('compare', *words).out, '')
        found, = ask('compare', *words, '--json').data()['refusals']
        self.assertEqual((found['number'], line), (number, f'desk: refused {number}: {found["meaning"]}; {found["where"]}: {found["why"]}'))
        return f'{found["where"]}: {found["why"]}'

    def test_25_points_at_shares(self) -> None:
        self.assertEqual(self.why(25, HARBOUR.file, VALLEY.file), 'Harbour against Valley: Harbour has 40 defaults and 360 survivors, '
                         f'Valley has 200 defaults and 4800 survivors{self.INSTEAD}')
        self.answered('compare', HARBOUR.file, VALLEY.file, '--shares')

    def test_23_and_24_do_not(self) -> None:
        for scale, number, has in ((NO_DEFAULTS, 23, '0 defaults and 3 survivors'), (NO_SURVIVORS, 24, '3 defaults and 0 survivors')):
            path = self.book(scale, TOO_LARGE)
            for shares in ((), ('--shares',)):
                self.assertEqual(self.why(number, path, *shares), f'rater 1 against rater 2: rater 1 has {has}, rater 2 has 51 defaults and '
                                                                  '99950 survivors')

    def test_35_names_the_rater_its_obligors_and_the_limit(self) -> None:
        path, limit = self.book(MIXED, TOO_LARGE), 'on shares tables of at most 100000 are compared'
        self.assertEqual(self.why(35, path, '--shares'), f'rater 1 against rater 2: rater 2 has 100001 obligors; {limit}')
        self.assertEqual(self.why(35, path, '2', '1', '--shares'), f'rater 2 against rater 1: rater 2 has 100001 obligors; {limit}')
        self.assertEqual(self.why(35, path, '2', '2', '--shares'), 'rater 2 (first) against rater 2 (second): rater 2 (first) has 100001 '
                         f'obligors, rater 2 (second) has 100001 obligors; {limit}')
        self.assertEqual(self.why(35, example('lenders.csv'), '3', '1', '--shares'), f'rater 3 against rater 1: rater 3 has 120000 obligors; {limit}')
        self.answered('compare', self.book(LARGEST, MIXED), '--shares')

    def test_by_counts_nothing_is_too_large(self) -> None:
        self.answered('compare', example('lenders.book'), '3', '3')

    def test_what_is_asked_back_is_asked_here_too(self) -> None:
        """Survivors under the name of obligors make a book of another size: seven obligors where the other has seven survivors."""
        path = self.put('a.book', book_of([('obligors', [(5, 1, 166667), (2, 2, 500000)]), ('obligors', [(6, 1, 166667), (4, 2, 500000)])]))
        ran = ask('compare', path, '--shares')
        self.assertEqual((ran.status, ran.err), (0, 'desk: note: rater 1 has as many obligors as rater 2 has survivors (7): does its first '
                                                    'column count survivors?\n'))

    def test_a_refusal_of_load_comes_first(self) -> None:
        for number, refusal in ((5, 9), (6, 8), (7, 10), (8, 11), (9, 34)):
            self.refused(refusal, 'compare', example('refusals.book'), '1', str(number), '--shares')

    def test_the_words_of_the_command(self) -> None:
        self.assertIn('[--shares]', self.answered('compare', '--help').out)
        self.assertIn('--shares', self.answered('--help').out)
        self.assertEqual(self.answered('refusals', '35').out, '35  N above 100,000 (compare on shares; N: obligors of the table)\n')


if __name__ == '__main__':
    unittest.main()
