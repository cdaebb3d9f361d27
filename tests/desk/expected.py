"""What the command has to answer of tables, as the objects of its JSON, by document 01's definitions (definitions.py)."""
from __future__ import annotations

from fractions import Fraction
from typing import Any, Sequence

from common import Scale as Rows
from scales import Scale
from definitions import Grades, brier, cheapest, decimal, measures, measures_refusal, pooled, repeats, totals
from test_ranges import expected as ranges_by_definition


def fraction_data(numerator: int, denominator: int) -> dict[str, Any]:
    return {'numerator': numerator, 'denominator': denominator, 'decimal': decimal(Fraction(numerator, denominator), 6)}


def rater_data(scale: Scale) -> dict[str, Any]:
    obligors, defaults, survivors = totals(scale.grades)
    return {'name': scale.name, 'file': scale.file, 'rater': scale.number, 'counts': scale.counts, 'grades': len(scale.rows),
            'empty_grades': [n for n, _, _ in scale.grades].count(0), 'obligors': obligors, 'survivors': survivors, 'defaults': defaults}


def measures_data(grades: Grades) -> dict[str, Any]:
    refused = measures_refusal(grades)
    found = {} if refused else measures(grades)
    data: dict[str, Any] = {name: None if refused else fraction_data(*found[name]) for name in ('gini', 'roc', 'cap', 'pietra')}
    data.update(pietra_cutoff=found.get('pietra_cutoff'), brier=fraction_data(*brier(grades)))
    return data


def about_sign(*measures: dict[str, Any] | None) -> list[str]:
    """The line on Pietra's sign, where one is negative. A rater that is refused has no measures."""
    below = any(each['pietra']['numerator'] < 0 for each in measures if each and each['pietra'])
    return ['A negative Pietra: where the ROC curve is farthest from the diagonal, it is below it. Elsewhere it may be above.'] * below


def about_measures(*measures: dict[str, Any]) -> list[str]:
    """The lines below a table of measures."""
    return ['Higher is better; of Brier, which scores the announced rates, lower.', *about_sign(*measures)]


# compare

def price_data(price: Sequence[int]) -> dict[str, int]:
    return {'u': price[0], 'v': price[1]}


def share_cost_data(cost: Fraction, grades: Grades) -> dict[str, Any]:
    """A cost on shares, over DS."""
    _, defaults, survivors = totals(grades)
    return fraction_data(int(cost * defaults * survivors), defaults * survivors)


def costs_data(first: Scale, second: Scale, price: Sequence[int], shares: bool = False) -> dict[str, Any]:
    (one, cost), (other, second_cost) = (cheapest(scale.grades, *price, shares) for scale in (first, second))
    cheaper = 'first' if cost < second_cost else 'second' if second_cost < cost else 'both'
    if shares:
        cost, second_cost = share_cost_data(cost, first.grades), share_cost_data(second_cost, second.grades)
    return {**price_data(price), 'first': {'cutoff': one, 'cost': cost}, 'second': {'cutoff': other, 'cost': second_cost}, 'cheaper': cheaper}


def ranges_data(first: Scale, second: Scale, shares: bool = False) -> list[dict[str, Any]]:
    found = ranges_by_definition(*([(n, d) for n, d, _ in scale.grades] for scale in (first, second)), shares)
    return [{'from': price_data(each.start), 'to': price_data(each.end), 'includes_from': each.includes_start,
             'includes_to': each.includes_end, 'cheaper': each.cheaper} for each in found]


def verdict_of(ranges: Sequence[dict]) -> str:
    """The verdict: who is cheaper anywhere."""
    found = {each['cheaper'] for each in ranges}
    return 'crossing' if {'first', 'second'} <= found else 'first' if 'first' in found else 'second' if 'second' in found else 'equal'


def about_costs(first: Scale, second: Scale, shares: bool) -> list[str]:
    """The lines on what a cutoff costs."""
    cutoffs = 'Cutoff g turns away the g worst grades. A scale costs what its cheapest cutoff costs; at 0:1 and at 1:0 that is nothing.'
    if not shares:
        return ['Prices are u for each default that a cutoff misses and v for each survivor that it turns away; only their ratio u:v matters.',
                cutoffs]
    (_, d1, s1), (_, d2, s2) = totals(first.grades), totals(second.grades)
    return ["A cutoff costs u times the share of its book's defaults that it misses plus v times the share of its book's survivors that it "
            'turns away.', 'Only the ratio u:v matters. Prices of p for each default and q for each survivor are u:v = '
            f'{d1}p:{s1}q in the book of {first.name}, {d2}p:{s2}q in that of {second.name}.', cutoffs]


def compare_data(first: Scale, second: Scale, prices: Sequence[tuple], separating: Sequence[tuple], shares: bool) -> dict[str, Any]:
    """The whole answer save the sentence. The separating prices are free, so that they are taken from the answer."""
    ranges = ranges_data(first, second, shares)
    return {'command': 'compare', 'first': rater_data(first), 'second': rater_data(second), 'shares': shares,
            'verdict': verdict_of(ranges), 'ranges': ranges,
            'separating': [costs_data(first, second, price, shares) for price in separating],
            'prices': [costs_data(first, second, price, shares) for price in prices],
            'measures': {'first': measures_data(first.grades), 'second': measures_data(second.grades)},
            'changes': {'first': None, 'second': None}, 'before': None}


# shortlist

def is_better(one: Rows, other: Rows) -> bool:
    """R-7: "better means at least as good, and not the reverse"."""
    return {each.cheaper for each in ranges_by_definition(one, other)} - {'both'} == {'first'}


def shortlist_by_definition(raters: Sequence[Rows]) -> list[int]:
    """R-7: "the raters for which no other rater of the book is better, in book order"."""
    return [number for number, rater in enumerate(raters, 1) if not any(is_better(other, rater) for other in raters)]


def shortlist_data(raters: Sequence[Scale], prices: Sequence[tuple]) -> dict[str, Any]:
    """The whole answer. The prices at which a rater costs more than the first listed one that is better are free, so that they are given."""
    rows = [[(n, d) for n, d, _ in rater.grades] for rater in raters]
    listed = shortlist_by_definition(rows)
    beaten = [(number, next(better for better in listed if is_better(rows[better - 1], rows[number - 1])))
              for number in range(1, len(raters) + 1) if number not in listed]
    return {'command': 'shortlist', 'raters': [{**line_data(rater), 'number': number} for number, rater in enumerate(raters, 1)], 'listed': listed,
            'beaten': [{'rater': number, 'by': better, 'costs': costs_data(raters[better - 1], raters[number - 1], price)}
                       for (number, better), price in zip(beaten, prices)]}


# show

def grades_data(scale: Scale, repeated: bool) -> list[dict[str, Any]]:
    """The grades. Of an empty one what is repeated for it is there only where that is asked for."""
    found, labels = [], scale.labels or [''] * len(scale.rows)
    blocks, sources = pooled(scale.grades), repeats(scale.grades)
    for at, (n, d, announced) in enumerate(scale.grades):
        block = (None,) * 3 if n == 0 and not repeated else blocks[at]
        found.append({'grade': at + 1, 'label': labels[at], 'obligors': n, 'survivors': n - d, 'defaults': d, 'announced_ppm': announced,
                      'block_defaults': block[0], 'block_obligors': block[1], 'band': block[2],
                      'repeats': sources[at] if repeated else None})
    return found


def about_empty(grades: Grades, repeated: bool) -> list[str]:
    """The lines about empty grades: of each run of them one with what it repeats, or one for all that says how to ask for that."""
    lines, sources = [], repeats(grades)
    for number in range(1, len(grades) + 1):
        if grades[number - 1][0] or number > 1 and not grades[number - 2][0]:
            continue  # no empty grade, or not the first of its run
        last = number
        while last < len(grades) and not grades[last][0]:
            last += 1
        run = {0: f'Grade {number} is', 1: f'Grades {number} and {last} are'}.get(last - number, f'Grades {number} to {last} are')
        which = 'the best occupied one, since none is better' if number == 1 else 'the next better occupied one'
        for_it = 'it' if last == number else 'them'
        lines.append(f'{run} empty: pool repeats for {for_it} the numbers of grade {sources[number - 1]}, {which}.')
    unasked = 'An empty grade, with no obligors, has no observed and no pooled rate (-); --repeated shows what pool repeats for it.'
    return lines if repeated else [unasked][:len(lines)]


def line_data(scale: Scale) -> dict[str, Any]:
    """A rater of several. One without rows stands for one that is refused."""
    if not scale.rows:
        return {'number': scale.number, 'name': scale.name, 'rater': None, 'blocks': None, 'measures': None}
    blocks = len({Fraction(block.defaults, block.obligors) for block in pooled(scale.grades)})  # of different blocks rates differ
    return {'number': scale.number, 'name': scale.name, 'rater': rater_data(scale), 'blocks': blocks,
            'measures': measures_data(scale.grades)}
