"""`desk compare`: which of two scales is better, at which prices, and what each costs at the analyst's own."""
from __future__ import annotations

from fractions import Fraction
from typing import Any, NamedTuple, Sequence

from ..answers import Cutoff, Kind, Price, Verdict, decimal
from ..costs import Comparison, compared
from ..desk import Desk
from ..ranges import BOTH, FIRST, HIGHEST, LOWEST, SECOND, PriceRange, price_ranges
from ..refusals import Refused
from ..table import MAX_OBLIGORS_ON_SHARES, Table
from . import questions
from .after import apart
from .booking import Booked, booked
from .files import see_once
from .inputs import Rater, Source, accepted, read_source, told_apart
from .layout import columns, counted, shown
from .outcome import Complaint, NotTaken, Outcome, Question, WrongUsage
from .show import fraction_data, measured, measures_table, summary, summary_data

BY_COUNTS = 'Prices are u for each default that a cutoff misses and v for each survivor that it turns away; only their ratio u:v matters.'
ON_SHARES = ("A cutoff costs u times the share of its book's defaults that it misses plus v times the share of its book's survivors that it turns "
             'away.')
CUTOFFS = 'Cutoff g turns away the g worst grades. A scale costs what its cheapest cutoff costs; at 0:1 and at 1:0 that is nothing.'
OWN_BOOKS = " Costs go by shares of each book's own defaults and survivors."
INSTEAD = f'. With --shares scales of different books are compared, of at most {MAX_OBLIGORS_ON_SHARES} obligors each'


def compare(words: Sequence[str], prices: Sequence[Price], shares: bool, library: str) -> Outcome:
    """The verdict on two raters, by counts or on shares: of `FILE`, `FILE A B`, `FILE FILE` or `FILE FILE A B`, each after the sheet of changes
    behind it."""
    words, sheets = apart(words)
    raters, asked = chosen(words, sheets)
    changes = booked_on(raters, sheets, library, asked)
    raters = told_apart(*(each.after.rater if each else rater for each, rater in zip(changes, raters)))
    tables = [rater.table() for rater in raters]
    desk = loaded(tables, library)
    for table in tables:
        asked += questions.of_table(table)
    asked += questions.of_pair(*tables)
    comparison, ranges = judged(desk, tables, shares, asked)
    verdict = comparison.verdict
    priced = [(price, costs(comparison, price)) for price in separating(verdict)]
    own = [(price, asked_costs(comparison, price, asked)) for price in prices]
    measures = [measured(desk, place, table) for place, table in enumerate(tables, 1)]
    asked += [question for each in measures for question in each.questions]
    names = [shown(rater.name) for rater in raters]
    sentence, before = sentence_of(verdict, names, shares), earlier(changes, raters, shares, library)
    text = '\n'.join([summary(rater, table) for rater, table in zip(raters, tables)] + ['', *(before.told(sentence) if before else [sentence]), '']
                     + ([ON_SHARES, one_by_one(tables, names)] if shares else [BY_COUNTS]) + [CUTOFFS]
                     + (before.ranges_text(names, shares) if before else [])
                     + ranges_text(ranges, verdict, names, shares) + costs_text(priced + own, raters, shares) + ['']
                     + measures_table(measures, names))
    data = {'command': 'compare', 'first': summary_data(raters[0], tables[0]), 'second': summary_data(raters[1], tables[1]),
            'shares': shares, 'verdict': verdict.kind.name.lower(), 'sentence': sentence, 'ranges': [range_data(each) for each in ranges],
            'separating': [cost_data(*each) for each in priced], 'prices': [cost_data(*each) for each in own],
            'measures': {'first': measures[0].data(), 'second': measures[1].data()},
            'changes': {place: each and each.data() for place, each in zip((FIRST, SECOND), changes)}, 'before': before and before.data()}
    return Outcome(text, data, asked)


def sentence_of(verdict: Verdict, names: Sequence[str], shares: bool) -> str:
    return verdict.sentence(*names) + (OWN_BOOKS if shares else '')


# Which raters

def chosen(words: Sequence[str], sheets: Sequence[str | None]) -> tuple[list[Rater], list[Question]]:
    """The two raters that the words name, whose tables load accepts, and what their files should be asked. Sheets of changes are read too."""
    files, names = (words[:1], words[1:]) if len(words) in (1, 3) else (words[:2], words[2:])
    see_once([*files, *filter(None, sheets)])
    sources = [read_source(file) for file in files]
    if names:
        raters = [source.rater(word) for source, word in zip((sources[0], sources[-1]), names)]
    else:
        raters = [rater for source in sources for rater in all_of(source, 3 - len(sources))]
    accepted(raters)
    return raters, [question for source in sources for question in source.questions]


def all_of(source: Source, count: int) -> Sequence[Rater]:
    """All raters of a file, if it has just so many: two where it is the only file, else one."""
    if len(source.raters) == count:
        return source.raters
    if count == 1:
        instead = 'Name a rater of each file behind the files, as in: desk compare FILE FILE 1 2'
    elif len(source.raters) == 1:
        instead = f'Name another file behind it, as in: desk compare {source.file} FILE'
    else:
        instead = f'Name two of them behind the file, as in: desk compare {source.file} 1 2'
    raise WrongUsage(f'{source.file} has {counted(len(source.raters), "rater")}: {source.names()}. {instead}')


# Before and after

def booked_on(raters: Sequence[Rater], sheets: Sequence[str | None], library: str, asked: Sequence[Question]) -> list[Booked | None]:
    """What the sheets make of both raters, None where there is none; or all that is refused of either sheet."""
    found, refusals = [], []
    for rater, sheet in zip(raters, sheets):
        try:
            found.append(None if sheet is None else booked(rater, sheet, library))
        except NotTaken as not_taken:
            refusals += not_taken.refusals
    if refusals:
        raise NotTaken(refusals, asked)
    return found


class Earlier(NamedTuple):
    """What the comparison was before the changes: the verdict and the ranges, or why there was none."""
    verdict: Verdict | None
    ranges: Sequence[PriceRange]
    sentence: str

    def told(self, now: str) -> list[str]:
        return [f'Before the changes: {self.sentence}', f'After the changes: {now}']

    def ranges_text(self, names: Sequence[str], shares: bool) -> list[str]:
        return ranges_text(self.ranges, self.verdict, names, shares, ' before') if self.verdict else []

    def data(self) -> dict[str, Any]:
        return {'verdict': self.verdict and self.verdict.kind.name.lower(), 'sentence': self.sentence,
                'ranges': [range_data(each) for each in self.ranges]}


def earlier(changes: Sequence[Booked | None], raters: Sequence[Rater], shares: bool, library: str) -> Earlier | None:
    """The comparison of the same raters without the changes; None where there are none."""
    if not any(changes):
        return None
    tables = [(each.before.rater if each else rater)._replace(name=rater.name).table() for each, rater in zip(changes, raters)]
    try:
        comparison, ranges = judged(loaded(tables, library), tables, shares, [])
    except NotTaken as not_taken:
        return Earlier(None, [], str(not_taken))
    return Earlier(comparison.verdict, ranges, sentence_of(comparison.verdict, [shown(rater.name) for rater in raters], shares))


# The comparison

def loaded(tables: Sequence[Table], library: str) -> Desk:
    """A desk with these tables in its places."""
    desk = Desk(library)
    for place, table in enumerate(tables, 1):
        desk.load(place, table)
    return desk


def judged(desk: Desk, tables: Sequence[Table], shares: bool, asked: list[Question]) -> tuple[Comparison, list[PriceRange]]:
    try:
        return compared(desk, shares), price_ranges(desk, shares)
    except Refused as refused:
        both = f'{tables[0].name} against {tables[1].name}'
        raise NotTaken([Complaint(refused.number, both, why_not(refused.number, tables))], asked) from None


def why_not(number: int, tables: Sequence[Table]) -> str:
    """Why two tables are not compared: which ones are too large for shares, or their totals. Where these differ there is another way."""
    if number == 35:
        large = ', '.join(f'{table.name} has {table.obligors} obligors' for table in tables if table.obligors > MAX_OBLIGORS_ON_SHARES)
        return f'{large}; on shares tables of at most {MAX_OBLIGORS_ON_SHARES} are compared'
    return totals_of(tables) + (INSTEAD if number == 25 else '')


def totals_of(tables: Sequence[Table]) -> str:
    return ', '.join(f'{table.name} has {counted(table.defaults, "default")} and {counted(table.survivors, "survivor")}' for table in tables)


# Prices

def separating(verdict: Verdict) -> list[Price]:
    """The prices that the verdict carries, in the smallest whole numbers."""
    return [price.reduced() for price in (verdict.first_dearer, verdict.second_dearer) if price]


def costs(comparison: Comparison, price: Price) -> tuple[Cutoff, Cutoff]:
    return comparison.first.cheapest(*price), comparison.second.cheapest(*price)


def asked_costs(comparison: Comparison, price: Price, asked: list[Question]) -> tuple[Cutoff, Cutoff]:
    """The same at prices of the command line, which may be too high by counts."""
    try:
        return costs(comparison, price)
    except Refused as refused:
        raise NotTaken([Complaint.of(refused, f'the prices {price}')], asked) from None


def one_by_one(tables: Sequence[Table], names: Sequence[str]) -> str:
    """What an analyst's prices for single obligors are on shares: D defaults cost D times as much as one."""
    first, second = (f'{table.defaults}p:{table.survivors}q' for table in tables)
    return (f'Only the ratio u:v matters. Prices of p for each default and q for each survivor are u:v = {first} in the book of {names[0]}, '
            f'{second} in that of {names[1]}.')


def cheaper_of(found: tuple[Cutoff, Cutoff]) -> str:
    first, second = found
    return FIRST if first.cost < second.cost else SECOND if second.cost < first.cost else BOTH


def in_words(cheaper: str, names: Sequence[str]) -> str:
    return {FIRST: names[0], SECOND: names[1], BOTH: 'both cost the same'}[cheaper]


def ratio(price: Price, shares: bool) -> str:
    """A price ratio; on shares, where its numbers may be long, behind its decimal."""
    return f'{decimal(Fraction(*price), 6)} ({price})' if shares and price.v else str(price)


def interval(found: PriceRange, shares: bool) -> str:
    """The ratios of a range in words. At the two ends every scale costs nothing, so they are not named."""
    start, end = ratio(found.start, shares), ratio(found.end, shares)
    if found.start == found.end:
        return f'at {start}'
    if found.start == LOWEST:
        return 'all' if found.end == HIGHEST else f'{"up to" if found.includes_end else "below"} {end}'
    if found.end == HIGHEST:
        return f'{"from" if found.includes_start else "above"} {start}{" on" if found.includes_start else ""}'
    return f'from {start} to {end}' if found.includes_start else f'between {start} and {end}'


def ranges_text(ranges: Sequence[PriceRange], verdict: Verdict, names: Sequence[str], shares: bool, when: str = '') -> list[str]:
    if verdict.kind is Kind.EQUAL:
        return []
    rows = [(interval(each, shares), in_words(each.cheaper, names)) for each in ranges
            if each.start != each.end or each.start not in (LOWEST, HIGHEST)]
    return [''] + columns([(f'price ratio u:v{when}', f'cheaper{when}'), *rows])


def costs_text(priced: Sequence[tuple], raters: Sequence[Rater], shares: bool) -> list[str]:
    if not priced:
        return []
    names = [shown(rater.name) for rater in raters]
    rows = [(ratio(price, shares), *map(cutoff_text, raters, found), in_words(cheaper_of(found), names)) for price, found in priced]
    return [''] + columns([('prices u:v', *names, 'cheaper'), *rows])


def cutoff_text(rater: Rater, found: Cutoff) -> str:
    """A cutoff with its cost, and the best grade that it turns away where the grades have names."""
    grade = f' (from {shown(rater.labels[-found.cutoff])})' if rater.labels and found.cutoff else ''
    return f'cutoff {found.cutoff}{grade}, cost {found.cost}'


# As data

def price_data(price: Price) -> dict[str, int]:
    return {'u': price.u, 'v': price.v}


def range_data(found: PriceRange) -> dict[str, Any]:
    return {'from': price_data(found.start), 'to': price_data(found.end), 'includes_from': found.includes_start,
            'includes_to': found.includes_end, 'cheaper': found.cheaper}


def cutoff_data(found: Cutoff) -> dict[str, Any]:
    return {'cutoff': found.cutoff, 'cost': found.cost if isinstance(found.cost, int) else fraction_data(found.cost)}


def cost_data(price: Price, found: tuple[Cutoff, Cutoff]) -> dict[str, Any]:
    first, second = map(cutoff_data, found)
    return {**price_data(price), 'first': first, 'second': second, 'cheaper': cheaper_of(found)}
