"""`desk shortlist`: all raters at a glance, which of them no other one beats, and who beats the others at which prices."""
from __future__ import annotations

from itertools import combinations
from typing import Any, NamedTuple, Sequence

from ..answers import Cutoff, Kind, Price
from ..book import encode
from ..costs import compared
from ..raters import at_fault, shortlist as listed_in
from ..refusals import Refused
from ..table import Table
from . import questions
from .compare import BY_COUNTS, CUTOFFS, cost_data, costs, cutoff_text, loaded, separating, totals_of
from .inputs import Rater, Source, accepted, read_all, too_many
from .layout import columns, counted, plain, shown
from .outcome import Complaint, NotTaken, Outcome, Question
from .show import LINE_HEADING, about_sign, line_of

ABOUT_LIST = ('A rater is listed where no other one is better: costs more than it at no prices, and less at some. Of raters that are equal all are '
              'listed or none.')


def shortlist(files: Sequence[str], library: str) -> Outcome:
    """The raters of these files, taken as one book in this order, and its shortlist."""
    sources, complaints = read_all(files)
    raters = named_by_file(sources)
    tables = accepted(raters, complaints + too_many(raters))
    lines = [line_of(rater, library) for rater in raters]
    asked = [question for source in sources for question in source.questions]
    asked += [question for _, _, of_line, _ in lines for question in of_line] + of_totals(tables)
    listed = judged(files, tables, library, asked)
    beaten = [beaten_by(number, listed, tables, library) for number in range(1, len(tables) + 1) if number not in listed]
    data = [{**found, 'number': number} for number, (_, found, _, _) in enumerate(lines, 1)]
    rows = [(str(number), shown(rater.name), 'yes' if number in listed else 'no', *cells)
            for number, (rater, (cells, _, _, _)) in enumerate(zip(raters, lines), 1)]
    text = '\n'.join([heading(files, raters, listed), '', *columns([('rater', 'name', 'listed', *LINE_HEADING), *rows], 'r  rrrrrrrrrrr'),
                      *about_sign([found['measures'] for found in data]), '', ABOUT_LIST, *beaten_text(beaten, raters)])
    return Outcome(text, {'command': 'shortlist', 'raters': data, 'listed': listed, 'beaten': [each.data() for each in beaten]}, asked)


def named_by_file(sources: Sequence[Source]) -> list[Rater]:
    """All raters. Where there are several files, one that has but its number in its file is called by that file too."""
    def name(source: Source, rater: Rater) -> str:
        numbered = len(sources) > 1 and len(source.raters) > 1 and rater.own_name is None
        return f'{rater.name} of {rater.file}' if numbered else rater.name
    return [rater._replace(name=name(source, rater)) for source in sources for rater in source.raters]


def of_totals(tables: Sequence[Table]) -> list[Question]:
    """Whether survivors stand for obligors somewhere: of those with the same totals the first stands for all."""
    firsts: dict[tuple[int, int], Table] = {}
    for table in tables:
        firsts.setdefault((table.defaults, table.survivors), table)
    return [question for pair in combinations(firsts.values(), 2) for question in questions.of_pair(*pair)]


def judged(files: Sequence[str], tables: Sequence[Table], library: str, asked: Sequence[Question]) -> list[int]:
    """The library's shortlist, or its refusal with the raters at fault."""
    try:
        return listed_in(encode([(table.counts, table.rows) for table in tables]), library)
    except Refused as refused:
        why = totals_of([tables[rater - 1] for rater in at_fault(refused.number, tables)])
        raise NotTaken([Complaint(refused.number, ', '.join(files), why)], asked) from None


class Beaten(NamedTuple):
    """A rater that is not listed, a listed one that is better, and what both cost at prices that show it, the better one first."""
    rater: int
    by: int
    price: Price
    costs: tuple[Cutoff, Cutoff]

    def data(self) -> dict[str, Any]:
        return {'rater': self.rater, 'by': self.by, 'costs': cost_data(self.price, self.costs)}


def beaten_by(rater: int, listed: Sequence[int], tables: Sequence[Table], library: str) -> Beaten:
    """The first listed rater that is better than this one, by the library's own comparison."""
    for better in listed:
        comparison = compared(loaded([tables[better - 1], tables[rater - 1]], library), shares=False)
        if comparison.verdict.kind is Kind.FIRST:
            price, = separating(comparison.verdict)
            return Beaten(rater, better, price, costs(comparison, price))
    raise AssertionError(f'rater {rater} is not listed, and none of {listed} is better')


# As text

def label(number: int, raters: Sequence[Rater]) -> str:
    return f'{number} ({shown(raters[number - 1].name)})'


def heading(files: Sequence[str], raters: Sequence[Rater], listed: Sequence[int]) -> str:
    return (f'{", ".join(map(plain, files))}: {counted(len(raters), "rater")}; on the shortlist: '
            f'{", ".join(label(number, raters) for number in listed)}')


def beaten_text(beaten: Sequence[Beaten], raters: Sequence[Rater]) -> list[str]:
    if not beaten:
        return []
    rows = [(label(each.rater, raters), label(each.by, raters), str(each.price),
             *(cutoff_text(raters[number - 1], cost) for number, cost in zip((each.by, each.rater), each.costs))) for each in beaten]
    return [BY_COUNTS, CUTOFFS, '', *columns([('not listed', 'better', 'prices u:v', 'the better one', 'the one not listed'), *rows])]
