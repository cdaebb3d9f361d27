"""What should be asked back: signs that a table is not what its author meant. A question never changes an answer."""
from __future__ import annotations

from math import log10
from typing import Iterator

from ..answers import Measures
from ..table import Table, ends_in_total
from .outcome import Question

PPM = 1_000_000
# Units that rates are written in by mistake: the power of ten by which they fall short of ppm.
UNITS = {2: 'basis points (1 is 100 ppm)', 3: 'per mille (1 is 1,000 ppm)', 4: 'percent (1 is 10,000 ppm)',
         6: 'shares of 1 (1 is 1,000,000 ppm)'}


def of_pair(first: Table, second: Table) -> Iterator[Question]:
    """Whether survivors stand for obligors in one of two tables whose totals differ."""
    if (first.defaults, first.survivors) == (second.defaults, second.survivors):
        return
    for one, other in ((first, second), (second, first)):
        if one.obligors != other.survivors or not other.defaults:  # without defaults all are survivors, which says nothing
            continue
        same = f'{one.name} has as many obligors as {other.name} has survivors ({one.obligors})'
        if one.counts == 'obligors' and other.counts == 'survivors':
            yield Question('first_column', f'{same}: does the first column of {one.name} count survivors, or that of {other.name} '
                                           'obligors?')
        elif one.counts == 'obligors':
            yield Question('first_column', f'{same}: does its first column count survivors?')
        elif other.counts == 'survivors':
            yield Question('first_column', f'{same}: does the first column of {other.name} count obligors?')


def of_table(table: Table) -> Iterator[Question]:
    """Whether the announced rates are in another unit, and whether the last row is a total."""
    announced = sum(grade.obligors * grade.announced for grade in table.grades)
    if table.defaults and announced:
        power = round(log10(table.defaults * PPM / announced))
        if power in UNITS:
            yield Question('unit', f'the announced rates of {table.name} are about 1/{10 ** power} of the observed ones: they look like '
                                   f'{UNITS[power]}, and are taken for ppm')
        elif abs(power) >= 2:
            yield Question('unit', f'the announced rates of {table.name} are about {"1/" if power > 0 else ""}{10 ** abs(power)} '
                                   f'{"of" if power > 0 else "times"} the observed ones: are they in ppm?')
    if ends_in_total(table.rows):
        yield Question('total', f'the last grade of {table.name} has as many obligors and defaults as all others together: is it a total?')


def of_measures(table: Table, measures: Measures) -> Iterator[Question]:
    """Whether the best grade stands last."""
    if measures.gini < 0:
        yield Question('direction', f'the scale of {table.name} looks upside down: its Gini is negative, {measures.gini}, so its better '
                                    'grades defaulted more often. Is its first row the best grade?')
