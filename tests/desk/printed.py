"""Reads what `desk compare`, `desk shortlist` and `desk show` print back into the figures that their JSON has."""
from __future__ import annotations

from fractions import Fraction
from typing import Any, Sequence
import re

from definitions import decimal

CURVES = ('gini', 'roc', 'cap', 'pietra')
LABELS = ['Gini', 'ROC area', 'CAP area', 'Pietra', 'at cutoff', 'Brier']
FRACTION = re.compile(r'(-?\d+\.\d{6}) \((-?\d+)/(\d+)\)')
SUMMARY = re.compile(r'(.*) \(rater (\d+) of (.*), by (obligors|survivors)\): (\d+) grades?(?: \((\d+) empty\))?, (\d+) obligors = '
                     r'(\d+) survivors \+ (\d+) defaults')
LOWEST, HIGHEST = {'u': 0, 'v': 1}, {'u': 1, 'v': 0}


def sections(text: str) -> list[list[str]]:
    return [section.split('\n') for section in re.split('\n{2,}', text.rstrip('\n'))]


def cells(line: str) -> list[str]:
    """The cells of a line of columns. Names in it must have no two spaces in a row."""
    return re.split('  +', line.strip(' '))


def summary(line: str) -> dict[str, Any]:
    name, number, file, counts, *totals = SUMMARY.fullmatch(line).groups()
    return dict(zip(('name', 'file', 'rater', 'counts', 'grades', 'empty_grades', 'obligors', 'survivors', 'defaults'),
                    (name, file, int(number), counts, *(int(total or 0) for total in totals))))


def fraction(cell: str) -> dict[str, Any] | None:
    if cell.startswith('refused '):
        return None
    rounded, numerator, denominator = FRACTION.fullmatch(cell).groups()
    return {'numerator': int(numerator), 'denominator': int(denominator), 'decimal': rounded}


def measures(lines: Sequence[str], count: int) -> list[dict[str, Any]]:
    """The measures of so many raters, from the rows of their table."""
    rows = [cells(line) for line in lines]
    if [row[0] for row in rows] != LABELS or any(len(row) != count + 1 for row in rows):
        raise AssertionError(f'no table of measures: {lines}')
    found = []
    for at in range(1, count + 1):
        data: dict[str, Any] = {name: fraction(row[at]) for name, row in zip(CURVES, rows)}
        data.update(pietra_cutoff=int(rows[4][at]) if rows[4][at].isdigit() else None, brier=fraction(rows[5][at]))
        found.append(data)
    return found


# compare

def price(words: str) -> dict[str, int]:
    """Prices as u:v; on shares behind the decimal of their ratio, where it has one."""
    before, u, v = re.fullmatch(r'(?:(\d+\.\d{6}) \()?(\d+):(\d+)\)?', words).groups()
    if before and before != decimal(Fraction(int(u), int(v)), 6):
        raise AssertionError(f'{before} is not {u}:{v}')
    return {'u': int(u), 'v': int(v)}


def price_range(words: str) -> dict[str, Any]:
    """The price ratios that some words name, as the JSON has them without who is cheaper."""
    for pattern, includes in (('at (.*)', (True, True)), ('from (.*) to (.*)', (True, True)), ('between (.*) and (.*)', (False, False)),
                              ('(up to) (.*)', (True, True)), ('(below) (.*)', (False, False)), ('from (.*) (on)', (True, True)),
                              ('(above) (.*)', (False, False)), ('(all)', (False, False))):
        found = re.fullmatch(pattern, words)
        if found:
            ends = [price(word) for word in found.groups() if ':' in word]
            start = LOWEST if found[1] in ('up to', 'below', 'all') else ends[0]
            end = HIGHEST if 'on' in found.groups() or found[1] in ('above', 'all') else ends[-1]
            return {'from': start, 'to': end, 'includes_from': includes[0], 'includes_to': includes[1]}
    raise AssertionError(f'no price ratios: {words}')


def who(cell: str, names: Sequence[str]) -> str:
    return {names[0]: 'first', names[1]: 'second', 'both cost the same': 'both'}[cell]


def cutoff(cell: str) -> dict[str, Any]:
    """A cutoff with its cost, a fraction on shares, and the label of the best grade that it turns away."""
    number, _, label, amount = re.fullmatch(r'cutoff (\d+)( \(from (.*)\))?, cost (.*)', cell).groups()
    return {'cutoff': int(number), 'cost': int(amount) if amount.isdigit() else fraction(amount), 'label': label}


def compared(text: str) -> dict[str, Any]:
    """The figures of a comparison, under the keys of its JSON; both lists of costs are one."""
    parts = sections(text)
    first, second = map(summary, parts[0])
    names = [first['name'], second['name']]
    tables = {cells(part[0])[0]: [cells(line) for line in part[1:]] for part in parts[3:-1]}
    costs = tables.get('prices u:v', [])
    return {'first': first, 'second': second, 'sentence': '\n'.join(parts[1]), 'about_costs': parts[2],
            'ranges': [{**price_range(words), 'cheaper': who(cheaper, names)} for words, cheaper in tables.get('price ratio u:v', [])],
            'costs': [{**price(at), 'first': cutoff(a), 'second': cutoff(b), 'cheaper': who(cheaper, names)}
                      for at, a, b, cheaper in costs],
            'headings': cells(parts[-1][0]), 'measures': dict(zip(('first', 'second'), measures(parts[-1][1:7], 2))), 'about': parts[-1][7:]}


# shortlist

def shortlisted(text: str) -> dict[str, Any]:
    """All raters: each a list of its cells; and what both cost where one is not listed, the better one's cost first."""
    parts = sections(text)
    files, count, listed = re.fullmatch(r'(.*): (\d+) raters?; on the shortlist: (.*)', parts[0][0]).groups()
    raters, beaten = parts[1][1:int(count) + 1], [cells(line) for line in parts[3][1:]] if len(parts) > 3 else []
    return {'files': files, 'count': int(count), 'listed': listed.split(', '), 'heading': cells(parts[1][0]),
            'raters': [cells(line) for line in raters], 'about': parts[1][len(raters) + 1:],
            'beaten': [{'rater': rater, 'by': by, 'costs': {**price(at), 'first': cutoff(better), 'second': cutoff(own)}}
                       for rater, by, at, better, own in beaten]}


# show

def in_full(text: str) -> dict[str, Any]:
    """The figures of one rater. A grade is a list of its cells, with its label where it has one."""
    parts = sections(text)
    bands = next(at for at, line in enumerate(parts[1]) if line.startswith('Occupied grades with one pooled rate form a block.'))
    spread = re.fullmatch(r'Spread: (\S+) in all, (\S+) within the blocks\.', parts[-1][-1])
    return {'rater': summary(parts[0][0]), 'heading': cells(parts[1][0]), 'grades': [cells(line) for line in parts[1][1:bands]],
            'about_empty': parts[1][bands + 2:], 'measures': measures(parts[-1][:6], 1)[0], 'about': parts[-1][6:-1],
            'spread': {'total': float(spread[1]), 'residual': float(spread[2])}}


def at_a_glance(text: str) -> dict[str, Any]:
    """All raters of a file: each a list of its cells."""
    heading, table = sections(text)
    file, count = re.fullmatch(r'(.*): (\d+) raters', heading[0]).groups()
    raters = table[1:int(count) + 1]
    return {'file': file, 'count': int(count), 'heading': cells(table[0]), 'raters': [cells(line) for line in raters],
            'about': table[len(raters) + 1:]}
