"""Document 01's definitions, computed plainly for the tests that hold answers to them; of document 02, R-1, R-4, R-5, R-6 and R-8.

A grade is its obligors, its defaults and its announced rate in ppm. Everything is exact: whole numbers and fractions.
"""
from __future__ import annotations

from fractions import Fraction
from math import floor
from typing import List, NamedTuple, Sequence, Tuple

Grades = Sequence[Tuple[int, int, int]]
PPM = 1_000_000


def grades_of(counts: str, rows: Grades) -> List[Tuple[int, int, int]]:
    """The grades of a table by what its first column counts."""
    return [(first + defaults if counts == 'survivors' else first, defaults, announced) for first, defaults, announced in rows]


def totals(grades: Grades) -> tuple[int, int, int]:
    """N, D and S."""
    obligors, defaults = sum(n for n, _, _ in grades), sum(d for _, d, _ in grades)
    return obligors, defaults, obligors - defaults


# What load refuses

def row_faults(counts: str, rows: Grades) -> list[tuple[int, int | None]]:
    """Each number that load has for these rows in its order, with the row, counted from 0: row by row 8, 10, then by R-5 "A rate below that of
    the row before is 34, tested in each row after 10"; then 9 and 11, which have no row. Behind a rate that is 10 itself no fall is told."""
    found: list[tuple[int, int | None]] = []
    for row, (first, defaults, announced) in enumerate(rows):
        before = rows[row - 1][2] if row else 0
        found += [(8, row)] * (counts == 'obligors' and defaults > first)
        found += [(10, row)] * (announced > PPM)
        found += [(34, row)] * (announced < before <= PPM)
    obligors = totals(grades_of(counts, rows))[0]
    empty = all(row[:2] == (0, 0) for row in rows)
    return found + [(9, None)] * empty + [(11, None)] * (obligors > 1_000_000)


# Firms that come and go

# "a survivor enters, a survivor leaves, a survivor defaults, a defaulted firm is removed": what each adds to n and d of its grade.
EVENTS = {'survivor_enters': (1, 0), 'survivor_leaves': (-1, 0), 'survivor_defaults': (0, 1), 'defaulted_removed': (-1, -1)}


def event_fault(event: str, grades: Grades, grade: int) -> int | None:
    """R-8: "36 for a grade outside the table, 37 for a grade without such a firm or a leaving or removal of the table's last obligor, and 38
    for an entry beyond 1,000,000". Grades are counted from 1."""
    if not 1 <= grade <= len(grades):
        return 36
    (n, d, _), obligors = grades[grade - 1], totals(grades)[0]
    if event == 'survivor_enters':
        return 38 if obligors == 1_000_000 else None
    firms = d if event == 'defaulted_removed' else n - d
    goes = event != 'survivor_defaults'
    return 37 if firms == 0 or goes and obligors == 1 else None


def after_event(event: str, grades: Grades, grade: int) -> list[tuple[int, int, int]]:
    """The grades after an event that is accepted. R-8: "Announced rates, other grades' counts .. are untouched"."""
    (obligors, defaults), (n, d, announced) = EVENTS[event], grades[grade - 1]
    return [*grades[:grade - 1], (n + obligors, d + defaults, announced), *grades[grade:]]


# Cutoffs and prices

def cost(grades: Grades, cutoff: int, u: int, v: int) -> int:
    accepted, away = grades[:len(grades) - cutoff], grades[len(grades) - cutoff:]
    return u * sum(d for _, d, _ in accepted) + v * sum(n - d for n, d, _ in away)


def share_cost(grades: Grades, cutoff: int, u: int, v: int) -> Fraction:
    """R-6: "a cutoff costs u(D − y)/D + vx/S". There must be defaults and survivors."""
    _, defaults, survivors = totals(grades)
    accepted, away = grades[:len(grades) - cutoff], grades[len(grades) - cutoff:]
    return u * Fraction(sum(d for _, d, _ in accepted), defaults) + v * Fraction(sum(n - d for n, d, _ in away), survivors)


def cheapest(grades: Grades, u: int, v: int, shares: bool = False) -> tuple[int, int | Fraction]:
    """The smallest cutoff that costs least, by counts or on shares, and what it costs."""
    costs = [(share_cost if shares else cost)(grades, cutoff, u, v) for cutoff in range(len(grades) + 1)]
    return costs.index(min(costs)), min(costs)


# Pooling

class Block(NamedTuple):
    defaults: int
    obligors: int
    band: int


def pooled(grades: Grades) -> list[Block]:
    """What pool writes of each grade: the block of an occupied one, and for an empty one what is repeated."""
    blocks = iter(pooled_occupied([grade for grade in grades if grade[0]]))
    found = {number: next(blocks) for number, (n, _, _) in enumerate(grades, 1) if n}
    return [found[repeated or number] for number, repeated in enumerate(repeats(grades), 1)]


def repeats(grades: Grades) -> list[int | None]:
    """For each empty grade the one whose numbers pool repeats, counted from 1. R-4: "the next better occupied grade, or .. the best
    occupied grade if none is better"."""
    found: list[int | None] = []
    for number, (n, _, _) in enumerate(grades, 1):
        nearest = [*range(number - 1, 0, -1), *range(number + 1, len(grades) + 1)]  # better ones, the next first; then worse ones
        found.append(None if n else next(other for other in nearest if grades[other - 1][0]))
    return found


def pooled_occupied(grades: Grades) -> list[Block]:
    """The block of each grade: the grades of one monotone rate, which is the largest over starts of the smallest over ends of the mean."""
    count = range(len(grades))
    mean = {(start, end): Fraction(sum(d for _, d, _ in grades[start:end + 1]), sum(n for n, _, _ in grades[start:end + 1]))
            for start in count for end in range(start, len(grades))}
    rates = [max(min(mean[start, end] for end in range(grade, len(grades))) for start in range(grade + 1)) for grade in count]
    found = []
    for rate in rates:
        block = [grade for grade, other in zip(grades, rates) if other == rate]
        found.append(Block(sum(d for _, d, _ in block), sum(n for n, _, _ in block), band(rate)))
    return found


def band(rate: Fraction) -> int:
    return next((b for b in range(14) if rate <= Fraction(100 * 2 ** b, PPM)), 14)


# Measures

def pairs(grades: Grades) -> tuple[int, int, int]:
    """C, X and T."""
    concordant = discordant = tied = 0
    for i, (_, d, _) in enumerate(grades):
        for j, (n, defaults, _) in enumerate(grades):
            both = d * (n - defaults)
            if i > j:
                concordant += both
            elif i < j:
                discordant += both
            else:
                tied += both
    return concordant, discordant, tied


def measures(grades: Grades) -> dict[str, tuple[int, int]]:
    """Gini, ROC area, CAP area and Pietra as numerators and denominators, and Pietra's cutoff. There must be defaults and survivors.

    Pietra is document 02's, R-1: the height of largest absolute size, at the first cutoff that has that size."""
    obligors, defaults, survivors = totals(grades)
    c, x, t = pairs(grades)
    heights = []
    for cutoff in range(len(grades) + 1):
        away = grades[len(grades) - cutoff:]
        heights.append(sum(d for _, d, _ in away) * survivors - sum(n - d for n, d, _ in away) * defaults)
    sizes = [abs(height) for height in heights]
    cutoff = sizes.index(max(sizes))
    return {'gini': (c - x, defaults * survivors), 'roc': (2 * c + t, 2 * defaults * survivors),
            'cap': (defaults * obligors + c - x, 2 * defaults * obligors), 'pietra': (heights[cutoff], defaults * survivors),
            'pietra_cutoff': cutoff}


def measures_refusal(grades: Grades) -> int | None:
    _, defaults, survivors = totals(grades)
    return 23 if not defaults else 24 if not survivors else None


def brier(grades: Grades) -> tuple[int, int]:
    return sum(d * (PPM - p) ** 2 + (n - d) * p ** 2 for n, d, p in grades), totals(grades)[0] * 10 ** 12


def spread(grades: Grades) -> tuple[Fraction, Fraction]:
    """The total and the residual, which a float is near: within 1/2^36 and 1/2^29."""
    obligors, defaults, survivors = totals(grades)
    residual, last = Fraction(0), None
    for block in pooled(grades):
        if block != last:
            residual += Fraction(block.defaults * (block.obligors - block.defaults), block.obligors)
        last = block
    return Fraction(defaults * survivors, obligors), residual


# How numbers are printed

def decimal(value: Fraction, places: int) -> str:
    """The nearest decimal of so many places, the one farther from 0 of two; 0 has no sign."""
    scaled = value * 10 ** places
    units = min((floor(scaled), floor(scaled) + 1), key=lambda each: (abs(each - scaled), -abs(each)))
    digits = str(abs(units)).rjust(places + 1, '0')
    return f'{"-" if units < 0 else ""}{digits[:-places]}.{digits[-places:]}'
