"""Text as it is printed: columns, rates, names that may hold anything."""
from __future__ import annotations

from fractions import Fraction
from typing import Sequence

from ..answers import decimal

MOST_OF_A_NAME, LEAST_OF_A_NAME = 40, 20
NONE = '-'  # in place of a figure that there is not


def plain(text: str) -> str:
    """The same with nothing in it that a terminal would obey."""
    return ''.join(each if each.isprintable() else ascii(each)[1:-1] for each in text)


def shortened(name: str, most: int) -> str:
    return name if len(name) <= most else name[:most - 3] + '...'


def shown(name: str) -> str:
    """A name for a table: plain, and not too long."""
    return plain(shortened(name, MOST_OF_A_NAME))


def percent(rate: Fraction | None) -> str:
    """A rate in percent to four places, which show every ppm; exact, where a float would round otherwise. A dash where there is none.

    >>> percent(Fraction(1, 3)), percent(Fraction(3, 2_000_000)), percent(None)
    ('33.3333%', '0.0002%', '-')
    """
    return NONE if rate is None else f'{decimal(100 * rate, 4)}%'


def columns(rows: Sequence[Sequence[str]], right: str = '') -> list[str]:
    """Lines of cells in columns; those that `right` has an r for end at the same character."""
    widths = [max(map(len, cells)) for cells in zip(*rows)]
    sides = right.ljust(len(widths))

    def line(row: Sequence[str]) -> str:
        cells = [cell.rjust(width) if side == 'r' else cell.ljust(width) for cell, width, side in zip(row, widths, sides)]
        return '  '.join(cells).rstrip()
    return [line(row) for row in rows]


def counted(number: int, thing: str) -> str:
    """A number with its noun: 1 grade, 2 grades."""
    return f'{number} {thing}{"" if number == 1 else "s"}'


def ordinal(number: int) -> str:
    """
    >>> ' '.join(map(ordinal, (1, 2, 3, 4, 11, 12, 21, 102, 113)))
    '1st 2nd 3rd 4th 11th 12th 21st 102nd 113th'
    """
    ending = 'th' if 10 < number % 100 < 14 else {1: 'st', 2: 'nd', 3: 'rd'}.get(number % 10, 'th')
    return f'{number}{ending}'
