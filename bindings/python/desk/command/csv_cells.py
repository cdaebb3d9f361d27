"""How one cell is understood: a whole number, and a rate in ppm, percent or per mille.

A cell that may mean two things is not understood. What is said of it then is what to write instead.
"""
from __future__ import annotations

import re
from typing import Callable, NamedTuple

from .csv_problems import cited

SPACES = ' \u00a0\u202f\u2009'  # space, no-break, narrow no-break, thin
PLAIN = re.compile('[0-9]{1,18}')
GROUPED = re.compile(f"[1-9][0-9]{{0,2}}(?:([{SPACES}'\u2019])[0-9]{{3}}(?:\\1[0-9]{{3}}){{0,4}}|([,.])[0-9]{{3}}(?:\\2[0-9]{{3}}){{1,4}})")
DECIMAL = re.compile('([0-9]{1,18})(?:([,.])([0-9]{1,18}))?')
SHARE = re.compile('([0-9]{0,18})[,.]([0-9]{1,18})')
LONGEST = 60  # characters of a cell that is looked at for what it may mean
EXPECTED = 'expected a whole number in plain decimal digits'


class NotUnderstood(Exception):
    """Why a cell is not taken, and what to write instead."""


def understood(reader: Callable[[str], int], cell: str) -> bool:
    try:
        reader(cell)
    except NotUnderstood:
        return False
    return True


def quoted(cell: str) -> str:
    return cited(cell) if cell else 'an empty cell'


def shifted(whole: str, behind: str, places: int) -> str:
    """The decimal `whole.behind` times ten to the power of `places`, written out."""
    digits, point = whole + behind.ljust(places, '0'), len(whole) + places
    front, back = digits[:point].lstrip('0') or '0', digits[point:].rstrip('0')
    return f'{front}.{back}' if back else front


# Whole numbers

def whole_number(cell: str) -> int:
    if PLAIN.fullmatch(cell):
        return int(cell)
    if GROUPED.fullmatch(cell):
        return int(re.sub('[^0-9]', '', cell))
    raise NotUnderstood(f'{quoted(cell)}; {EXPECTED}{instead_of(cell)}')


def instead_of(cell: str) -> str:
    if len(cell) <= LONGEST:
        for pattern, advice in ADVICE:
            found = pattern.fullmatch(cell)
            if found:
                return advice(*found.groups()) if callable(advice) else advice
        if cell.isdecimal() and len(cell) <= 18:
            return f': write {int(cell)}'
        if PLAIN.fullmatch(cell.strip()):
            return f': write {cell.strip()}, without the spaces around it'
    return ' (at most 18), without sign, point, comma or exponent'


def thousands_or_decimal(whole: str, behind: str) -> str:
    return f': write {whole}{behind}' + (f', or {whole} if that is meant' if behind == '000' else ' if that is meant, and no decimals')


def power_of_ten(whole: str, behind: str | None, power: str) -> str:
    full = shifted(whole, behind or '', int(power))
    return ': write it in full' + (f' ({full}, if no digit is lost)' if PLAIN.fullmatch(full) else '')


ADVICE = tuple((re.compile(pattern), advice) for pattern, advice in (
    ('', ': write 0 if that is meant'),
    ('([1-9][0-9]{0,2})[,.]([0-9]{3})', thousands_or_decimal),
    ('([0-9]{1,18})[,.]0*', lambda whole: f': write {int(whole)}'),
    ('[0-9]*[,.][0-9]+', ', not a decimal'),
    ('([0-9]{1,18})(?:[,.]([0-9]{1,18}))?[eE][+]?([0-9]{1,2})', power_of_ten),
    ('[0-9]+(?:[,.][0-9]+)?[eE][-+]?[0-9]+', ': write it in full'),
    ('[+]([0-9]{1,18})', lambda number: f': write {number}'),
    ('[-\u2212\u2013\u2014]', ': write 0 if it means none'),
    ('[-\u2212][0-9].*', ', 0 or more'),
    ('=.*', ': write what the formula gives'),
    ('#[A-Z0-9/]+[!?]?', ': the spreadsheet had an error here'),
    ('.*[%\u2030].*', ': write how many there are, not a share'),
    (f"[0-9]+(?:[{SPACES}'\u2019_,.]+[0-9]+)+", ': write it without separators'),
))


# Rates

class Unit(NamedTuple):
    sign: str
    word: str
    places: int  # behind the point; one unit is ten to the power of this in ppm

    def expected(self) -> str:
        return f'expected a number of {self.word} such as 0.5{self.sign}, with at most one point or comma'

    def text(self, ppm: int) -> str:
        """So many ppm, written in this unit."""
        digits = str(ppm).rjust(self.places + 1, '0')
        return self.written(digits[:-self.places], digits[-self.places:])

    def written(self, whole: str, behind: str) -> str:
        """What to write for the number `whole.behind`. Three places behind the point could be taken for thousands."""
        plain = shifted(whole, behind, 0)
        if not may_part_thousands(*plain.partition('.')):
            return plain + self.sign
        return f'{plain}0{self.sign}' if self.places > 3 else 'all rates of the column in percent or ppm'

    def ppm(self, cell: str) -> int:
        """The ppm of a cell that is a number of this unit, with the sign or without it."""
        found = DECIMAL.fullmatch(self.number_in(cell))
        if not found:
            raise NotUnderstood(f'{quoted(cell)}; {self.expected()}')
        whole, mark, behind = found.group(1), found.group(2) or '', found.group(3) or ''
        exact = shifted(whole, behind, self.places)
        if may_part_thousands(whole, mark, behind):
            raise NotUnderstood(f'{cited(cell)}; the {"comma" if mark == "," else "point"} may part thousands. '
                                f'If this is {exact} ppm, write {self.written(whole, behind)}')
        if '.' in exact:
            raise NotUnderstood(f'{cited(cell)}; {shifted(whole, behind, 0)}{self.sign} is not a whole number of ppm: '
                                f'at most {self.places} places behind the point')
        if len(behind) > self.places:
            raise NotUnderstood(f'{cited(cell)}; more than {self.places} places behind the point: write {self.written(whole, behind)}')
        return int(exact)

    def number_in(self, cell: str) -> str:
        """A cell without its sign and the space before that."""
        if not cell.endswith(self.sign):
            return cell
        return cell[:-2] if cell[-2:-1] in SPACES else cell[:-1]


def may_part_thousands(whole: str, mark: str, behind: str) -> bool:
    return mark != '' and len(behind) == 3 and whole != '0'


UNITS = {unit.sign: unit for unit in (Unit('%', 'percent', 4), Unit('\u2030', 'per mille', 3))}


class Rates(NamedTuple):
    """How the rates of a column are written."""
    unit: Unit | None  # None for ppm
    by_header: bool  # the header says so; else the signs of the cells do

    def read(self, cell: str) -> int:
        """A rate in ppm."""
        signed = UNITS.get(cell[-1:])
        if signed is self.unit or self.by_header and not signed:
            return self.unit.ppm(cell) if self.unit else in_ppm(cell)
        raise NotUnderstood(self.why_not_of_unit(cell, signed))

    def why_not_of_unit(self, cell: str, signed: Unit | None) -> str:
        if not signed:
            return self.why_unsigned(cell)
        if not self.unit and not self.by_header:
            return f'{cited(cell)}; {signed.expected()}'
        text = self.unit.text if self.unit else str
        instead = f': write {text(signed.ppm(cell))}' if understood(signed.ppm, cell) else ''
        return f'{cited(cell)}; the rates of this column are in {self.unit.word if self.unit else "ppm"}{instead}'

    def why_unsigned(self, cell: str) -> str:
        meant = []
        if DECIMAL.fullmatch(cell):
            meant.append(f'{cell}{self.unit.sign} if it is {self.unit.word} ({self.unit.ppm(cell)} ppm)')
        if understood(whole_number, cell) and whole_number(cell):
            meant.append(f'{self.unit.text(whole_number(cell))} if it is ppm')
        if not meant:
            return f'{quoted(cell)}; {self.unit.expected()}'
        return f'{cited(cell)} has no {self.unit.word} sign, and other cells of this column have one: write {" or ".join(meant)}'


def in_ppm(cell: str) -> int:
    try:
        return whole_number(cell)
    except NotUnderstood as reason:
        raise NotUnderstood(why_not_ppm(cell, str(reason))) from None


def why_not_ppm(cell: str, not_whole: str) -> str:
    number = cell[:-3].rstrip(SPACES)
    if cell.lower().endswith('ppm') and PLAIN.fullmatch(number):
        return f'{cited(cell)}; rates are in ppm: write the number alone, {number}'
    if any(sign in cell for sign in UNITS):
        return f'{cited(cell)}; {UNITS["%"].expected()}'
    found = SHARE.fullmatch(cell)
    if not found:
        return not_whole
    return (f'{not_whole}. Rates are in ppm (millionths): as a share of 1 this would be {shifted(*found.groups(), 6)} ppm, '
            f'as percent {shifted(*found.groups(), 4)} ppm')
