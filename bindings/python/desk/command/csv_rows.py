"""How the lines below a header are read, and how they become the rows of a table."""
from __future__ import annotations

import re
from typing import Any, Callable, Iterator, NamedTuple

from .csv_cells import NotUnderstood, Rates, UNITS, understood, whole_number
from .csv_header import Header
from .csv_problems import Problem, Problems, cited
from .csv_text import NOT_CELLS, SEPARATORS, separators_in

GROUP_FIRST, GROUP_NEXT = re.compile('[1-9][0-9]{0,2}'), re.compile('[0-9]{3}')


class Sheet(NamedTuple):
    """One table of a CSV file, cells read, nothing else checked."""
    name: str | None  # of its name line
    counts: str  # what its first column counts: 'obligors' or 'survivors'
    line: int  # of its header
    columns: dict[str, int]  # counts, 'defaults', 'announced' -> column in the file, from 1
    rows: list[tuple[int, int, int]]  # best grade first: first column, defaults, announced in ppm
    lines: list[int]  # of each row
    label_names: list[str]  # further columns, as the header names them
    labels: list[list[str]]  # and their cells, a list for each row


class Line(NamedTuple):
    number: int
    cells: list[str] | None  # None where its quotes do not fit


def cell_at(cells: list[str], column: int) -> str:
    """The cell of a column, counted from 1; an empty one where the line ends before it."""
    return cells[column - 1] if column <= len(cells) else ''


class Parted(NamedTuple):
    """Two neighbouring cells that look like one number with a comma in it."""
    column: int  # of the first
    name: str
    number: str  # as it stands in the file, for a message
    instead: str  # as it should be written


class LineReader:
    """Reads the lines below a header, whose cells are those that it names."""

    nothing = 'nothing in this line'  # said of a line with nothing in the columns that are read
    optional: tuple[str, ...] = ()  # columns whose cells may be left out at the end of a line
    words: tuple[str, ...] = ()  # columns that hold words, not numbers

    def __init__(self, header: Header, lines: list[Line], separator: str, problems: Problems) -> None:
        self.header, self.lines, self.separator, self.problems = header, lines, separator, problems
        self.columns = sorted(header.columns.items(), key=lambda item: item[1])  # in the order of the file
        self.uneven = any(line.cells is not None and len(line.cells) != header.width for line in lines)

    def reader(self, name: str) -> Callable[[str], Any]:
        """How a cell of a column is understood."""
        raise NotImplementedError

    def take(self, line: int, cells: list[str], values: dict[str, Any]) -> None:
        """What becomes of a line that is understood."""
        raise NotImplementedError

    def read(self) -> None:
        self.find_unnamed()
        for line in self.lines:
            misfit = self.misfit(line)
            if misfit:
                self.problems.add(misfit)
            else:
                self.read_line(line.number, line.cells)

    def read_line(self, line: int, cells: list[str]) -> None:
        values = {}
        for name, column in self.columns:
            try:
                values[name] = self.reader(name)(cell_at(cells, column))
            except NotUnderstood as reason:
                self.problems.add(Problem(line, column, name, str(reason)))
        if len(values) == len(self.columns):
            self.take(line, cells, values)

    def find_unnamed(self) -> None:
        """Columns that hold something and have no name."""
        found: dict[int, Line] = {}
        for line in self.lines if self.header.unnamed else ():
            columns = [column for column in self.stray(line.cells or []) if column not in found]
            if columns and not self.misfit(line):
                found.update((column, line) for column in columns)
        for column, line in sorted(found.items()):
            self.problems.add(Problem(self.header.line, column, None, f'the header has no name for this column, and line {line.number} '
                                                                      f'has {cited(line.cells[column - 1])} in it. Name this column'))

    def stray(self, cells: list[str]) -> Iterator[int]:
        """The columns without a name where a line holds something."""
        for column in self.header.unnamed:
            if column > len(cells):
                break
            if cells[column - 1]:
                yield column

    def misfit(self, line: Line) -> Problem | None:
        """Why the cells of a line are not those that the header names."""
        cells, width = line.cells, self.header.width
        if cells is None:
            return Problem(line.number, None, None, NOT_CELLS)
        for column in (column for column, cell in enumerate(cells[width:], width + 1) if cell):
            for parted in self.parted(cells):
                return Problem(line.number, parted.column, parted.name, f'{self.found(cells)}. It looks as if {parted.number} is one '
                                                                        f'number: write {parted.instead}')
            return Problem(line.number, column, None, f'{self.found(cells)}. Put a cell that holds {SEPARATORS[self.separator]} in quotes')
        for name, column in self.columns:
            if column > len(cells) and name not in self.optional:
                return Problem(line.number, column, name, self.found(cells))
        if not any(cell_at(cells, column) for _, column in self.columns):
            return Problem(line.number, None, None, f'{self.nothing}. Fill them in, or leave the line out')
        return self.doubt(line)

    def found(self, cells: list[str]) -> str:
        others = len(cells) == 1 and separators_in(cells[0])
        hint = f'. The cells of this file are separated by {SEPARATORS[self.separator]}' if others else ''
        return f'cells: {len(cells)}; {self.header.expected()}{hint}'

    def doubt(self, line: Line) -> Problem | None:
        """That a line is a row in two ways. Where all lines have the cells of the header, a number in two cells would stick out."""
        if self.uneven or any(self.stray(line.cells)):
            for parted in self.parted(line.cells):
                if self.fits(line.cells, parted):
                    return Problem(line.number, parted.column, parted.name, f'{parted.number} may be one number or two cells: write '
                                   f'{parted.instead}, or give every line of the table as many cells as its header has')
        return None

    def parted(self, cells: list[str]) -> Iterator[Parted]:
        """Where a comma within a number may have made two cells of one."""
        for name, column in self.columns if self.separator == ',' else ():
            first, second = (cells[column - 1:column + 1] + ['', ''])[:2]
            instead = self.joined(name, first, second)
            if instead is not None:
                yield Parted(column, name, cited(f'{first},{second}'), instead)

    def joined(self, name: str, first: str, second: str) -> str | None:
        """How to write the number that two neighbouring cells may be, where the comma between them parts thousands."""
        thousands = name not in self.words and GROUP_FIRST.fullmatch(first) and GROUP_NEXT.fullmatch(second)
        return f'{first}{second}' if thousands else None

    def fits(self, cells: list[str], parted: Parted) -> bool:
        """Whether a line is a row too where the parted cells are one."""
        joined = cells[:parted.column - 1] + [parted.instead] + cells[parted.column + 1:]
        return all(column == parted.column or column <= len(joined) and understood(self.reader(name), joined[column - 1])
                   for name, column in self.columns)


class RowReader(LineReader):
    """Reads the lines of one table into its sheet."""

    nothing = 'no numbers in this line'

    def __init__(self, name: str | None, header: Header, lines: list[Line], separator: str, problems: Problems) -> None:
        super().__init__(header, lines, separator, problems)
        self.sheet = Sheet(name, header.counts, header.line, header.columns, [], [], list(header.labels.values()), [])
        self.rates = rates_of(header, lines)
        self.example: tuple[str, int] | None = None  # a rate as it is written, and in ppm

    def reader(self, name: str) -> Callable[[str], int]:
        return self.rates.read if name == 'announced' else whole_number

    def joined(self, name: str, first: str, second: str) -> str | None:
        """The comma may also be the decimal comma of a rate."""
        unit, both = UNITS.get(second[-1:]) or self.rates.unit, f'{first},{second}'
        if name == 'announced' and unit:
            return unit.text(unit.ppm(both)) if understood(unit.ppm, both) else None
        return super().joined(name, first, second)

    def take(self, line: int, cells: list[str], values: dict[str, int]) -> None:
        self.sheet.rows.append((values[self.header.counts], values['defaults'], values['announced']))
        self.sheet.lines.append(line)
        self.sheet.labels.append([cell_at(cells, column) for column in self.header.labels])
        if self.example is None or not self.example[1]:
            self.example = cells[self.header.columns['announced'] - 1], values['announced']

    def note(self, rater: int) -> str | None:
        """How the rates were understood, where that is not as ppm."""
        unit = self.rates.unit
        if not unit or not self.example:
            return None
        cell, ppm = self.example
        return f'rates of rater {rater} are read as {unit.word}: {cell if cell.endswith(unit.sign) else cell + unit.sign} is {ppm} ppm'


def rates_of(header: Header, lines: list[Line]) -> Rates:
    """The unit of a table's rates: as the header says, else that of the first number with a sign in the column."""
    if header.unit:
        return Rates(UNITS.get(header.unit), by_header=True)
    column = header.columns['announced']
    rows = (line.cells for line in lines if line.cells and len(line.cells) >= column and not any(line.cells[header.width:]))
    rates = (cells[column - 1] for cells in rows)
    return Rates(next((UNITS[cell[-1]] for cell in rates if cell[:1].isdigit() and cell[-1] in UNITS), None), by_header=False)
