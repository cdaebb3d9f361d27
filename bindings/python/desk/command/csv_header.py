"""How the header of a table is understood, and the line before it that names the table."""
from __future__ import annotations

from typing import Iterator, NamedTuple

from ..table import COUNTS
from .csv_problems import Problem, Problems, cited
from .csv_text import rough_cells

ANNOUNCED = {'announced': None, 'announced ppm': 'ppm', 'announced (ppm)': 'ppm', 'announced [ppm]': 'ppm',
             'announced %': '%', 'announced (%)': '%', 'announced percent': '%'}  # and the unit that each says
NAME_WORDS = ('name', 'rater')
MOST_COLUMNS = 100  # with a name
MOST_NAMED = 6  # columns in a message
EXAMPLE = f'{COUNTS[0]},defaults,announced'
WHY_IT_MATTERS = (
    'A column of survivors taken for obligors changes the default rates and can make the losing scale win, while every figure '
    'still looks right. Name the column "obligors" if it counts the defaulted too, "survivors" if it leaves them out.')


class Header(NamedTuple):
    """What each column below it holds. Columns are counted from 1, as they stand in the file."""
    line: int
    columns: dict[str, int]  # that are read; of a table the three numbers: counts, 'defaults', 'announced'
    labels: dict[int, str]  # further columns and their names
    unnamed: list[int]
    width: int  # cells of the header, the empty ones too
    counts: str = ''  # of a table: 'obligors' or 'survivors'
    unit: str | None = None  # of the rates, where the header says it: 'ppm' or '%'

    def expected(self) -> str:
        names = {**{column: cited(name) for column, name in self.labels.items()}, **{column: name for name, column in self.columns.items()}}
        return f'expected {max(names)} ({some_of([names[column] for column in sorted(names)])})'


def known(cell: str) -> str | None:
    """The column that a cell of a header names, or None for any other text."""
    name = cell.lower()
    if name in ANNOUNCED:
        return 'announced'
    return name if name in COUNTS or name == 'defaults' else None


def names_columns(cells: list[str]) -> bool:
    return any(known(cell) is not None for cell in cells)


def header_of(line: int, cells: list[str], hint: str, problems: Problems) -> Header | None:
    """The header that these cells are, or None where it is refused."""
    names = [known(cell) for cell in cells]
    header = header_with(line, cells, names, problems, faults_of(line, cells, names, hint))
    if header is None:
        return None
    counts, = set(COUNTS).intersection(names)
    columns = {name: header.columns[name] for name in (counts, 'defaults', 'announced')}
    return header._replace(columns=columns, counts=counts, unit=ANNOUNCED[cells[columns['announced'] - 1].lower()])


def header_with(line: int, cells: list[str], names: list[str | None], problems: Problems, own: Iterator[Problem]) -> Header | None:
    """The header whose cells name these columns, None for any other text; or None, where it is refused with problems of its own kind or
    with one that any header may have."""
    faults = sorted((*own, *faults_of_any(line, cells, names)), key=lambda fault: fault.column or 0)
    for fault in faults:
        problems.add(fault)
    if faults:
        return None
    others = [column for column, name in enumerate(names, 1) if name is None]
    return Header(line, {name: column for column, name in enumerate(names, 1) if name is not None},
                  labels={column: cells[column - 1] for column in others if cells[column - 1]},
                  unnamed=[column for column in others if not cells[column - 1]], width=len(cells))


def faults_of(line: int, cells: list[str], names: list[str | None], hint: str) -> Iterator[Problem]:
    if len(says(cells)) == 2:
        yield Problem(line, None, None, f'the header says both obligors and survivors. {WHY_IT_MATTERS} Keep one of the two')
    elif not set(COUNTS).intersection(names):
        yield Problem(line, like(COUNTS, cells), None,
                      f'the header names {listed(cells)}, neither obligors nor survivors. {WHY_IT_MATTERS}{hint}')
    if any(names):
        yield from (missing(line, name, cells) for name in ('defaults', 'announced') if name not in names)


def faults_of_any(line: int, cells: list[str], names: list[str | None]) -> Iterator[Problem]:
    """A column that is named twice, and too many of them."""
    for name in sorted(filter(None, set(names))):
        if names.count(name) > 1:
            first = names.index(name)
            column = names.index(name, first + 1) + 1
            yield Problem(line, column, name, f'the header names {name} in column {first + 1} already. Keep one of them')
    if len(cells) - cells.count('') > MOST_COLUMNS:
        yield Problem(line, None, None, f'columns in the header: {len(cells) - cells.count("")}; at most {MOST_COLUMNS}. Leave some out')


def says(cells: list[str]) -> list[str]:
    """The kinds that stand anywhere in a header, also within another text."""
    return [kind for kind in COUNTS if any(kind in cell.lower() for cell in cells)]


def missing(line: int, name: str, cells: list[str]) -> Problem:
    column = like((name,), cells)
    found = f'; {cited(cells[column - 1])} is not understood' if column else ''
    names = f'one of: {", ".join(ANNOUNCED)}' if name in ANNOUNCED else name
    return Problem(line, column, name, f'the header names no column {name}{found}. Expected {names}')


def like(names: tuple[str, ...], cells: list[str]) -> int | None:
    """The first column with a name that is like one of these, but none that is known."""
    return next((column for column, cell in enumerate(cells, 1)
                 if not known(cell) and any(name[:-1] in cell.lower() for name in names)), None)


def listed(cells: list[str]) -> str:
    """Names of columns in a message: the known ones as they are, any other text as it was written."""
    return some_of([known(cell) or cited(cell) for cell in cells])


def some_of(names: list[str]) -> str:
    return ', '.join(names[:MOST_NAMED]) + (', ...' if len(names) > MOST_NAMED else '')


def is_name_line(cells: list[str]) -> bool:
    return cells[0].lower() in NAME_WORDS and len(cells) > 1 and cells[1] != '' and not any(cells[2:])


def starts_as_name_line(line: str, following: str | None) -> bool:
    """Whether a line is a name line or meant as one, whatever separates its cells. A header may start with the same word."""
    first, *others = rough_cells(line)
    if first.lower() not in NAME_WORDS:
        return False
    if sum(other != '' for other in others) <= 1:
        return True
    return not names_columns(others) and following is not None and names_columns(rough_cells(following))


def starts_table(cells: list[str], header: Header) -> bool:
    """Whether a line below a header is itself a header or a name line. Labels are any text, so that a row may name columns too."""
    counted = (cells[header.columns[header.counts] - 1:] or [''])[0]
    if counted[:1].isdigit():
        return False
    return known(counted) is not None or sum(known(cell) is not None for cell in cells) > 1 or is_name_line(cells)
